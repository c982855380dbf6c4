//! Comparing the library's answer to which of two readings is lower with what request [9] says: the number, the place, and that
//! every lent area stays; and the forms of this program with each other.

use crate::book::Refusal;
use crate::compare::{same_bytes, same_number, Mismatch};
use crate::library::{self, Lent, Make};
use crate::lower::{answer, bag, by_highest, Answer, Order};
use crate::lower_notes::note;
use crate::lower_steps::by_steps;
use crate::others::{packed, Outcome};
use crate::prng::Dice;
use crate::reasons::Ways;
use crate::tally::Tally;

/// What is lent, in order.
const NAMES: [&str; 4] = ["book compared by", "text compared for", "first listing", "second listing"];

/// What two readings have in common.
#[derive(Clone, Copy)]
pub struct Shared<'a> {
    pub bytes: &'a [u8],
    pub ways: &'a Result<Ways<'a>, Refusal>,
    pub text: &'a [u8],
}

/// Two listings to be compared, and what request [9] makes of them.
pub struct Asked<'a> {
    pub shared: Shared<'a>,
    pub listings: [&'a [u8]; 2],
    pub answer: Answer,
}

/// The viewer's number, and the place.
pub fn numbers(answer: Answer) -> (u64, u64) {
    packed(answer.map(Order::number))
}

impl<'a> Shared<'a> {
    pub fn asked(self, listings: [&'a [u8]; 2]) -> Asked<'a> {
        let ways = self.ways.as_ref().map_err(|refused| *refused);
        Asked { shared: self, listings, answer: ways.and_then(|ways| answer(ways.book, self.text, listings)) }
    }
}

impl<'a> Asked<'a> {
    fn areas(&self) -> [&'a [u8]; 4] {
        [self.shared.bytes, self.shared.text, self.listings[0], self.listings[1]]
    }

    /// A mismatch, with what is needed to meet it again.
    pub fn tell(&self, mut wrong: Mismatch) -> Mismatch {
        wrong.expected += &format!("; the answer by [9] is {:?}", self.answer);
        wrong.lent.extend(NAMES.into_iter().zip(self.areas().map(|area| area.to_vec())));
        wrong
    }

    /// This program against itself: each form of the order says the same.
    fn own(&self, tally: &mut Tally) -> Outcome {
        let (Ok(ways), Ok(order)) = (self.shared.ways, self.answer) else {
            return Ok(());
        };
        let [first, second] = self.listings.map(|listing| bag(ways.book, listing));
        let (highest, steps) = (by_highest(ways, &first, &second), by_steps(ways.book, &first, &second));
        let met = [(true, "what is left"), (true, "the highest"), (steps.is_some(), "steps")];
        tally.add_met("compare by", &met.map(|(is_met, name)| (is_met && tally.is_random, name)));
        if highest == order && steps.map_or(true, |found| found == order) {
            return Ok(());
        }
        let call = "the order of two bags (this program against itself)".into();
        let found = format!("by the highest {highest:?}, by steps {steps:?}");
        Err(Mismatch { call, expected: format!("by what is left {order:?}"), found, lent: vec![] })
    }

    /// The areas must be as they were.
    fn stayed(&self, call: &str, lent: &[Lent]) -> Outcome {
        let before = NAMES.into_iter().zip(self.areas());
        before.zip(lent).try_for_each(|((name, bytes), area)| same_bytes(call, name, bytes, area))
    }

    /// One make; the library's number comes back. If the listings are the same, it is asked again with one area for both.
    fn once(&self, make: Make, call: &str, expected: u64, dice: &mut Dice) -> Result<u64, Mismatch> {
        let mut lent = self.areas().map(|area| Lent::new(area, dice));
        let found = library::compare(make, &mut lent);
        same_number(call, expected, found)?;
        self.stayed(call, &lent)?;
        if self.listings[0] == self.listings[1] {
            let [book, text, listing, _] = &mut lent;
            same_number(&format!("{call}, one area twice"), expected, library::compare_itself(make, [book, text, listing]))?;
            self.stayed(call, &lent)?;
        }
        Ok(found)
    }

    fn all(&self, dice: &mut Dice, tally: &mut Tally) -> Result<u64, Mismatch> {
        self.own(tally)?;
        let (number, place) = numbers(self.answer);
        self.once(Make::Place, "meadowsink_compare_place", place, dice)?;
        self.once(Make::Number, "meadowsink_compare", number, dice)
    }

    /// Both makes, and this program's own forms. The library's number comes back.
    pub fn compare(&self, dice: &mut Dice, tally: &mut Tally) -> Result<u64, Mismatch> {
        note(self, tally);
        self.all(dice, tally).map_err(|wrong| self.tell(wrong))
    }
}
