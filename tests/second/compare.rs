//! Comparing the library's reading with what 01 says: the number, the place, and every byte of the four lent areas.

use crate::cases::{chart_length, listing_length};
use crate::library::{self, Lent, Make};
use crate::prng::Dice;
use crate::reading::{Outcome, Study};
use crate::tally::Tally;

pub struct Mismatch {
    pub call: String,
    pub expected: String,
    pub found: String,
    /// Bytes that are not in the case itself, by name.
    pub lent: Vec<(&'static str, Vec<u8>)>,
}

/// The first place where two byte strings differ, in words.
pub fn difference(what: &str, expected: &[u8], found: &[u8]) -> Option<(String, String)> {
    if expected == found {
        return None;
    }
    let at = (0..expected.len().max(found.len())).find(|&k| expected.get(k) != found.get(k))?;
    let show = |bytes: &[u8]| format!("{what} byte {at} is {:?} (of {} bytes)", bytes.get(at), bytes.len());
    Some((show(expected), show(found)))
}

/// A lent area must hold these bytes now, and its surroundings must be untouched.
pub fn same_bytes(call: &str, what: &'static str, expected: &[u8], lent: &Lent) -> Result<(), Mismatch> {
    let wrong = |expected: String, found: String| {
        Err(Mismatch { call: call.into(), expected, found, lent: vec![] })
    };
    if let Some((good, bad)) = difference(what, expected, lent.contents()) {
        return wrong(good, bad);
    }
    if !lent.sides_stayed() {
        return wrong(format!("bytes around the {what} stay"), "they changed".into());
    }
    Ok(())
}

pub fn same_number(call: &str, expected: u64, found: u64) -> Result<(), Mismatch> {
    if expected == found {
        return Ok(());
    }
    let show = |n: u64| format!("{n} (as 4 * value + kind: value {}, kind {})", n / 4, n % 4);
    Err(Mismatch { call: call.into(), expected: show(expected), found: show(found), lent: vec![] })
}

/// What a call about a listing is lent and only reads.
#[derive(Clone, Copy)]
pub struct Given<'a> {
    pub book: &'a [u8],
    pub text: &'a [u8],
    pub listing: &'a [u8],
}

impl Given<'_> {
    pub fn lend(&self, dice: &mut Dice) -> [Lent; 3] {
        [self.book, self.text, self.listing].map(|bytes| Lent::new(bytes, dice))
    }

    /// All three must be as they were.
    pub fn stayed(&self, call: &str, [book, text, listing]: &[Lent; 3]) -> Result<(), Mismatch> {
        same_bytes(call, "book", self.book, book)?;
        same_bytes(call, "text", self.text, text)?;
        same_bytes(call, "listing", self.listing, listing)
    }

    /// A mismatch, with what is needed to meet it again.
    pub fn tell(&self, mut wrong: Mismatch) -> Mismatch {
        wrong.lent.extend([("listing to check", self.listing.to_vec()), ("text of the listing", self.text.to_vec())]);
        wrong
    }
}

/// One call of the reading, in one make.
fn read_once(make: Make, book: &[u8], study: &Study, before: (&[u8], &[u8]), after: &Outcome, dice: &mut Dice) -> Result<(), Mismatch> {
    let (call, expected) = match make {
        Make::Number => ("meadowsink_read", after.answer.packed()),
        Make::Place => ("meadowsink_read_place", after.answer.place()),
    };
    let mut lent_book = Lent::new(book, dice);
    let mut lent_text = Lent::new(&study.text, dice);
    let mut chart = Lent::new(before.0, dice);
    let mut listing = Lent::new(before.1, dice);
    let found = library::read(make, &mut lent_book, &mut lent_text, &mut chart, &mut listing);
    same_number(call, expected, found)?;
    same_bytes(call, "book", book, &lent_book)?;
    same_bytes(call, "text", &study.text, &lent_text)?;
    same_bytes(call, "chart", &after.chart, &chart)?;
    same_bytes(call, "listing", &after.listing, &listing)
}

/// Both makes of the reading, over these buffers.
pub fn read_with(book: &[u8], study: &Study, chart: &[u8], listing: &[u8], dice: &mut Dice, tally: &mut Tally) -> Result<(), Mismatch> {
    let after = study.outcome(chart, listing);
    tally.add("read", after.answer.name());
    for make in [Make::Number, Make::Place] {
        read_once(make, book, study, (chart, listing), &after, dice).map_err(|mut wrong| {
            wrong.expected += &format!("; the answer by 01 is {:?}", after.answer);
            wrong.lent = vec![("chart before", chart.to_vec()), ("listing before", listing.to_vec())];
            wrong
        })?;
    }
    Ok(())
}

/// The reading over two random sets of buffers (one if the text is long).
pub fn reading(book: &[u8], study: &Study, dice: &mut Dice, tally: &mut Tally) -> Result<(), Mismatch> {
    let times = if study.text.len() > 12 { 1 } else { 2 };
    for _ in 0..times {
        let chart_size = chart_length(dice, study);
        let listing_size = listing_length(dice, study);
        let (chart, listing) = (dice.garbage(chart_size), dice.garbage(listing_size));
        read_with(book, study, &chart, &listing, dice, tally)?;
    }
    Ok(())
}
