//! Comparing the library's calls for flat texts with what request [7] says: the check, the reading with its number, its place
//! and every byte of the five lent areas, and the reading by a book's own flat text with the reading by the book.

use crate::compare::{difference, same_bytes, same_number, Mismatch};
use crate::flat::Rooted;
use crate::flat_lines::FlatText;
use crate::library::{self, Lent, Make};
use crate::others::{packed, refused_name, Outcome};
use crate::prng::Dice;
use crate::reading::{self, Answer, Study};
use crate::tally::Tally;

const MAKES: [Make; 2] = [Make::Number, Make::Place];

/// What a reading by a flat text is given, and only reads.
#[derive(Clone, Copy)]
pub struct Given<'a> {
    pub flat: &'a FlatText,
    pub roots: &'a [u8],
    pub text: &'a [u8],
}

impl Given<'_> {
    pub fn study(&self) -> Study<Rooted> {
        Study::by_flat(self.flat.rooted(self.roots), self.text)
    }

    /// With a chart and a listing buffer.
    fn lend(&self, (chart, listing): (&[u8], &[u8]), dice: &mut Dice) -> [Lent; 5] {
        [&self.flat.bytes, self.roots, self.text, chart, listing].map(|area| Lent::new(area, dice))
    }

    /// What is only read must be as it was.
    fn stayed(&self, call: &str, [flat, roots, text, ..]: &[Lent; 5]) -> Outcome {
        same_bytes(call, "flat text", &self.flat.bytes, flat)?;
        same_bytes(call, "roots", self.roots, roots)?;
        same_bytes(call, "text", self.text, text)
    }

    /// A mismatch, with what is needed to meet it again.
    pub fn tell(&self, (chart, listing): (&[u8], &[u8]), wrong: Mismatch) -> Mismatch {
        let mut wrong = self.flat.tell(wrong);
        let areas = [("roots", self.roots), ("text read", self.text), ("chart before", chart), ("listing before", listing)];
        wrong.lent.extend(areas.map(|(name, bytes)| (name, bytes.to_vec())));
        wrong
    }
}

/// Both makes of the check.
pub fn check(flat: &FlatText, dice: &mut Dice, tally: &mut Tally) -> Outcome {
    let answer = flat.lines().map(|found| 4 * found.lines.len() as u64 + 1);
    tally.add("check_flat", answer.as_ref().map_or_else(refused_name, |_| "accepted".into()));
    let (number, place) = packed(answer);
    let mut lent = Lent::new(&flat.bytes, dice);
    same_number("meadowsink_check_flat", number, library::check_flat(Make::Number, &mut lent))
        .and_then(|_| same_number("meadowsink_check_flat_place", place, library::check_flat(Make::Place, &mut lent)))
        .and_then(|_| same_bytes("meadowsink_check_flat", "flat text", &flat.bytes, &lent))
        .map_err(|wrong| flat.tell(wrong))
}

/// One call of the reading, in one make.
fn read_once(make: Make, given: Given, before: (&[u8], &[u8]), after: &reading::Outcome, dice: &mut Dice) -> Outcome {
    let (call, expected) = match make {
        Make::Number => ("meadowsink_read_flat", after.answer.packed()),
        Make::Place => ("meadowsink_read_flat_place", after.answer.place()),
    };
    let mut lent = given.lend(before, dice);
    let found = library::read_flat(make, &mut lent);
    same_number(call, expected, found)?;
    given.stayed(call, &lent)?;
    same_bytes(call, "chart", &after.chart, &lent[3])?;
    same_bytes(call, "listing", &after.listing, &lent[4])
}

/// Both makes of the reading, over these buffers; the answer comes back.
pub fn read_with(given: Given, study: &Study<Rooted>, before: (&[u8], &[u8]), dice: &mut Dice) -> Result<Answer, Mismatch> {
    let after = study.outcome(before.0, before.1);
    for make in MAKES {
        read_once(make, given, before, &after, dice).map_err(|mut wrong| {
            wrong.expected += &format!("; the answer by 01 and [7] is {:?}", after.answer);
            given.tell(before, wrong)
        })?;
    }
    Ok(after.answer)
}

/// Two areas must hold the same bytes.
fn same_areas(call: &str, what: &str, by_book: &Lent, by_flat: &Lent) -> Outcome {
    match difference(what, by_book.contents(), by_flat.contents()) {
        Some((expected, found)) => Err(Mismatch { call: call.into(), expected, found, lent: vec![] }),
        None => Ok(()),
    }
}

/// The library against itself, in one make: the number or the place, chart and listing are the same by the book and by its
/// flat text.
fn same_once(make: Make, book: &[u8], given: Given, before: (&[u8], &[u8]), dice: &mut Dice) -> Outcome {
    let name = if make == Make::Number { "" } else { "_place" };
    let call = format!("meadowsink_read{name} by the book, and meadowsink_read_flat{name} by its flat text");
    let mut by_book = [book, given.text, before.0, before.1].map(|area| Lent::new(area, dice));
    let mut by_flat = given.lend(before, dice);
    let [b, t, c, l] = &mut by_book;
    let expected = library::read(make, b, t, c, l);
    same_number(&call, expected, library::read_flat(make, &mut by_flat))?;
    same_areas(&call, "chart", &by_book[2], &by_flat[3])?;
    same_areas(&call, "listing", &by_book[3], &by_flat[4])
}

/// What the library reads by a book's own flat text is what it reads by the book, and what this program says of the book.
pub fn same_as_book(
    book: &[u8],
    given: Given,
    study: &Study,
    before: (&[u8], &[u8]),
    dice: &mut Dice,
) -> Result<Answer, Mismatch> {
    let after = study.outcome(before.0, before.1);
    for make in MAKES {
        same_once(make, book, given, before, dice)
            .and_then(|_| read_once(make, given, before, &after, dice))
            .map_err(|wrong| given.tell(before, wrong))?;
    }
    Ok(after.answer)
}
