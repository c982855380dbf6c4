//! Random cases of request [8] of 02: why a rule clashes, in the book of a case, refused or not, and in a book with many ranks.

use crate::book::{read_book, Book, Refusal};
use crate::cases::Case;
use crate::others::{some_room, Outcome};
use crate::prng::Dice;
use crate::reading::Study;
use crate::reason_calls::Asked;
use crate::reason_notes::note;
use crate::reason_plans::{some_asked, some_ranked};
use crate::reasons::{Answer, Reason, Ways};
use crate::tally::Tally;

/// Of the books of cases one accepted in so many is asked about, to save time.
const ONE_IN: usize = 3;
/// A book with many ranks is asked about so many times.
const MANY: usize = 3;
/// A buffer for no chain has about so many bytes.
const UNUSED: usize = 5;

/// A buffer around the length of the chain.
fn some_buffer(dice: &mut Dice, answer: Answer) -> Vec<u8> {
    let length = match answer {
        Ok(Some(Reason::Chain(length))) => length,
        _ => UNUSED,
    };
    let room = some_room(dice, length);
    dice.garbage(room)
}

/// Some questions about a book.
fn questions(bytes: &[u8], book: &Result<Book, Refusal>, count: usize, dice: &mut Dice, tally: &mut Tally) -> Outcome {
    let ways = book.as_ref().map(Ways::new).map_err(|refused| *refused);
    for _ in 0..count {
        let ask = some_asked(dice, book, &ways);
        let asked = Asked { bytes, ways: &ways, ask, before: &[] };
        let before = some_buffer(dice, asked.answer());
        let asked = Asked { before: &before, ..asked };
        note(&asked, tally);
        asked.compare(dice)?;
    }
    Ok(())
}

/// One question about the book of the case: about each that is refused, and about some others.
pub fn perhaps_of_book(case: &Case, study: &Study, dice: &mut Dice, tally: &mut Tally) -> Outcome {
    if study.book.is_ok() && dice.below(ONE_IN) > 0 {
        return Ok(());
    }
    questions(&case.book, &study.book, 1, dice, tally)
}

/// About a book with many ranks, which has nothing to do with the case.
pub fn ranked(dice: &mut Dice, tally: &mut Tally) -> Outcome {
    let bytes = some_ranked(dice).bytes();
    questions(&bytes, &read_book(&bytes), MANY, dice, tally)
}
