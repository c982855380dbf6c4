//! Random cases of request [9] of 02: which of two readings is lower. The readings are those that trees.rs keeps of a case, and
//! those by books that are made for it; and there are listings with faults, by books refused or not.

use crate::book::{read_book, Book};
use crate::cases::Case;
use crate::listing::to_bytes;
use crate::lower_calls::Shared;
use crate::lower_laws::each_with_each;
use crate::lower_plans::{some_menu, some_overloaded, some_rounds, with_faults, Three};
use crate::others::Outcome;
use crate::prng::Dice;
use crate::reading::Study;
use crate::reasons::Ways;
use crate::tally::Tally;
use crate::trees::Forest;

/// Of the texts with several readings, of those with one, of the accepted books of cases, and of the books made for it, one in so
/// many is taken, to save time.
const SEVERAL_ONE_IN: usize = 2;
const SINGLE_ONE_IN: usize = 20;
const BOOK_ONE_IN: usize = 5;
const MADE_ONE_IN: usize = 8;
/// So many readings of a text are compared, each with each.
const READINGS: usize = 3;
/// The most trees by a book that is made for it.
const MOST_TREES: usize = 300;

/// Two listings, of which some have faults, as the text may have.
fn faulty(shared: Shared, listings: [&[u8]; 2], dice: &mut Dice, tally: &mut Tally) -> Outcome {
    let (text, listings) = with_faults(dice, shared.text, listings);
    Shared { text: &text, ..shared }.asked([&listings[0], &listings[1]]).compare(dice, tally).map(drop)
}

/// Readings each with each, and the first and the last of them with faults.
fn all_of(shared: Shared, listings: &[Vec<u8>], dice: &mut Dice, tally: &mut Tally) -> Outcome {
    each_with_each(shared, listings, dice, tally)?;
    faulty(shared, [&listings[0], &listings[listings.len() - 1]], dice, tally)
}

/// Some of the readings that are kept; and a tree that clashes, which is no reading.
fn of_forest(bytes: &[u8], book: &Book, text: &[u8], forest: &Forest, dice: &mut Dice, tally: &mut Tally) -> Outcome {
    let readings = forest.readings();
    if readings.is_empty() {
        return Ok(());
    }
    let ways = Ok(Ways::new(book));
    let shared = Shared { bytes, ways: &ways, text };
    let order = dice.shuffled(readings.len());
    let listings: Vec<Vec<u8>> = order.iter().take(READINGS).map(|&k| to_bytes(&forest.listing(readings[k]))).collect();
    all_of(shared, &listings, dice, tally)?;
    let barred: Vec<usize> = forest.roots().into_iter().filter(|root| !root.1).map(|root| root.0).collect();
    if barred.is_empty() {
        return Ok(());
    }
    let other = to_bytes(&forest.listing(dice.pick(&barred)));
    let pair = if dice.chance(50) { [&other, &listings[0]] } else { [&listings[0], &other] };
    tally.add_met("compare with", &[(tally.is_random, "a tree with a clash")]);
    shared.asked(pair.map(|listing| &listing[..])).compare(dice, tally).map(drop)
}

/// By the book of the case, now and then.
pub fn perhaps_of_forest(case: &Case, book: &Book, forest: &Forest, dice: &mut Dice, tally: &mut Tally) -> Outcome {
    let one_in = if forest.readings().len() > 1 { SEVERAL_ONE_IN } else { SINGLE_ONE_IN };
    match dice.below(one_in) {
        0 => of_forest(&case.book, book, &case.text, forest, dice, tally),
        _ => Ok(()),
    }
}

/// The listing of the case, which may be wrong, with itself, one or both with faults: by each book that is refused, and by some
/// others.
pub fn perhaps_of_book(case: &Case, study: &Study, dice: &mut Dice, tally: &mut Tally) -> Outcome {
    if study.book.is_ok() && dice.below(BOOK_ONE_IN) > 0 {
        return Ok(());
    }
    let ways = study.book.as_ref().map(Ways::new).map_err(|refused| *refused);
    let listing = to_bytes(study.listing.as_ref().map_or(&case.listing, |only| &only.numbers));
    faulty(Shared { bytes: &case.book, ways: &ways, text: &case.text }, [&listing, &listing], dice, tally)
}

/// By a book in which sorts are overloaded, on a few terms.
fn overloaded(dice: &mut Dice, tally: &mut Tally) -> Outcome {
    let (plan, text) = some_overloaded(dice);
    let bytes = plan.bytes();
    match read_book(&bytes) {
        Ok(book) => of_forest(&bytes, &book, &text, &Forest::grow(&book, &text, MOST_TREES), dice, tally),
        Err(_) => Ok(()),
    }
}

/// Now and then by a book that is made for it and has nothing to do with the case.
pub fn perhaps_made(dice: &mut Dice, tally: &mut Tally) -> Outcome {
    if dice.below(MADE_ONE_IN) > 0 {
        return Ok(());
    }
    let Three { book: bytes, text, listings } = match dice.below(3) {
        0 => some_menu(dice),
        1 => some_rounds(dice),
        _ => return overloaded(dice, tally),
    };
    let book = read_book(&bytes);
    let ways = book.as_ref().map(Ways::new).map_err(|refused| *refused);
    all_of(Shared { bytes: &bytes, ways: &ways, text: &text }, &listings, dice, tally)
}
