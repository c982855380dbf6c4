//! A byte against a class, by request [6] of 02: it passes exactly if some range of the class, either way round, has it.
//!
//! A class is taken out of its book and put into one of its own, whose only rule takes one character of it. Each of the 256
//! bytes is given to the library as a text, to be read, and to have its listing checked. What is expected comes from the
//! ranges, asked one by one; there is no set and no table here.

use crate::book::class_places;
use crate::cases::Case;
use crate::compare::{same_bytes, same_number, Given};
use crate::library::{self, Lent, Make};
use crate::listing::to_bytes;
use crate::others::Outcome;
use crate::prng::Dice;
use crate::ranges::{written, Class, Written};
use crate::reading::Study;
use crate::tally::Tally;

/// One accepted book in so many has a class of it tried, to save time.
const ONE_IN: usize = 20;
/// One byte in so many is also tried in the makes for the place.
const PLACE_ONE_IN: usize = 8;

/// The only rule of the book.
const RULE: u16 = 258;

/// The book of one sort, one rule and one class with these range bytes.
fn alone(ranges: &[u8]) -> Vec<u8> {
    [&[1, 1, 1, 0, 0, 0, 1, (ranges.len() / 2) as u8, 0, 64], ranges].concat()
}

/// Has some range of the class the byte, either way round?
pub fn passes(class: &[Written], c: u8) -> bool {
    class.iter().any(|range| range.has(c))
}

/// Reads the text of one byte. It has one reading if the byte passes, with the given listing, else none. The chart is that of
/// a rule with one argument over one byte.
fn read(make: Make, given: Given, passes: bool, dice: &mut Dice) -> Outcome {
    let (call, one) = match make {
        Make::Number => ("meadowsink_read", 4 * 2 + 1),
        Make::Place => ("meadowsink_read_place", 0),
    };
    let (mut chart, mut listing) = (dice.garbage(7), dice.garbage(5));
    let [mut b, mut t] = [given.book, given.text].map(|bytes| Lent::new(bytes, dice));
    let [mut c, mut l] = [&chart, &listing].map(|bytes| Lent::new(bytes, dice));
    let found = library::read(make, &mut b, &mut t, &mut c, &mut l);
    chart[..6].copy_from_slice(&[1, 0, 1, 0, passes as u8, 0]);
    if passes {
        listing[..4].copy_from_slice(given.listing);
    }
    same_number(call, if passes { one } else { 0 }, found)?;
    same_bytes(call, "book", given.book, &b)?;
    same_bytes(call, "text", given.text, &t)?;
    same_bytes(call, "chart", &chart, &c)?;
    same_bytes(call, "listing", &listing, &l)
}

/// Checks the listing: right if the byte passes, else wrong at the byte, which is number 1.
fn check(make: Make, given: Given, passes: bool, dice: &mut Dice) -> Outcome {
    let (call, wrong) = match make {
        Make::Number => ("meadowsink_check_listing", 4 * 1 + 1),
        Make::Place => ("meadowsink_check_listing_place", 0),
    };
    let mut lent = given.lend(dice);
    let [b, t, l] = &mut lent;
    same_number(call, if passes { 0 } else { wrong }, library::check_listing(make, b, t, l))?;
    given.stayed(call, &lent)
}

/// One byte by both calls; for some bytes in both makes.
fn one_byte(book: &[u8], c: u8, passes: bool, dice: &mut Dice) -> Outcome {
    let given = Given { book, text: &[c], listing: &to_bytes(&[RULE, c as u16]) };
    let makes = if dice.below(PLACE_ONE_IN) > 0 { &[Make::Number][..] } else { &[Make::Number, Make::Place] };
    let mut both = |make: &Make| read(*make, given, passes, dice).and_then(|_| check(*make, given, passes, dice));
    makes.iter().try_for_each(&mut both).map_err(|mut wrong| {
        wrong.call = format!("a class alone, byte {c}: {}", wrong.call);
        wrong.lent.push(("class alone", book.to_vec()));
        wrong
    })
}

/// Which class it is, and how many bytes pass.
fn note(class: &Class, name: &'static str, tally: &mut Tally) {
    let overlaps = |(k, range): (usize, &Written)| class[..k].iter().any(|earlier| range.gap(earlier) < 0);
    let by_downward = |&c: &u8| passes(class, c) && class.iter().all(|range| range.is_downward() || !range.has(c));
    let passed = (0..=255).filter(|&c| passes(class, c)).count() as u64;
    let met = [
        (1, "classes"),
        (class.is_empty() as u64, "no range"),
        ((class.len() == 1) as u64, "one range"),
        ((class.len() > 1) as u64, "several ranges"),
        (class.iter().any(Written::is_downward) as u64, "a downward range"),
        (class.iter().enumerate().any(overlaps) as u64, "overlapping ranges"),
        (passed, "passed"),
        (256 - passed, "kept out"),
        ((0..=255).filter(by_downward).count() as u64, "passed, downward ones alone"),
    ];
    for (times, kind) in met.into_iter().filter(|m| m.0 > 0) {
        tally.add_times(name, kind, times);
    }
}

/// Every byte against the class with these range bytes.
pub fn every_byte(ranges: &[u8], name: &'static str, dice: &mut Dice, tally: &mut Tally) -> Outcome {
    let book = alone(ranges);
    let class = &written(&book)[0];
    note(class, name, tally);
    (0..=255).try_for_each(|c| one_byte(&book, c, passes(class, c), dice))
}

/// For some accepted books, one of their classes, in use or not.
pub fn perhaps(case: &Case, study: &Study, dice: &mut Dice, tally: &mut Tally) -> Outcome {
    let places = class_places(&case.book);
    if study.book.is_err() || places.is_empty() || dice.below(ONE_IN) > 0 {
        return Ok(());
    }
    let place = places[dice.below(places.len())].clone();
    every_byte(&case.book[place], "byte of a class", dice, tally)
}
