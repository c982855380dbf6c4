//! Which listings are given to the listing check: the right one, it cut at each place, with one number changed, with
//! something after it, against a text with more or less in it, random numbers, lengths at the limits, and now and then one
//! of a long or deep tree. The page for the binder is asked for with all of them but most of the wrong ones.

use crate::book::{Book, Refusal, FIRST_RULE};
use crate::cases::Case;
use crate::compare::Given;
use crate::listing::to_bytes;
use crate::others::{self, Outcome};
use crate::page_calls;
use crate::prng::Dice;
use crate::reading::Study;
use crate::tally::Tally;
use crate::texts::{spelled, Shape, Wish};

/// A text, and the bytes of a listing for it.
pub type Try = (Vec<u8>, Vec<u8>);

/// A number that might be taken for the right one.
pub fn other_number(dice: &mut Dice, rules: usize, old: u16) -> u16 {
    let rule = FIRST_RULE + dice.below(rules + 1) as u16;
    let letter = dice.byte() as u16;
    dice.pick(&[rule, rule, rule, letter, old ^ 1, old.wrapping_add(256), old.wrapping_sub(FIRST_RULE), 256, 257, 65_535, 97])
}

/// Variants of one listing for the same text.
fn variants(dice: &mut Dice, base: &[u16], rules: usize) -> Vec<Vec<u16>> {
    let mut out = vec![base.to_vec()];
    if base.len() <= 24 && dice.chance(30) {
        out.extend((0..base.len()).map(|cut| base[..cut].to_vec()));
    } else {
        for _ in 0..3 {
            out.push(base[..dice.below(base.len() + 1)].to_vec());
        }
    }
    for _ in 0..4 {
        let mut changed = base.to_vec();
        let at = dice.below(base.len());
        if let Some(number) = changed.get_mut(at) {
            *number = other_number(dice, rules, *number);
        }
        out.push(changed);
    }
    let mut longer = base.to_vec();
    longer.push(other_number(dice, rules, FIRST_RULE));
    out.push(longer);
    let length = dice.below(8);
    out.push((0..length).map(|_| other_number(dice, rules, 97)).collect());
    out
}

/// Lengths at the limit: 8,190 to 8,194 bytes, the listing first and zeros after it.
pub fn at_limit(dice: &mut Dice, base: &[u16]) -> Vec<u8> {
    let mut bytes = to_bytes(base);
    bytes.resize(dice.between(8190, 8195), 0);
    bytes
}

/// The text with a byte more, a byte less, or another last byte.
fn other_text(dice: &mut Dice, text: &[u8]) -> Vec<u8> {
    let mut out = text.to_vec();
    match dice.below(3) {
        0 => out.push(dice.pick(&[b'8', b'a', 0])),
        1 => drop(out.pop()),
        _ => {
            if let Some(last) = out.last_mut() {
                *last ^= 1;
            }
        }
    }
    out
}

/// A text of its own with a right listing. It is not read, only its listing is checked and printed, so it may be long
/// without taking long.
fn another(dice: &mut Dice, book: &Book) -> Option<Try> {
    let shape = dice.pick(&[Shape::Any, Shape::Wide, Shape::Deep]);
    let wish = Wish { careful: true, longest: dice.pick(&[12, 60, 120, 200]), shape };
    let grown = spelled(dice, book, wish)?;
    Some((grown.text, to_bytes(&grown.listing)))
}

/// The listings for a case.
pub fn some_tries(case: &Case, study: &Study, dice: &mut Dice) -> Vec<Try> {
    let rules = study.book.as_ref().map_or(3, |b| b.rules.len());
    let base = match &study.listing {
        Some(only) => only.numbers.clone(),
        None => case.listing.clone(),
    };
    let mut tries: Vec<Try> = vec![];
    if let Ok(book) = &study.book {
        for numbers in variants(dice, &base, rules) {
            tries.push((case.text.clone(), to_bytes(&numbers)));
        }
        tries.push((other_text(dice, &case.text), to_bytes(&base)));
        let mut odd = to_bytes(&base);
        odd.push(dice.byte());
        tries.push((case.text.clone(), odd));
        if dice.chance(20) {
            tries.extend(another(dice, book));
        }
    } else {
        let length = dice.below(9);
        tries.push((case.text.clone(), dice.garbage(length)));
    }
    if dice.chance(3) {
        tries.push((case.text.clone(), at_limit(dice, &base)));
        let length = dice.pick(&[200, 201, 202, 300]);
        let extra = dice.below(2);
        tries.push((vec![b'8'; length], vec![2; 2 + extra]));
    }
    tries
}

/// The check of these listings with the book in `bytes`, and the page of most of them.
pub fn ask(bytes: &[u8], tries: &[Try], book: &Result<Book, Refusal>, dice: &mut Dice, tally: &mut Tally) -> Outcome {
    for (text, listing) in tries {
        let given = Given { book: bytes, text, listing };
        others::listing(given, book, dice, tally)?;
        page_calls::all(given, book, dice, tally)?;
    }
    Ok(())
}

pub fn listings(case: &Case, study: &Study, dice: &mut Dice, tally: &mut Tally) -> Outcome {
    let tries = some_tries(case, study, dice);
    ask(&case.book, &tries, &study.book, dice, tally)
}
