//! One random case from one seed: a book (often good, sometimes damaged), a text, and sizes for the lent buffers.

use crate::book::{read_book, Book};
use crate::plans::{some_plan, Plan};
use crate::prng::Dice;
use crate::reading::Study;
use crate::texts::{some_text, Grown};

pub struct Case {
    pub book: Vec<u8>,
    pub text: Vec<u8>,
    /// The listing of the tree that spelled the text, before it was changed; may be wrong or empty.
    pub listing: Vec<u16>,
}

/// A value that is likely to be just inside or just outside some limit.
fn telling_byte(dice: &mut Dice, book: &[u8], old: u8) -> u8 {
    let size = |k: usize| book.get(k).copied().unwrap_or(0);
    let choices = [
        old.wrapping_add(1),
        old.wrapping_sub(1),
        0,
        255,
        size(0),
        size(1),
        size(1).wrapping_sub(1),
        size(2).wrapping_add(64),
        size(2).wrapping_add(63),
        64,
        9,
        17,
        5,
        7,
        8,
        dice.byte(),
    ];
    dice.pick(&choices)
}

/// A place in a book, each part of it equally likely: header, counts, bodies, last bytes.
fn telling_place(dice: &mut Dice, book: &[u8]) -> usize {
    if book.len() < 7 {
        return dice.below(book.len().max(1));
    }
    let counts = 6 + book[1] as usize + book[2] as usize;
    let declarations = 3 * book[3] as usize;
    let place = match dice.below(4) {
        0 => dice.below(6),
        1 => dice.between(6, counts),
        2 => book.len() - 1 - dice.below(declarations.max(1)).min(book.len() - 1),
        _ => counts + dice.below(book.len().saturating_sub(counts).max(1)),
    };
    place.min(book.len() - 1)
}

/// Swaps the two rules of a declaration, so that a group falls.
fn turn_round(dice: &mut Dice, book: &mut [u8]) {
    let count = book.get(3).map_or(0, |&d| d as usize).min(book.len() / 3);
    if count > 0 {
        let at = book.len() - 3 * dice.between(1, count);
        book.swap(at + 1, at + 2);
    }
}

/// Changes one byte, cuts, lengthens, or turns a declaration round.
fn damage(dice: &mut Dice, book: &mut Vec<u8>) {
    match dice.below(11) {
        0 => {
            let length = dice.below(book.len() + 1);
            book.truncate(length);
        }
        1 => {
            let length = dice.below(8).min(book.len());
            book.truncate(length);
        }
        2 => {
            let length = book.len().saturating_sub(dice.between(1, 3));
            book.truncate(length);
        }
        3 => {
            for _ in 0..dice.between(1, 3) {
                book.push(dice.byte() % 8);
            }
        }
        4 => turn_round(dice, book),
        _ if book.is_empty() => book.push(1),
        _ => {
            let at = telling_place(dice, book);
            book[at] = telling_byte(dice, book, book[at]);
        }
    }
}

/// Now and then a rule twice, or one above itself: refusals 8 and 9 for plans of every style.
fn perhaps_refused(dice: &mut Dice, plan: &mut Plan) {
    let rule = dice.below(plan.rules.len());
    match dice.below(150) {
        0 if plan.rules.len() < 64 => plan.rules.push(plan.rules[rule].clone()),
        1 if plan.declarations.len() < 255 => plan.declarations.push([1, rule as u8, rule as u8]),
        _ => {}
    }
}

/// Mostly short; now and then long, if the book is small enough for that to end soon.
fn longest(dice: &mut Dice, book: &Book) -> usize {
    let rows: usize = book.rules.iter().map(|r| r.arguments.len() + 1).sum();
    let roll = dice.below(5000);
    if rows > 60 {
        return dice.below(5);
    }
    if roll < 12 && rows <= 20 {
        return 200;
    }
    if roll < 250 && rows <= 40 {
        return 40;
    }
    dice.pick(&[0, 1, 2, 3, 4, 5, 6, 7, 9, 12, 12])
}

fn text_for(dice: &mut Dice, book: &Book) -> Grown {
    let most = longest(dice, book);
    let mut grown = some_text(dice, book, most);
    // Few texts of exactly 200, 201 and more bytes.
    if dice.chance(1) && dice.chance(40) {
        let length = dice.pick(&[201, 201, 202, 255, 256, 300, 1000]);
        grown.text.resize(length, b'8');
    } else if most == 200 && dice.chance(50) {
        let letter = grown.text.first().copied().unwrap_or(b'8');
        grown.text.resize(200, letter);
    }
    grown
}

pub fn make(dice: &mut Dice) -> Case {
    let mut plan = some_plan(dice);
    perhaps_refused(dice, &mut plan);
    let mut book = plan.bytes();
    // Two or three defects at once show whether the checks go in 01's order.
    let defects = if dice.chance(14) { dice.pick(&[1, 1, 1, 2, 2, 3]) } else { 0 };
    for _ in 0..defects {
        damage(dice, &mut book);
    }
    let grown = match read_book(&book) {
        Ok(good) => text_for(dice, &good),
        Err(_) => {
            let length = dice.pick(&[0, 1, 3, 200, 201]);
            Grown { text: dice.garbage(length), listing: vec![] }
        }
    };
    Case { book, text: grown.text, listing: grown.listing }
}

/// A chart exactly long enough, one too short, longer, or of any length.
pub fn chart_length<B>(dice: &mut Dice, study: &Study<B>) -> usize {
    let need = if study.book.is_err() || study.text.len() > 200 { dice.below(300) } else { study.need };
    match dice.below(16) {
        0 => need.saturating_sub(1),
        1 => dice.below(need + 1),
        2..=6 => need + dice.between(1, 50),
        _ => need,
    }
}

/// A listing buffer exactly long enough, short by one byte or two, odd, empty or longer.
pub fn listing_length<B>(dice: &mut Dice, study: &Study<B>) -> usize {
    let exact = match &study.listing {
        Some(only) => 2 * only.numbers.len(),
        None => dice.below(60),
    };
    match dice.below(16) {
        0 => exact.saturating_sub(1),
        1 => exact.saturating_sub(2),
        2 => dice.below(exact + 1),
        3 => dice.below(3),
        4..=6 => exact + 1,
        7..=9 => exact + dice.between(2, 40),
        10 => 65_536 + dice.below(10),
        _ => exact,
    }
}
