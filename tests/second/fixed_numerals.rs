//! Numerals worked by hand from request [6] of 02: every number that can stand in a flat text, and every depth, number, start
//! and end that can stand in a page.

use crate::book::read_book;
use crate::compare::{Given, Mismatch};
use crate::fixed_pages::{own_lines, page_of, round, row};
use crate::fixed_ranges::{class_of, rule_to_each};
use crate::flat;
use crate::listing::to_bytes;
use crate::numerals::Meant;
use crate::others::flat_with;
use crate::plans::Plan;
use crate::prng::Dice;
use crate::tally::Tally;

/// This program's numbers against those by hand.
fn by_hand(what: &str, book: &[u8], hand: &[u64], own: &Meant, tally: &mut Tally) -> Result<(), Mismatch> {
    if own.numbers != hand {
        let call = format!("worked numbers of a {what} (this program against the hand)");
        let lent = vec![("book", book.to_vec())];
        return Err(Mismatch { call, expected: format!("{hand:?}"), found: format!("{:?}", own.numbers), lent });
    }
    tally.add("fixed", "worked by hand");
    Ok(())
}

/// A book, and the numbers of its flat text by hand.
type Flat = (Vec<u8>, Vec<u64>);

/// 64 rules, each with one character of its own, four times: every number that a flat text can have.
fn every_number() -> Vec<Flat> {
    let of_part = |part: u8| {
        let ranges: Vec<(u8, u8)> = (64 * part..=64 * part + 63).map(|c| (c, c)).collect();
        let classes: Vec<&[(u8, u8)]> = ranges.chunks(1).collect();
        let hand = (0..64).flat_map(|r| [64 * part as u64 + r, 258 + r]).collect();
        (rule_to_each(&classes), hand)
    };
    (0..4).map(of_part).collect()
}

/// Ranges that meet 10 and 100, the ends of the alphabet, ranges of one number, two and more, no range, and rules as numbers.
fn some_numbers() -> Vec<Flat> {
    let of = |ranges: &[(u8, u8)], hand: &[u64]| (class_of(ranges), hand.to_vec());
    let rules = vec![(0, vec![64]), (0, vec![0, 0]), (0, vec![]), (1, vec![1, 0])];
    let ranked = Plan { sorts: 2, start: 0, rules, classes: vec![vec![]], declarations: vec![[4, 1, 1]] };
    vec![
        of(&[(9, 10), (100, 99), (0, 0), (255, 255)], &[0, 9, 10, 99, 100, 255, 258]),
        of(&[(10, 10), (9, 9), (101, 98)], &[9, 10, 98, 101, 258]),
        of(&[(0, 255)], &[0, 255, 258]),
        of(&[(255, 0)], &[0, 255, 258]),
        of(&[(0, 0)], &[0, 258]),
        of(&[(1, 0)], &[0, 1, 258]),
        of(&[(200, 200), (202, 202), (204, 206)], &[200, 202, 204, 206, 258]),
        of(&[], &[258]),
        // Rule 1 is not together with itself: 258 and 260 are left of 258 to 260.
        (ranked.bytes(), vec![258, 258, 260, 258, 260, 259, 260, 261, 258, 260, 261]),
    ]
}

fn same_flat((book, hand): &Flat, dice: &mut Dice, tally: &mut Tally) -> Result<(), Mismatch> {
    by_hand("flat text", book, hand, &Meant::in_flat(book), tally)?;
    let text = read_book(book).map(|b| flat::text(&b));
    let length = text.as_ref().map_or(0, |t| t.len());
    for room in [length, length + 9] {
        flat_with(book, text.as_deref().map_err(|r| *r), &dice.garbage(room), dice, tally)?;
    }
    Ok(())
}

/// A book, a text, the numbers of a reading, and those of its page by hand.
struct Page {
    book: Vec<u8>,
    text: Vec<u8>,
    numbers: Vec<u16>,
    hand: Vec<u64>,
}

/// Rule k takes byte k and goes on with another rule; the last, rule 63, is nothing. So every rule has its line.
fn every_rule() -> Page {
    let rules = (0..63).map(|k| (0, vec![64 + k, 0])).chain([(0, vec![])]).collect();
    let classes = (0..63).map(|k| vec![(k, k)]).collect();
    let book = Plan { sorts: 1, start: 0, rules, classes, declarations: vec![] }.bytes();
    let numbers = (0..63).flat_map(|k| [258 + k, k]).chain([321]).collect();
    let lines = |k: u64| [[k, 258 + k, k, 63], [k + 1, k, k, k + 1]].concat();
    let hand = (0..63).flat_map(lines).chain([63, 321, 63, 63]).collect();
    Page { book, text: (0..63).collect(), numbers, hand }
}

/// A row of 200 bytes, from this one on: each start and end that a page can have.
fn every_start(first: u8) -> Page {
    let text: Vec<u8> = (first..=first + 199).collect();
    let numbers = text.iter().flat_map(|&c| [258, c as u16]).chain([259]).collect();
    let lines = |k: u64| [[k, 258, k, 200], [k + 1, first as u64 + k, k, k + 1]].concat();
    let hand = (0..200).flat_map(lines).chain([200, 259, 200, 200]).collect();
    Page { book: row(), text, numbers, hand }
}

/// Each number one below the one before it: each depth that a page can have.
fn every_depth() -> Page {
    let numbers = [vec![258; 4095], vec![259]].concat();
    let hand = (0..4095).flat_map(|k| [k, 258, 0, 0]).chain([4095, 259, 0, 0]).collect();
    Page { book: round(), text: vec![], numbers, hand }
}

fn same_page(case: &Page, dice: &mut Dice, tally: &mut Tally) -> Result<(), Mismatch> {
    let given = Given { book: &case.book, text: &case.text, listing: &to_bytes(&case.numbers) };
    let own = own_lines(given).map_or(vec![], |lines| lines);
    by_hand("page", &case.book, &case.hand, &Meant::in_page(&own), tally)?;
    page_of(&case.book, &case.text, &case.numbers, dice, tally)
}

pub fn run(dice: &mut Dice, tally: &mut Tally) -> Result<(), Mismatch> {
    for case in every_number().iter().chain(&some_numbers()) {
        same_flat(case, dice, tally)?;
    }
    for case in [every_rule(), every_start(0), every_start(56), every_depth()] {
        same_page(&case, dice, tally)?;
    }
    Ok(())
}
