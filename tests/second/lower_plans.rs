//! Random books with many readings of one text and many ranks, and readings by them; and faults in texts and listings.

use crate::listing::{to_bytes, to_numbers};
use crate::lower_books::{letter, menu, menu_listing, round_above, round_listing, rounds, MOST_LETTERS, MOST_ROUNDS};
use crate::plans::Plan;
use crate::prng::Dice;
use crate::reason_plans::{add_other, some_links};
use crate::reasons::HIGHER;
use crate::tries::{at_limit, other_number};

/// As many declarations as a book may have, and rounds as the longest listing can hold.
const MOST_DECLARATIONS: usize = 255;
const LONGEST_ROW: usize = 2047;
/// A book in so many has as many letters or kinds of rounds as there may be.
const FULL_ONE_IN: usize = 12;

/// A book, a text, and three readings of it.
pub struct Three {
    pub book: Vec<u8>,
    pub text: Vec<u8>,
    pub listings: [Vec<u8>; 3],
}

/// Ranks between so many things: links, now and then none, and a few of the other kinds.
fn some_ranks(dice: &mut Dice, things: usize) -> Vec<[u8; 3]> {
    let mut all = if dice.chance(90) { some_links(dice, things) } else { vec![] };
    for _ in 0..dice.pick(&[0, 0, 1, 3]) {
        add_other(dice, things, &mut all);
    }
    all
}

fn some_count(dice: &mut Dice, most: usize) -> usize {
    match dice.below(FULL_ONE_IN) {
        0 => most,
        _ => dice.between(2, 6),
    }
}

/// Some of so many things, each any number of times.
fn some_row(dice: &mut Dice, things: usize, length: usize) -> Vec<usize> {
    let few = [dice.below(things), dice.below(things)];
    (0..length).map(|_| if dice.chance(50) { dice.pick(&few) } else { dice.below(things) }).collect()
}

/// The same things in another order, or with a few of them changed, so that most of both is in common.
fn changed_row(dice: &mut Dice, row: &[usize], things: usize) -> Vec<usize> {
    let mut out: Vec<usize> = dice.shuffled(row.len()).into_iter().map(|at| row[at]).collect();
    for _ in 0..dice.below(4).min(row.len()) {
        let at = dice.below(row.len());
        out[at] = dice.below(things);
    }
    out
}

/// The same, and a few things more or less, or as many more that a byte would not see it.
fn resized_row(dice: &mut Dice, row: &[usize], things: usize) -> Vec<usize> {
    let mut out = changed_row(dice, row, things);
    match dice.below(4) {
        0 => out.truncate(row.len().saturating_sub(dice.between(1, 2))),
        1 => out.extend((0..dice.between(1, 5)).map(|_| dice.below(things)).collect::<Vec<_>>()),
        2 if dice.chance(10) => out.extend([dice.below(things)].repeat(dice.pick(&[256, 256, 1024]))),
        _ => {}
    }
    out.truncate(LONGEST_ROW);
    out
}

/// Rows of letters. The byte that all of them take may be any.
pub fn some_menu(dice: &mut Dice) -> Three {
    let (letters, byte) = (some_count(dice, MOST_LETTERS), dice.byte());
    let mut plan = menu(letters, byte);
    let ranks = some_ranks(dice, letters);
    plan.declarations = ranks.into_iter().map(|[kind, a, b]| [kind, letter(a as usize), letter(b as usize)]).collect();
    let length = if dice.below(40) == 0 { dice.between(100, 200) } else { dice.between(1, 5) };
    let first = some_row(dice, letters, length);
    let rows = [first.clone(), changed_row(dice, &first, letters), changed_row(dice, &first, letters)];
    Three { book: plan.bytes(), text: vec![byte; length], listings: rows.map(|row| menu_listing(&row, byte)) }
}

/// Rounds, few or very many. The last kind stands behind all others, where no rank is against it.
pub fn some_rounds(dice: &mut Dice) -> Three {
    let kinds = some_count(dice, MOST_ROUNDS + 1);
    let with_last = dice.chance(50);
    let kind = |k: usize| if with_last && k + 1 == kinds { MOST_ROUNDS } else { k };
    let mut plan = rounds();
    for [rank, above, below] in some_ranks(dice, kinds) {
        match rank {
            HIGHER => plan.declarations.extend(round_above(kind(above as usize), kind(below as usize))),
            other => plan.declarations.push([other, above, below]),
        }
    }
    plan.declarations.truncate(MOST_DECLARATIONS);
    let length = if dice.below(20) == 0 { dice.pick(&[255, 256, 300, 600, 2000]) } else { dice.below(7) };
    let first = some_row(dice, kinds, length);
    let rows = [first.clone(), resized_row(dice, &first, kinds), resized_row(dice, &first, kinds)];
    let listings = rows.map(|row| {
        let mut row: Vec<usize> = row.into_iter().map(kind).collect();
        row.sort_by_key(|&k| k == MOST_ROUNDS);
        round_listing(&row)
    });
    Three { book: plan.bytes(), text: vec![], listings }
}

/// Sorts with sums of their own and ways up from one to another, as in Example 7.4 of 002; and a text of a few terms. Its
/// readings are left to trees.rs.
pub fn some_overloaded(dice: &mut Dice) -> (Plan, Vec<u8>) {
    let sorts = dice.between(2, 4);
    let mut rules = vec![(0, vec![64])];
    for s in 0..sorts as u8 {
        let (next, any) = (s.saturating_sub(1), dice.below(sorts) as u8);
        let shapes = [(75, vec![s, 65, s]), (15, vec![s, 65, any]), (80, vec![next]), (20, vec![any]), (20, vec![64])];
        rules.extend(shapes.into_iter().filter(|shape| dice.chance(shape.0)).map(|shape| (s, shape.1)));
    }
    rules.retain(|(result, arguments)| arguments != &[*result]);
    let order = dice.shuffled(rules.len());
    let rules: Vec<_> = order.into_iter().map(|k| rules[k].clone()).collect();
    let classes = [b'n', b'+'].map(|byte| vec![(byte, byte)]).to_vec();
    let mut plan = Plan { sorts, start: sorts - 1, rules, classes, declarations: vec![] }.without_twins();
    plan.declarations = some_ranks(dice, plan.rules.len());
    let keep = dice.pick(&[100, 60, 30]);
    plan.declarations.retain(|_| dice.chance(keep));
    let text = [b"n".to_vec(), b"+n".repeat(dice.below(4))].concat();
    (plan, text)
}

/// A listing with something wrong: odd, empty, cut, a number changed or one more, or around the most bytes.
fn faulty(dice: &mut Dice, listing: &[u8]) -> Vec<u8> {
    let mut numbers = to_numbers(listing);
    let at = dice.below(numbers.len());
    let mut out = listing.to_vec();
    match dice.below(8) {
        0 => out.push(dice.byte()),
        1 => drop(out.pop()),
        2 => out.clear(),
        3 => out.truncate(2 * at),
        4 => out.extend(other_number(dice, 3, 258).to_le_bytes()),
        5 if dice.chance(50) => return at_limit(dice, &numbers),
        _ => {
            if let Some(number) = numbers.get_mut(at) {
                *number = other_number(dice, 64, *number);
            }
            return to_bytes(&numbers);
        }
    }
    out
}

/// A text and two listings, some of them with a fault.
pub fn with_faults(dice: &mut Dice, text: &[u8], listings: [&[u8]; 2]) -> (Vec<u8>, [Vec<u8>; 2]) {
    let mut text = text.to_vec();
    if dice.chance(8) {
        let length = dice.pick(&[200, 201, 201, 202, 300]);
        text.resize(length, b'8');
    }
    let listings = listings.map(|listing| if dice.chance(50) { faulty(dice, listing) } else { listing.to_vec() });
    (text, listings)
}
