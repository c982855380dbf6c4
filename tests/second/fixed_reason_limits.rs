//! Reasons of clashes at their limits, worked by hand from request [8] of 02: the longest chains, and the last of 255
//! declarations; the viewer's numbers; and rows of declarations that are no chain.

use crate::book::read_book;
use crate::compare::{same_number, Mismatch};
use crate::fixed_groups::{four_signs, many_signs};
use crate::fixed_reasons::{all_reasons, first, last, no, one_of, only, worked, Ask, Worked};
use crate::prng::Dice;
use crate::reason_calls::numbers;
use crate::reasons::{Question, Ways};
use crate::tally::Tally;

/// As many declarations as a book may have.
const MOST_DECLARATIONS: usize = 255;

/// Kind 1 from each of these rules to the next.
fn links(rules: impl IntoIterator<Item = u8>) -> Vec<[u8; 3]> {
    let rules: Vec<u8> = rules.into_iter().collect();
    rules.windows(2).map(|pair| [1, pair[0], pair[1]]).collect()
}

/// Rules 1 to 63 and then the digit, rule 0, each higher than the next: 63 declarations.
fn all_of_64() -> Vec<[u8; 3]> {
    links((1..=63).chain([0]))
}

/// The bytes from one to another, both included.
fn row(from: u8, to: u8) -> Vec<u8> {
    (from..=to).collect()
}

/// A book of 64 rules.
fn of_64(name: &'static str, declarations: &[[u8; 3]], asks: impl IntoIterator<Item = Ask>) -> Worked {
    worked(name, many_signs(63, declarations), asks)
}

/// The longest chains.
fn long_chains() -> Vec<Worked> {
    let reversed: Vec<[u8; 3]> = all_of_64().into_iter().rev().collect();
    let down: Vec<u8> = row(0, 62).into_iter().rev().collect();
    let behind = [vec![[5, 1, 1]; MOST_DECLARATIONS - 63], all_of_64()].concat();
    let short_cut = [all_of_64(), links([1, 63])].concat();
    // By rules 2 to 32 and by rules 33 to 63, so 32 declarations each; and by 2 to 33 or by 34 to 63, so 33 and 31.
    let like = [links((1..=32).chain([0])), links([1].into_iter().chain(33..=63).chain([0]))].concat();
    let unlike = [links((1..=33).chain([0])), links([1].into_iter().chain(34..=63).chain([0]))].concat();
    vec![
        of_64("63", &all_of_64(), [only([1, 0, 0], &row(0, 62)), only([1, 2, 0], &row(0, 62)), no([63, 2, 1])]),
        of_64("62", &all_of_64(), [only([1, 0, 63], &row(0, 61)), only([2, 2, 0], &row(1, 62)), only([62, 0, 0], &[61, 62])]),
        of_64("63, the lowest first", &reversed, [only([1, 0, 0], &down), only([63, 0, 0], &[0]), only([1, 0, 2], &[62])]),
        of_64("63, the last of 255", &behind, [only([1, 2, 0], &row(192, 254)), last([1, 2, 1], 0)]),
        of_64("a short cut", &short_cut, [only([1, 0, 63], &[63]), only([1, 0, 0], &[63, 62]), only([1, 0, 62], &row(0, 60))]),
        of_64("twice 32", &like, [one_of([1, 0, 0], &[&row(0, 31), &row(32, 63)]), only([1, 0, 63], &row(32, 62))]),
        of_64("33 and 31", &unlike, [only([1, 2, 0], &row(33, 63)), only([1, 2, 33], &row(0, 31))]),
    ]
}

/// 255 declarations, of which this one stands at this index and the others are this filling.
fn one_among(filling: [u8; 3], index: usize, one: [u8; 3]) -> Vec<u8> {
    let mut all = [filling; MOST_DECLARATIONS];
    all[index] = one;
    four_signs(&all)
}

/// Books of 255 declarations. The filling 7 3 4 doesn't cover rules 1 and 2, and 1 3 4 leads elsewhere.
fn many_declarations() -> Vec<Worked> {
    let of = |name, index, one, asks: [Ask; 3]| worked(name, one_among([7, 3, 4], index, one), asks);
    let both = |index| [first([1, 0, 2], index), last([1, 2, 2], index), first([2, 0, 1], index)];
    let indices = row(0, 254);
    let each: Vec<&[u8]> = indices.chunks(1).collect();
    vec![
        of("2 at 254", 254, [2, 1, 2], [last([1, 2, 2], 254), last([2, 2, 1], 254), no([1, 0, 2])]),
        of("3 at 254", 254, [3, 2, 1], [first([1, 0, 2], 254), first([2, 0, 1], 254), no([1, 2, 2])]),
        of("4 at 254", 254, [4, 2, 1], both(254)),
        of("5 at 254", 254, [5, 1, 2], [last([1, 2, 2], 254), last([2, 2, 2], 254), last([3, 2, 4], 0)]),
        of("6 at 254", 254, [6, 0, 2], [first([1, 0, 2], 254), first([1, 0, 0], 254), first([4, 0, 3], 0)]),
        of("7 at 254", 254, [7, 1, 2], both(254)),
        of("1 at 254", 254, [1, 1, 2], [only([1, 0, 2], &[254]), only([1, 2, 2], &[254]), no([2, 2, 1])]),
        of("7 at 127", 127, [7, 1, 2], both(127)),
        of("7 at 128", 128, [7, 1, 2], both(128)),
        of("7 at 64", 64, [7, 1, 2], both(64)),
        of("1 at 128", 128, [1, 1, 2], [only([1, 0, 2], &[128]), only([1, 2, 2], &[128]), no([2, 0, 1])]),
        worked("1 among 1", one_among([1, 3, 4], 254, [1, 1, 2]), [only([1, 0, 2], &[254]), no([1, 0, 4])]),
        worked("255 alike, kind 1", four_signs(&[[1, 1, 2]; 255]), [one_of([1, 0, 2], &each)]),
        worked("255 alike, kind 5", four_signs(&[[5, 1, 2]; 255]), [last([1, 2, 2], 0), last([2, 2, 1], 0)]),
    ]
}

/// Questions, and their numbers: 4 times the value, plus the kind, where the value is 4 times what is counted, plus the line.
fn same_numbers(tally: &mut Tally) -> Result<(), Mismatch> {
    let (longest, last) = (many_signs(63, &all_of_64()), one_among([7, 3, 4], 254, [2, 1, 2]));
    let cases: [(Vec<u8>, Question, u64); 9] = [
        (four_signs(&[]), (1, 0, 2), 0),
        (four_signs(&[[1, 1, 2]]), (1, 0, 2), 21),
        (four_signs(&[[1, 1, 2], [1, 2, 3]]), (1, 0, 3), 37),
        (longest, (1, 0, 0), 1013),
        (four_signs(&[[3, 1, 2]]), (1, 0, 2), 9),
        (four_signs(&[[2, 1, 2]]), (1, 2, 2), 13),
        (four_signs(&[[2, 3, 4], [2, 1, 2]]), (1, 2, 2), 29),
        (last, (1, 2, 2), 4077),
        (four_signs(&[]), (5, 0, 2), 31),
    ];
    for (bytes, ask, hand) in cases {
        let own = read_book(&bytes).and_then(|book| Ways::new(&book).answer(ask));
        same_number("worked reason, its number (this program against the hand)", hand, numbers(own).0)?;
        tally.add("fixed", "worked by hand");
    }
    Ok(())
}

/// From rule 1 to rule 4 it takes two declarations, 3 and 2, and no others do.
const SHORT_CUT: [[u8; 3]; 8] = [[1, 1, 2], [1, 2, 3], [1, 3, 4], [1, 1, 3], [2, 1, 4], [7, 1, 4], [1, 2, 0], [4, 3, 4]];

/// Rows that are no chain, or not the start of a shortest one: not from rule 1, not to rule 4, over a gap, by another kind, by
/// an index that isn't there, backwards, and by the longer way.
const NO_CHAINS: [&[u8]; 15] = [
    &[1, 2], &[3, 1], &[3, 3], &[0, 1], &[0, 6], &[0, 2], &[2, 3], &[4, 2], &[3, 7], &[5, 2], &[8, 2], &[3, 8], &[255, 2],
    &[0], &[2],
];

/// The judge against the hand.
fn same_judgements(tally: &mut Tally) -> Result<(), Mismatch> {
    let book = read_book(&four_signs(&SHORT_CUT)).ok();
    let good = |start: &[u8]| book.as_ref().is_some_and(|book| Ways::new(book).judge((1, 4), 2, start).is_ok());
    let right: [&[u8]; 3] = [&[], &[3], &[3, 2]];
    for (row, hand) in right.map(|row| (row, true)).into_iter().chain(NO_CHAINS.map(|row| (row, false))) {
        let call = format!("a row judged, {row:?} (this program against the hand)");
        same_number(&call, hand as u64, good(row) as u64)?;
        tally.add("fixed", "worked by hand");
    }
    Ok(())
}

pub fn run(dice: &mut Dice, tally: &mut Tally) -> Result<(), Mismatch> {
    same_judgements(tally)?;
    same_numbers(tally)?;
    [long_chains(), many_declarations()].iter().try_for_each(|cases| all_reasons(cases, dice, tally))
}
