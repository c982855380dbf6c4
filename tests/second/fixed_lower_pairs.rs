//! Rows of letters compared by hand, from request [9] of 02: which rule covers which, and kinds that are not "higher".

use crate::compare::Mismatch;
use crate::fixed_lower::{all_orders, rows, signs, Worked};
use crate::prng::Dice;
use crate::tally::Tally;

fn pair(name: &'static str, declarations: &[[u8; 3]], first: &[usize], second: &[usize], sign: char) -> Worked {
    rows(name, declarations, &[first, second], signs(sign))
}

/// A rule that is used more often has a higher one, but that one is not used less often.
fn not_less() -> Vec<Worked> {
    vec![
        pair("a higher rule used as often", &[[1, 0, 1], [1, 0, 2]], &[0, 1], &[0, 2], '?'),
        pair("a higher rule used as often, one side", &[[1, 0, 1]], &[0, 1], &[0, 2], '?'),
        pair("a higher rule used by neither", &[[1, 0, 1], [1, 0, 2]], &[1], &[2], '?'),
        pair("a higher rule used more often too", &[[1, 0, 1]], &[0, 1], &[2, 2], '?'),
        pair("a higher rule used more often too, covered", &[[1, 0, 1], [1, 2, 0]], &[0, 1], &[2, 2], '<'),
        pair("a lower rule used less often", &[[1, 1, 0]], &[1], &[0], '>'),
        // 0 is used less often, once instead of three times, and still used.
        pair("a higher rule used less often, not never", &[[1, 0, 1]], &[0, 1, 1], &[0, 0, 0], '<'),
        pair("the lower rule used by both", &[[1, 0, 1]], &[1, 1, 1], &[0, 0, 1], '<'),
    ]
}

/// Several rules are used more often: each must be covered, be it by one for all.
fn several() -> Vec<Worked> {
    let both = [[1, 0, 1], [1, 0, 2]];
    vec![
        pair("the first covered", &[[1, 0, 1]], &[1, 2], &[0, 0], '?'),
        pair("the second covered", &[[1, 0, 2]], &[1, 2], &[0, 0], '?'),
        pair("both covered by one", &both, &[1, 2], &[0, 0], '<'),
        pair("both covered by one, which is used once more", &both, &[1, 2], &[0, 3], '<'),
        pair("both covered, each by another", &[[1, 0, 1], [1, 3, 2]], &[1, 2], &[0, 3], '<'),
        pair("three for one", &[[1, 0, 1]], &[1, 1, 1], &[0, 2, 2], '<'),
        pair("each covers one of the other", &[[1, 0, 1], [1, 2, 3]], &[0, 3], &[1, 2], '?'),
        pair("one covers one and is not covered", &[[1, 0, 1], [1, 0, 3], [1, 2, 3]], &[0, 3], &[1, 2], '?'),
        pair("one covers all", &[[1, 0, 1], [1, 0, 2], [1, 2, 3]], &[0, 3], &[1, 2], '>'),
        pair("fewest of the highest", &[[1, 0, 1], [1, 1, 2]], &[0, 1, 1, 1], &[0, 0, 2, 2], '<'),
    ]
}

/// A rule has two higher ones, of which one is used less often and the other isn't.
fn two_higher() -> Vec<Worked> {
    let both = [[1, 0, 2], [1, 1, 2]];
    let with = |more: [u8; 3]| [both[0], both[1], more];
    vec![
        pair("the other as often", &both, &[1, 2], &[1, 0], '<'),
        pair("the other as often, turned", &both, &[0, 2], &[0, 1], '<'),
        pair("the other more often", &both, &[1, 2], &[0, 0], '?'),
        pair("the other more often and covered", &with([1, 0, 1]), &[1, 2], &[0, 0], '<'),
        pair("the other more often and covered, turned", &with([1, 1, 0]), &[0, 2], &[1, 1], '<'),
        pair("both less often", &both, &[2, 2], &[0, 1], '<'),
        pair("both as often", &both, &[0, 1, 2], &[0, 1, 3], '?'),
    ]
}

/// Kinds 2 to 7 are not "higher", whichever way they are written, and don't hinder it.
fn other_kinds() -> Vec<Worked> {
    let mut cases = vec![];
    for kind in 2..=7 {
        cases.push(pair("another kind", &[[kind, 0, 1]], &[0], &[1], '?'));
        cases.push(pair("another kind, and above", &[[kind, 0, 1], [1, 0, 1]], &[0], &[1], '>'));
        cases.push(pair("another kind, and below", &[[kind, 0, 1], [1, 1, 0]], &[0], &[1], '<'));
        cases.push(pair("another kind of all", &[[kind, 0, 5], [kind, 0, 2]], &[0, 2], &[5, 5], '?'));
    }
    for kind in 2..=4 {
        cases.push(pair("another kind, turned", &[[kind, 1, 0]], &[0], &[1], '?'));
    }
    cases.push(pair("every other kind", &[2, 3, 4, 5, 6, 7].map(|kind| [kind, 0, 1]), &[0], &[1], '?'));
    cases
}

/// Each way to rank three letters, circles too, and by each all rows of two letters, each with each. These are not by hand.
fn all_small(dice: &mut Dice, tally: &mut Tally) -> Result<(), Mismatch> {
    let pairs = [[1, 0, 1], [1, 0, 2], [1, 1, 0], [1, 1, 2], [1, 2, 0], [1, 2, 1]];
    let letters: Vec<[usize; 2]> = (0..9).map(|k| [k / 3, k % 3]).collect();
    let letters: Vec<&[usize]> = letters.iter().map(|row| &row[..]).collect();
    for chosen in 0..1 << pairs.len() {
        let ranks: Vec<[u8; 3]> = (0..pairs.len()).filter(|k| chosen >> k & 1 == 1).map(|k| pairs[k]).collect();
        rows("three letters", &ranks, &letters, vec![]).compared(dice, tally)?;
    }
    Ok(())
}

pub fn run(dice: &mut Dice, tally: &mut Tally) -> Result<(), Mismatch> {
    all_small(dice, tally)?;
    [not_less(), several(), two_higher(), other_kinds()].iter().try_for_each(|cases| all_orders(cases, dice, tally))
}
