//! Books of which many readings of one text are easily written down, for the comparison of readings.

use crate::book::FIRST_RULE;
use crate::listing::to_bytes;
use crate::plans::Plan;
use crate::reasons::HIGHER;

/// How many letters a menu may have, and how many kinds of rounds there may be.
pub const MOST_LETTERS: usize = 62;
pub const MOST_ROUNDS: usize = 31;

/// The rules of a menu before its letters.
const BEFORE_LETTERS: usize = 2;
/// The last of as many rules as a book may have.
const LAST_RULE: u8 = 63;

/// Example 7.4 of 002. Sorts: N is 0 and R is 1, the start. Rules: 0 is n -> N, 1 is N + N -> N, 2 is N -> R, 3 is r -> R and 4
/// is R + R -> R.
pub fn naturals(declarations: &[[u8; 3]]) -> Vec<u8> {
    let rules = vec![(0, vec![64]), (0, vec![0, 65, 0]), (1, vec![0]), (1, vec![66]), (1, vec![1, 65, 1])];
    let classes = [b'n', b'+', b'r'].map(|letter| vec![(letter, letter)]).to_vec();
    Plan { sorts: 2, start: 1, rules, classes, declarations: declarations.to_vec() }.bytes()
}

/// A row of letters, where each of `letters` rules may take the byte. Rule 0 is letter and row, rule 1 ends the row, and rule 2 + k
/// is letter k. Letters have no arguments that are sorts, so ranks between them take no reading away.
pub fn menu(letters: usize, byte: u8) -> Plan {
    let mut rules = vec![(0, vec![1, 0]), (0, vec![])];
    rules.extend((0..letters as u8).map(|k| (1, vec![64 + k])));
    let classes = (0..letters as u8).map(|k| vec![(byte, byte), (128 + k, 128 + k)]).collect();
    Plan { sorts: 2, start: 0, rules, classes, declarations: vec![] }
}

/// The rule of a letter.
pub fn letter(k: usize) -> u8 {
    (BEFORE_LETTERS + k) as u8
}

/// The reading by a menu that has these letters. Its text has the byte once for each.
pub fn menu_listing(letters: &[usize], byte: u8) -> Vec<u8> {
    let number = |k: usize| FIRST_RULE + letter(k) as u16;
    let numbers: Vec<u16> = letters.iter().flat_map(|&k| [FIRST_RULE, number(k), byte as u16]).chain([FIRST_RULE + 1]).collect();
    to_bytes(&numbers)
}

/// Rounds of several kinds, in any order, that take no text. Rule 0 ends them. A round of kind k is rule 1 + 2k, out, and rule
/// 2 + 2k, back. The last kind, `MOST_ROUNDS`, has one rule, from the sort to itself. Where no way back is ranked above anything,
/// ranks take a reading away only if the last kind is above what stands behind it.
pub fn rounds() -> Plan {
    let mut rules = vec![(0, vec![])];
    for k in 1..=MOST_ROUNDS as u8 {
        rules.extend([(0, vec![k]), (k, vec![0])]);
    }
    rules.push((0, vec![0]));
    Plan { sorts: MOST_ROUNDS + 1, start: 0, rules, classes: vec![], declarations: vec![] }
}

/// The rules of a round.
fn round_rules(kind: usize) -> Vec<u8> {
    match kind {
        MOST_ROUNDS => vec![LAST_RULE],
        k => vec![1 + 2 * k as u8, 2 + 2 * k as u8],
    }
}

/// One kind of round above another: its first rule above all rules of the other.
pub fn round_above(above: usize, below: usize) -> Vec<[u8; 3]> {
    round_rules(below).into_iter().map(|lower| [HIGHER, round_rules(above)[0], lower]).collect()
}

/// The reading with these rounds.
pub fn round_listing(kinds: &[usize]) -> Vec<u8> {
    let rules = kinds.iter().flat_map(|&kind| round_rules(kind)).chain([0]);
    to_bytes(&rules.map(|rule| FIRST_RULE + rule as u16).collect::<Vec<u16>>())
}
