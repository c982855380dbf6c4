//! Random groups for a book: of each kind, of one rule and of all, overlapping, over the rules of single declarations; and
//! now and then one that is refused.

use crate::prng::Dice;

/// The kinds that one book has its groups of.
fn some_kinds(dice: &mut Dice) -> &'static [u8] {
    dice.pick(&[&[5, 6, 7][..], &[5], &[6], &[7], &[5, 6]])
}

/// A group's two rules: one rule, all rules, the rules of a declaration that is there (so that their pair has several
/// kinds), or any two.
pub fn ends(dice: &mut Dice, rules: usize, there: &[[u8; 3]]) -> (u8, u8) {
    let (a, b) = (dice.below(rules) as u8, dice.below(rules) as u8);
    match dice.below(8) {
        0 => (a, a),
        1 => (0, rules as u8 - 1),
        2..=4 if !there.is_empty() => {
            let [_, first, second] = dice.pick(there);
            (first.min(second), first.max(second))
        }
        _ => (a.min(b), a.max(b)),
    }
}

/// A declaration that refusal 7 is for: a group whose first rule is above its second (if the two differ), a kind that is
/// none, or a group with a rule that is none.
fn bad_group(dice: &mut Dice, rules: usize) -> [u8; 3] {
    let kind = dice.between(5, 7) as u8;
    let (a, b) = (dice.below(rules) as u8, dice.below(rules) as u8);
    let beyond = (rules + dice.pick(&[0, 0, 1, 100])) as u8;
    match dice.below(9) {
        0..=2 => [kind, a.max(b), a.min(b)],
        3 => [8, a.min(b), a.max(b)],
        4 => [0, a.min(b), a.max(b)],
        5 => [8, a.max(b), a.min(b)],
        6 => [kind, a, beyond],
        7 => [kind, beyond, a],
        _ => [kind, beyond, beyond],
    }
}

pub fn put_anywhere(dice: &mut Dice, declarations: &mut Vec<[u8; 3]>, one: [u8; 3]) {
    let at = dice.below(declarations.len() + 1);
    declarations.insert(at, one);
}

/// Some groups among these declarations, or in place of them.
fn with_groups(dice: &mut Dice, rules: usize, mut declarations: Vec<[u8; 3]>) -> Vec<[u8; 3]> {
    if dice.chance(30) {
        declarations.clear();
    }
    let kinds = some_kinds(dice);
    for _ in 0..dice.pick(&[1, 1, 1, 2, 2, 3, 6]) {
        let (first, second) = ends(dice, rules, &declarations);
        let kind = dice.pick(kinds);
        put_anywhere(dice, &mut declarations, [kind, first, second]);
    }
    let faults = if dice.chance(10) { dice.pick(&[1, 1, 2]) } else { 0 };
    for _ in 0..faults {
        let bad = bad_group(dice, rules);
        put_anywhere(dice, &mut declarations, bad);
    }
    declarations
}

/// The declarations as they are, or in about a third of the books with groups.
pub fn perhaps_groups(dice: &mut Dice, rules: usize, declarations: Vec<[u8; 3]>) -> Vec<[u8; 3]> {
    match dice.chance(35) {
        true => with_groups(dice, rules, declarations),
        false => declarations,
    }
}

/// So many groups and nothing else: all narrow, or as wide as it falls, or one of all rules among narrow ones.
pub fn only_groups(dice: &mut Dice, rules: usize, count: usize) -> Vec<[u8; 3]> {
    let kinds = some_kinds(dice);
    let widest = dice.pick(&[1, 2, 4, rules]);
    let mut out = vec![];
    for _ in 0..count {
        let first = dice.below(rules);
        let second = (first + dice.below(widest)).min(rules - 1);
        out.push([dice.pick(kinds), first as u8, second as u8]);
    }
    if dice.chance(30) {
        let at = dice.below(count);
        out[at] = [out[at][0], 0, rules as u8 - 1];
    }
    out
}
