//! Equal rules worked by hand from request [5] of 02: which rule is at fault, in the largest books, and beside which other
//! refusals.

use crate::compare::Mismatch;
use crate::fixed::{all_by_hand, worked, Hand, Worked};
use crate::fixed_equal::{book_of, DIGITS, DIGITS_DOWN};
use crate::fixed_ranges::rule_to_each;
use crate::plans::Plan;
use crate::prng::Dice;
use crate::tally::Tally;

/// Two rules with the digits, at bytes 10 and 12; the classes are at bytes 14 to 17, and a declaration at byte 18.
pub fn twins(declarations: &[[u8; 3]]) -> Vec<u8> {
    let front = [1, 2, 2, declarations.len() as u8, 0, 0, 1, 1, 1, 1, 0, 64, 0, 65, 48, 57, 57, 48];
    [&front[..], &declarations.concat()].concat()
}

/// The same but for 0, which only the first rule has.
pub fn nearly_twins() -> Vec<u8> {
    rule_to_each(&[DIGITS, &[(57, 49)]])
}

/// Three rules and more: the first that is equal to an earlier one is at fault.
fn places() -> Vec<Worked> {
    let [d, e, l, m]: [&[(u8, u8)]; 4] = [DIGITS, &[(53, 57), (48, 52)], &[(97, 102)], &[(102, 97)]];
    let each = |name, classes: &[&[(u8, u8)]], place| worked(name, rule_to_each(classes), b"8", Hand::Refused(8, place));
    let of = |name, rules: &[(u8, &[u8])], place| worked(name, book_of(1, rules, &[d, e, l]), b"8", Hand::Refused(8, place));
    vec![
        // Three rules at bytes 12, 14 and 16.
        each("the third as the first", &[d, l, e], 16),
        each("the third as the second", &[l, d, e], 16),
        each("the second as the first", &[d, e, l], 14),
        each("all three", &[d, e, d], 14),
        // Four at bytes 14, 16, 18 and 20.
        each("one pair within another", &[d, l, m, e], 18),
        each("two pairs, crossing", &[d, l, e, m], 18),
        each("two pairs, one after the other", &[d, e, l, m], 16),
        each("the fourth as the second", &[&[(0, 0)], d, l, e], 20),
        // Three rules at bytes 12, 14 and 16, equal by their bytes too.
        of("by the set, then by the bytes", &[(0, &[64]), (0, &[65]), (0, &[64])], 14),
        of("by the bytes, then by the set", &[(0, &[64]), (0, &[64]), (0, &[65])], 14),
        of("by the bytes, past another", &[(0, &[64]), (0, &[66]), (0, &[64])], 16),
        // Four of other lengths, at bytes 13, 15, 16 and 19.
        of("past rules of other lengths", &[(0, &[64]), (0, &[]), (0, &[0, 0]), (0, &[65])], 19),
    ]
}

/// Class 0 has the digits, class 63 these ranges, and class k between them the character 100 + k.
fn sixty_four(last: (u8, u8)) -> Vec<Vec<(u8, u8)>> {
    let between = (1..63).map(|k| vec![(100 + k, 100 + k)]);
    [DIGITS.to_vec()].into_iter().chain(between).chain([vec![last]]).collect()
}

/// The classes, lent.
fn lent(classes: &[Vec<(u8, u8)>]) -> Vec<&[(u8, u8)]> {
    classes.iter().map(|class| &class[..]).collect()
}

/// As many rules or classes as there may be, and arguments.
fn largest() -> Vec<Worked> {
    // A rule to each of 64 classes: rule 63 is at byte 6 + 64 + 64 + 63 * 2.
    let each = |name, last, text, hand| worked(name, rule_to_each(&lent(&sixty_four(last))), text, hand);
    // Rules with the first class and the last, at bytes 6 + 2 + 64 and 74.
    let ends: [(u8, &[u8]); 2] = [(0, &[64]), (0, &[127])];
    let two = |name, last, text, hand| worked(name, book_of(1, &ends, &lent(&sixty_four(last))), text, hand);
    let alike = [DIGITS; 64];
    vec![
        each("the last of 64 rules", (57, 48), b"8", Hand::Refused(8, 260)),
        each("the last of 64 rules, nearly", (57, 49), b"8", Hand::Several),
        each("the last of 64 rules, nearly, 0", (57, 49), b"0", Hand::One(&[258, 48])),
        two("the last of 64 classes", (57, 48), b"8", Hand::Refused(8, 74)),
        two("the last of 64 classes, nearly", (57, 49), b"8", Hand::Several),
        two("the last of 64 classes, nearly, 0", (57, 49), b"0", Hand::One(&[258, 48])),
        worked("64 classes alike, two used", book_of(1, &ends, &alike), b"8", Hand::Refused(8, 74)),
        // No rule has the others, and classes alone may be the same.
        worked("64 classes alike, one used", book_of(1, &ends[..1], &alike), b"8", Hand::One(&[258, 56])),
        full_of_sorts("64 rules and two classes", (57, 48), b"8", Hand::Refused(8, 229)),
        full_of_sorts("64 rules and nearly two classes", (57, 49), b"8", Hand::Several),
        full_of_sorts("64 rules and nearly two classes, 0", (57, 49), b"0", Hand::One(&[258, 48])),
        eight("eight arguments renamed", 104, b"abcdefgh", Hand::Refused(8, 33)),
        eight("eight arguments renamed, the last longer", 105, b"abcdefgh", Hand::Several),
        eight("eight arguments renamed, as long", 105, b"abcdefgi", Hand::One(&[259, 97, 98, 99, 100, 101, 102, 103, 105])),
    ]
}

/// Each of 32 sorts from a digit, 31 of them from two, and the first from another class. Bytes 6 + 64 + 2 + 32 * 2 + 31 * 3
/// are before the last rule.
fn full_of_sorts(name: &'static str, last: (u8, u8), text: &'static [u8], hand: Hand) -> Worked {
    let mut rules: Vec<(u8, Vec<u8>)> = (0..32).map(|sort| (sort, vec![64])).collect();
    rules.extend((0..31).map(|sort| (sort, vec![64, 64])));
    rules.push((0, vec![65]));
    let classes = vec![DIGITS.to_vec(), vec![last]];
    worked(name, Plan { sorts: 32, start: 0, rules, classes, declarations: vec![] }.bytes(), text, hand)
}

/// The letters a to h with a class to each, and the same with eight more classes, of which the last ends at `last`. The rules
/// are at bytes 6 + 2 + 16 and 33.
fn eight(name: &'static str, last: u8, text: &'static [u8], hand: Hand) -> Worked {
    let mut classes: Vec<Vec<(u8, u8)>> = (0..16).map(|k| vec![(97 + k % 8, 97 + k % 8)]).collect();
    classes[15] = vec![(last, 104)];
    let rules = vec![(0, (64..72).collect()), (0, (72..80).collect())];
    worked(name, Plan { sorts: 1, start: 0, rules, classes, declarations: vec![] }.bytes(), text, hand)
}

/// Twins, and another fault.
fn beside() -> Vec<Worked> {
    let refused = |name, book, (number, place)| worked(name, book, b"8", Hand::Refused(number, place));
    let declared = |name, declarations: &[[u8; 3]], hand| refused(name, twins(declarations), hand);
    let changed = |name, at: usize, value: u8, hand| {
        let mut book = twins(&[]);
        book[at] = value;
        refused(name, book, hand)
    };
    // Three rules at bytes 11, 13 and 15, of which the third names nothing.
    let third = |name, rule: (u8, &[u8]), hand| {
        refused(name, book_of(1, &[(0, &[64]), (0, &[65]), rule], &[DIGITS, DIGITS_DOWN]), hand)
    };
    vec![
        declared("twins", &[], (8, 12)),
        declared("twins, ranked", &[[2, 0, 1], [5, 0, 1], [1, 1, 0]], (8, 12)),
        declared("twins and a circle", &[[1, 0, 0]], (8, 12)),
        declared("twins and a circle of both", &[[1, 0, 1], [1, 1, 0]], (8, 12)),
        declared("twins and kind 0", &[[0, 0, 1]], (7, 18)),
        declared("twins and kind 8", &[[8, 0, 1]], (7, 18)),
        declared("twins and no first rule", &[[2, 2, 0]], (7, 19)),
        declared("twins and no second rule", &[[2, 0, 2]], (7, 20)),
        declared("twins and a group falling", &[[5, 1, 0]], (7, 19)),
        declared("twins, a circle and no rule", &[[1, 0, 0], [1, 0, 2]], (7, 23)),
        third("twins and an argument that is none", (0, &[66]), (5, 16)),
        third("twins and a result that is none", (1, &[64]), (5, 15)),
        changed("a second name that is none", 13, 66, (5, 13)),
        changed("twins and a count too many", 6, 9, (3, 6)),
        changed("twins and a range count too large", 9, 17, (3, 9)),
        changed("twins and no start sort", 4, 1, (2, 4)),
        changed("twins and a declaration missing", 3, 1, (4, 18)),
        refused("twins and a byte too many", [twins(&[]), vec![0]].concat(), (4, 18)),
        refused("twins and a byte too few", twins(&[])[..17].to_vec(), (4, 17)),
        refused("twins and a count missing", twins(&[])[..9].to_vec(), (1, 9)),
        worked("twins and 200 bytes", twins(&[]), &[b'8'; 200], Hand::Refused(8, 12)),
        worked("twins and 201 bytes", twins(&[]), &[b'8'; 201], Hand::Refused(8, 12)),
        worked("twins, a circle and 201 bytes", twins(&[[1, 0, 0]]), &[b'8'; 201], Hand::Refused(8, 12)),
        worked("nearly twins and 201 bytes", nearly_twins(), &[b'8'; 201], Hand::Refused(10, 201)),
    ]
}

pub fn run(dice: &mut Dice, tally: &mut Tally) -> Result<(), Mismatch> {
    for cases in [places(), largest(), beside()] {
        all_by_hand(&cases, dice, tally)?;
    }
    Ok(())
}
