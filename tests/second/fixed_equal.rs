//! Equal rules worked by hand from request [5] of 02: one set of characters under two class names, however it is written, and
//! what is nearly that and not equal.
//!
//! With R rules and K classes the first rule is at byte 6 + R + K, and each rule takes a byte for its result and one for each
//! argument. Refusal 8 has its place at the result byte.

use crate::compare::Mismatch;
use crate::fixed::{all_by_hand, book_t, worked, Hand, Worked, T};
use crate::fixed_ranges::rule_to_each;
use crate::plans::Plan;
use crate::prng::Dice;
use crate::tally::Tally;

type Ranges<'a> = &'a [(u8, u8)];
/// A rule's result and its arguments.
type Rule<'a> = (u8, &'a [u8]);

/// The digits, twice, and the letters a to f, twice.
pub const DIGITS: Ranges = &[(48, 57)];
pub const DIGITS_DOWN: Ranges = &[(57, 48)];
const LETTERS: Ranges = &[(97, 102)];
const LETTERS_DOWN: Ranges = &[(102, 97)];

/// Rules with result and arguments, and classes; sort 0 is the start, and nothing is ranked.
pub fn book_of(sorts: usize, rules: &[Rule], classes: &[Ranges]) -> Vec<u8> {
    let rules = rules.iter().map(|(result, arguments)| (*result, arguments.to_vec())).collect();
    let classes = classes.iter().map(|class| class.to_vec()).collect();
    Plan { sorts, start: 0, rules, classes, declarations: vec![] }.bytes()
}

/// The book of the request: digits, digits, and the two signs of T. The rules are at bytes 14, 16, 18 and 22.
fn listed_twice() -> Vec<Worked> {
    let signs = |second: Ranges| {
        book_of(1, &[(0, &[64]), (0, &[65]), (0, &[0, 66, 0]), (0, &[0, 67, 0])], &[DIGITS, second, &[(42, 42)], &[(47, 47)]])
    };
    let twice = |name, text| worked(name, signs(DIGITS), text, Hand::Refused(8, 16));
    let nearly = |name, text, hand| worked(name, signs(&[(48, 56)]), text, hand);
    // T has its rules at bytes 12, 14 and 18, and at bytes 26 and 27 the sign of the last.
    let one_sign = |name, declarations: &[[u8; 3]]| {
        let mut book = book_t(declarations);
        book[26..28].copy_from_slice(&[42, 42]);
        worked(name, book, b"8", Hand::Refused(8, 18))
    };
    vec![
        twice("digits twice", b"8"),
        twice("digits twice, a product", b"8*4"),
        twice("digits twice, no byte", b""),
        twice("digits twice, no digit", b"a"),
        nearly("digits twice but for 9", b"8", Hand::Several),
        nearly("digits twice but for 9, 9", b"9", Hand::One(&[258, 57])),
        nearly("digits twice but for 9, a product of 9", b"9*9", Hand::One(&[260, 258, 57, 42, 258, 57])),
        nearly("digits twice but for 9, 8 in a product", b"8*9", Hand::Several),
        nearly("digits twice but for 9, no byte", b"", Hand::None),
        one_sign("a sign twice", &[]),
        // Ranks are no part of a rule.
        one_sign("a sign twice, left", &T),
        one_sign("a sign twice, one higher", &[[1, 1, 2]]),
        one_sign("a sign twice, one left and one right", &[[2, 1, 1], [3, 2, 2]]),
    ]
}

/// The digits in one class, and in another written so. Rule 0 is at byte 10, rule 1 at byte 12.
fn one_set() -> Vec<Worked> {
    let so = |name, second: Ranges| worked(name, rule_to_each(&[DIGITS, second]), b"8", Hand::Refused(8, 12));
    let both = |name, first: Ranges, second: Ranges| worked(name, rule_to_each(&[first, second]), b"8", Hand::Refused(8, 12));
    let each: Vec<(u8, u8)> = (48..=57).map(|c| (c, c)).collect();
    let words: [Ranges; 2] = [&[(0, 0), (64, 64), (128, 128), (192, 192)], &[(192, 192), (128, 128), (64, 64), (0, 0)]];
    vec![
        so("48 57 as 48 57", DIGITS),
        so("48 57 as 57 48", DIGITS_DOWN),
        so("48 57 as 48 52 53 57", &[(48, 52), (53, 57)]),
        so("48 57 as 53 57 48 52", &[(53, 57), (48, 52)]),
        so("48 57 as 52 48 57 53", &[(52, 48), (57, 53)]),
        so("48 57 as 48 55 50 57", &[(48, 55), (50, 57)]),
        so("48 57 as 57 50 48 55", &[(57, 50), (48, 55)]),
        so("48 57 as 48 53 53 57", &[(48, 53), (53, 57)]),
        so("48 57 as 48 57 50 53", &[(48, 57), (50, 53)]),
        so("48 57 as 48 57 57 48", &[(48, 57), (57, 48)]),
        so("48 57 as 48 48 49 57", &[(48, 48), (49, 57)]),
        so("48 57 as 48 56 57 57", &[(48, 56), (57, 57)]),
        so("48 57, each alone", &each),
        so("48 57, sixteen times", &[(48, 57); 16]),
        both("57 48 as 57 48", DIGITS_DOWN, DIGITS_DOWN),
        both("48 55 50 57 as 48 52 53 57", &[(48, 55), (50, 57)], &[(48, 52), (53, 57)]),
        both("48 49 56 57 as 57 56 49 48", &[(48, 49), (56, 57)], &[(57, 56), (49, 48)]),
        both("sixteen times as 48 57", &[(57, 48); 16], DIGITS),
        both("all as 255 0", &[(0, 255)], &[(255, 0)]),
        both("all as two halves", &[(0, 255)], &[(128, 255), (0, 127)]),
        both("all but 0, and 0", &[(0, 255)], &[(1, 255), (0, 0)]),
        both("all in four, overlapping", &[(0, 255)], &[(0, 100), (60, 130), (200, 128), (255, 190)]),
        both("63 64 as 64 64 63 63", &[(63, 64)], &[(64, 64), (63, 63)]),
        both("0 and 255, turned about", &[(0, 0), (255, 255)], &[(255, 255), (0, 0)]),
        both("0, 64, 128, 192, turned about", words[0], words[1]),
    ]
}

/// All characters in one class, and all but one in the other: only the first rule has that one.
fn all_but_one() -> Vec<Worked> {
    let but = |name, rest: Ranges, text, hand| worked(name, rule_to_each(&[&[(0, 255)], rest]), text, hand);
    vec![
        but("all but 0, 0", &[(1, 255)], &[0], Hand::One(&[258, 0])),
        but("all but 0, 1", &[(1, 255)], &[1], Hand::Several),
        but("all but 255, 255", &[(254, 0)], &[255], Hand::One(&[258, 255])),
        but("all but 255, 254", &[(254, 0)], &[254], Hand::Several),
        but("all but 63, 63", &[(0, 62), (64, 255)], &[63], Hand::One(&[258, 63])),
        but("all but 63, 64", &[(0, 62), (64, 255)], &[64], Hand::Several),
        but("all but 64, 64", &[(65, 255), (0, 63)], &[64], Hand::One(&[258, 64])),
        but("all but 64, 63", &[(65, 255), (0, 63)], &[63], Hand::Several),
        but("all but 127, 127", &[(126, 0), (128, 255)], &[127], Hand::One(&[258, 127])),
        but("all but 127, 128", &[(126, 0), (128, 255)], &[128], Hand::Several),
        but("all but 128, 128", &[(0, 127), (255, 129)], &[128], Hand::One(&[258, 128])),
        but("all but 128, 127", &[(0, 127), (255, 129)], &[127], Hand::Several),
        but("all but 191, 191", &[(0, 190), (192, 255)], &[191], Hand::One(&[258, 191])),
        but("all but 191, 192", &[(0, 190), (192, 255)], &[192], Hand::Several),
        but("all but 192, 192", &[(255, 193), (191, 0)], &[192], Hand::One(&[258, 192])),
        but("all but 192, 191", &[(255, 193), (191, 0)], &[191], Hand::Several),
        but("all but 9, 9", &[(0, 56), (58, 255)], b"9", Hand::One(&[258, 57])),
    ]
}

/// Smaller sets with one character between them, and sets that a mixing up of characters might make the same.
fn one_apart() -> Vec<Worked> {
    let of = |name, first: Ranges, second: Ranges, text, hand| worked(name, rule_to_each(&[first, second]), text, hand);
    let words: [Ranges; 2] = [&[(0, 0), (192, 192)], &[(64, 64), (128, 128)]];
    vec![
        of("48 57 and 48 56, the last", DIGITS, &[(48, 56)], b"9", Hand::One(&[258, 57])),
        of("48 57 and 49 57, the first", DIGITS, &[(49, 57)], b"0", Hand::One(&[258, 48])),
        of("48 57 and 48 58, one behind", DIGITS, &[(48, 58)], b":", Hand::One(&[259, 58])),
        of("48 57 and 47 57, one before", DIGITS, &[(47, 57)], b"/", Hand::One(&[259, 47])),
        of("48 57 and 48 52 54 57, between", DIGITS, &[(48, 52), (54, 57)], b"5", Hand::One(&[258, 53])),
        of("48 57 and 48 52 54 57, beside", DIGITS, &[(48, 52), (54, 57)], b"4", Hand::Several),
        of("63 and 63 64", &[(63, 63)], &[(64, 63)], &[64], Hand::One(&[259, 64])),
        of("63 and 63 64, in both", &[(63, 63)], &[(64, 63)], &[63], Hand::Several),
        of("127 and 127 128", &[(127, 127)], &[(127, 128)], &[128], Hand::One(&[259, 128])),
        of("191 192 and 192", &[(191, 192)], &[(192, 192)], &[191], Hand::One(&[258, 191])),
        of("63 and 64, the first", &[(63, 63)], &[(64, 64)], &[63], Hand::One(&[258, 63])),
        of("63 and 64, the second", &[(63, 63)], &[(64, 64)], &[64], Hand::One(&[259, 64])),
        of("0 and 64, the first", &[(0, 0)], &[(64, 64)], &[0], Hand::One(&[258, 0])),
        of("0 and 64, the second", &[(0, 0)], &[(64, 64)], &[64], Hand::One(&[259, 64])),
        of("127 and 255", &[(127, 127)], &[(255, 255)], &[255], Hand::One(&[259, 255])),
        of("0 192 and 64 128, the first", words[0], words[1], &[192], Hand::One(&[258, 192])),
        of("0 192 and 64 128, the second", words[0], words[1], &[128], Hand::One(&[259, 128])),
        of("one half and the other, 127", &[(0, 127)], &[(128, 255)], &[127], Hand::One(&[258, 127])),
        of("one half and the other, 128", &[(0, 127)], &[(128, 255)], &[128], Hand::One(&[259, 128])),
    ]
}

/// Classes without a range. Beside them a class has characters, or there is a sort, or no argument.
fn no_character() -> Vec<Worked> {
    let each = |name, classes: &[Ranges], text, hand| worked(name, rule_to_each(classes), text, hand);
    let of = |name, sorts, rules: &[Rule], classes: &[Ranges], text, hand| {
        worked(name, book_of(sorts, rules, classes), text, hand)
    };
    vec![
        // Rules at bytes 10 and 12.
        each("two without characters", &[&[], &[]], b"", Hand::Refused(8, 12)),
        each("two without characters, a byte", &[&[], &[]], b"8", Hand::Refused(8, 12)),
        each("one without, one with", &[&[], DIGITS], b"8", Hand::One(&[259, 56])),
        each("one without, one with 0", &[&[], &[(0, 0)]], &[0], Hand::One(&[259, 0])),
        each("one with 255, one without", &[&[(255, 255)], &[]], &[255], Hand::One(&[258, 255])),
        each("one without, one with, no byte", &[&[], DIGITS], b"", Hand::None),
        // Rules at bytes 12, 14 and 16.
        each("the third without too", &[&[], DIGITS, &[]], b"8", Hand::Refused(8, 16)),
        // Rules at bytes 11 and 14.
        of("without, behind a digit", 1, &[(0, &[64, 65]), (0, &[64, 66])], &[DIGITS, &[], &[]], b"8", Hand::Refused(8, 14)),
        // A sort that has no rule has no characters either.
        of("without, and a sort without rules", 2, &[(0, &[64]), (0, &[1])], &[&[]], b"", Hand::None),
        of("without, and no argument", 1, &[(0, &[64]), (0, &[])], &[&[]], b"", Hand::One(&[259])),
    ]
}

/// An argument that is a class in one rule and a sort in the other, though the sort spells the same; and sorts alone.
fn sorts() -> Vec<Worked> {
    let of = |name, sorts, rules: &[Rule], text, hand| {
        worked(name, book_of(sorts, rules, &[DIGITS, LETTERS, DIGITS_DOWN]), text, hand)
    };
    let turned: [Rule; 3] = [(0, &[1, 64]), (0, &[66, 1]), (1, &[65])];
    vec![
        // The readings are 258 56 and 259 260 56.
        of("a class and a sort", 2, &[(0, &[64]), (0, &[1]), (1, &[64])], b"8", Hand::Several),
        of("a class and a sort, another name", 2, &[(0, &[64]), (0, &[1]), (1, &[66])], b"8", Hand::Several),
        of("a sort and a class", 2, &[(0, &[1]), (0, &[64]), (1, &[64])], b"8", Hand::Several),
        of("a class and a sort, a letter", 2, &[(0, &[64]), (0, &[1]), (1, &[64])], b"a", Hand::None),
        of("class 0 and sort 0", 1, &[(0, &[64]), (0, &[0])], b"8", Hand::Several),
        // 258 56 97 and 259 56 260 97.
        of("a class and a sort, behind a digit", 2, &[(0, &[64, 65]), (0, &[66, 1]), (1, &[65])], b"8a", Hand::Several),
        // 258 260 56 and 259 261 56: the sorts have like rules, but they are two.
        of("two sorts", 3, &[(0, &[1]), (0, &[2]), (1, &[64]), (2, &[66])], b"8", Hand::Several),
        // Three rules and three classes: rules at bytes 12 and 14.
        of("one sort twice", 2, &[(0, &[1]), (0, &[1]), (1, &[64])], b"8", Hand::Refused(8, 14)),
        // Rules at bytes 12 and 15.
        of("a sort and digits, twice", 2, &[(0, &[1, 64]), (0, &[1, 66]), (1, &[65])], b"a8", Hand::Refused(8, 15)),
        of("digits and a sort, twice", 2, &[(0, &[64, 1]), (0, &[66, 1]), (1, &[65])], b"8a", Hand::Refused(8, 15)),
        // Rule 0 spells a letter and a digit, rule 1 a digit and a letter.
        of("a sort and digits, turned about", 2, &turned, b"8a", Hand::One(&[259, 56, 260, 97])),
    ]
}

/// One set, but another result or another count of arguments.
fn results_and_counts() -> Vec<Worked> {
    let of = |name, sorts, rules: &[Rule], text, hand| worked(name, book_of(sorts, rules, &[DIGITS, DIGITS_DOWN]), text, hand);
    // The start sort is at byte 4.
    let mut from_1 = book_of(2, &[(0, &[64]), (1, &[65])], &[DIGITS, DIGITS_DOWN]);
    from_1[4] = 1;
    vec![
        of("another result", 2, &[(0, &[64]), (1, &[65])], b"8", Hand::One(&[258, 56])),
        of("another result, same name", 2, &[(0, &[64]), (1, &[64])], b"8", Hand::One(&[258, 56])),
        worked("another result, from there", from_1, b"8", Hand::One(&[259, 56])),
        // 258 56 and 260 259 56.
        of("another result, by way of it", 2, &[(0, &[64]), (1, &[65]), (0, &[1])], b"8", Hand::Several),
        of("another result, no argument", 2, &[(0, &[]), (1, &[])], b"", Hand::One(&[258])),
        of("one argument and two, one byte", 1, &[(0, &[64]), (0, &[65, 65])], b"8", Hand::One(&[258, 56])),
        of("one argument and two, two bytes", 1, &[(0, &[64]), (0, &[65, 65])], b"88", Hand::One(&[259, 56, 56])),
        of("two arguments and one", 1, &[(0, &[64, 65]), (0, &[65])], b"8", Hand::One(&[259, 56])),
        // 258 56 and 259 56 260.
        of("one argument more, which is empty", 2, &[(0, &[64]), (0, &[65, 1]), (1, &[])], b"8", Hand::Several),
        of("no argument and one", 1, &[(0, &[]), (0, &[64])], b"8", Hand::One(&[259, 56])),
    ]
}

/// Two rules with more arguments than one, and digits, letters, digits and letters as classes 64 to 67.
fn order() -> Vec<Worked> {
    let of = |name, first: &[u8], second: &[u8], text, hand| {
        worked(name, book_of(1, &[(0, first), (0, second)], &[DIGITS, LETTERS, DIGITS_DOWN, LETTERS_DOWN]), text, hand)
    };
    // Rule 0 is at byte 12; with two arguments each, rule 1 is at byte 15.
    let all_digits = |name, first: &[u8], second: &[u8]| {
        let book = book_of(1, &[(0, first), (0, second)], &[DIGITS, DIGITS_DOWN, DIGITS_DOWN, DIGITS]);
        worked(name, book, b"88", Hand::Refused(8, 15))
    };
    let equal = |name, first: &[u8], second: &[u8]| of(name, first, second, b"8a", Hand::Refused(8, 15));
    vec![
        equal("digits letters, both renamed", &[64, 65], &[66, 67]),
        equal("digits letters, the first renamed", &[64, 65], &[66, 65]),
        equal("digits letters, the second renamed", &[64, 65], &[64, 67]),
        equal("digits twice, one renamed", &[64, 64], &[64, 66]),
        equal("digits twice, the other renamed", &[64, 66], &[66, 64]),
        all_digits("digits four times", &[64, 65], &[67, 66]),
        all_digits("digits four times, in order", &[64, 65], &[66, 67]),
        of("digits letters and letters digits", &[64, 65], &[67, 66], b"8a", Hand::One(&[258, 56, 97])),
        of("digits letters and letters digits, turned", &[64, 65], &[67, 66], b"a8", Hand::One(&[259, 97, 56])),
        of("digits letters and letters digits, same names", &[64, 65], &[65, 64], b"a8", Hand::One(&[259, 97, 56])),
        of("digits twice and digits letters", &[64, 64], &[66, 65], b"88", Hand::One(&[258, 56, 56])),
        of("digits twice and digits letters, a letter", &[64, 64], &[66, 65], b"8a", Hand::One(&[259, 56, 97])),
        // Rule 1 is at byte 16.
        of("three, all renamed", &[64, 65, 64], &[66, 67, 66], b"8a8", Hand::Refused(8, 16)),
        of("three, the last another", &[64, 65, 64], &[66, 67, 67], b"8a8", Hand::One(&[258, 56, 97, 56])),
        of("three, the middle another", &[64, 65, 64], &[66, 66, 66], b"8a8", Hand::One(&[258, 56, 97, 56])),
    ]
}

pub fn run(dice: &mut Dice, tally: &mut Tally) -> Result<(), Mismatch> {
    let sets = [listed_twice(), one_set(), all_but_one(), one_apart()];
    let shapes = [no_character(), sorts(), results_and_counts(), order()];
    for cases in sets.iter().chain(&shapes) {
        all_by_hand(cases, dice, tally)?;
    }
    Ok(())
}
