//! Ranges written downwards, worked by hand from request [3] of 02: readings at the ends of a range, just outside and
//! inside, beside other ranges and in several classes, and the refusals that refusal 6 used to hide.

use crate::compare::Mismatch;
use crate::fixed::{all_by_hand, book_t, worked, Hand, Worked, T};
use crate::plans::Plan;
use crate::prng::Dice;
use crate::tally::Tally;

/// Book T with its digits written downwards: bytes 22 and 23 are 57 48.
pub fn down_t(declarations: &[[u8; 3]]) -> Vec<u8> {
    let mut book = book_t(declarations);
    book[22..24].copy_from_slice(&[57, 48]);
    book
}

/// A rule to each class, with one character of that class.
pub fn rule_to_each(classes: &[&[(u8, u8)]]) -> Vec<u8> {
    let rules = (0..classes.len()).map(|k| (0, vec![64 + k as u8])).collect();
    let classes = classes.iter().map(|class| class.to_vec()).collect();
    Plan { sorts: 1, start: 0, rules, classes, declarations: vec![] }.bytes()
}

/// One character of a class with these ranges, and nothing else.
pub fn class_of(ranges: &[(u8, u8)]) -> Vec<u8> {
    rule_to_each(&[ranges])
}

/// Sixteen ranges: range k is 100 + 5k to 102 + 5k, or turned round if it is in `down`.
pub fn sixteen(down: &[u8]) -> Vec<(u8, u8)> {
    let range = |k: u8| if down.contains(&k) { (102 + 5 * k, 100 + 5 * k) } else { (100 + 5 * k, 102 + 5 * k) };
    (0..16).map(range).collect()
}

/// The marked cases of 01, with the digits written downwards, and the digits at their ends.
fn in_book_t() -> Vec<Worked> {
    let of_t = |name, text, hand| worked(name, down_t(&T), text, hand);
    let throughout = |kind: u8| down_t(&T.map(|d| [kind, d[1], d[2]]));
    vec![
        of_t("(a) downwards", b"8/4*2", Hand::One(&[259, 260, 258, 56, 47, 258, 52, 42, 258, 50])),
        of_t("(b) downwards", b"", Hand::None),
        of_t("(c) downwards", b"8", Hand::One(&[258, 56])),
        worked("(d) downwards", down_t(&[]), b"8/4*2", Hand::Several),
        worked("(e) downwards", throughout(4), b"8/4/2", Hand::None),
        worked("(f) downwards", throughout(3), b"8/4/2", Hand::One(&[260, 258, 56, 47, 260, 258, 52, 47, 258, 50])),
        worked("(g) downwards", down_t(&[[1, 1, 2]]), b"8/4*2", Hand::One(&[260, 258, 56, 47, 259, 258, 52, 42, 258, 50])),
        worked("(h) downwards", down_t(&[[1, 1, 2], [1, 2, 1]]), b"8/4*2", Hand::Refused(9, 1)),
        of_t("T downwards, both ends", b"9/0*5", Hand::One(&[259, 260, 258, 57, 47, 258, 48, 42, 258, 53])),
        of_t("T downwards, one above", b"8/:*2", Hand::None),
        of_t("T downwards, one below", b"8//*2", Hand::None),
        of_t("T downwards, 200 bytes", &[b'8'; 200], Hand::None),
        of_t("T downwards, 201 bytes", &[b'8'; 201], Hand::Refused(10, 201)),
    ]
}

/// The only range of a class: 2 to 5 as 53 50, and the ends of the alphabet.
fn alone() -> Vec<Worked> {
    let of = |name, range: (u8, u8), text, hand| worked(name, class_of(&[range]), text, hand);
    vec![
        of("53 50, one below", (53, 50), b"1", Hand::None),
        of("53 50, low end", (53, 50), b"2", Hand::One(&[258, 50])),
        of("53 50, inside", (53, 50), b"3", Hand::One(&[258, 51])),
        of("53 50, inside too", (53, 50), b"4", Hand::One(&[258, 52])),
        of("53 50, high end", (53, 50), b"5", Hand::One(&[258, 53])),
        of("53 50, one above", (53, 50), b"6", Hand::None),
        of("53 50, far below", (53, 50), &[0], Hand::None),
        of("53 50, far above", (53, 50), &[255], Hand::None),
        of("53 50, no byte", (53, 50), b"", Hand::None),
        of("53 50, two bytes", (53, 50), b"33", Hand::None),
        of("51 50, one below", (51, 50), b"1", Hand::None),
        of("51 50, low end", (51, 50), b"2", Hand::One(&[258, 50])),
        of("51 50, high end", (51, 50), b"3", Hand::One(&[258, 51])),
        of("51 50, one above", (51, 50), b"4", Hand::None),
        of("56 56, one below", (56, 56), b"7", Hand::None),
        of("56 56", (56, 56), b"8", Hand::One(&[258, 56])),
        of("56 56, one above", (56, 56), b"9", Hand::None),
        of("255 0, first byte", (255, 0), &[0], Hand::One(&[258, 0])),
        of("255 0, a byte between", (255, 0), &[128], Hand::One(&[258, 128])),
        of("255 0, last byte", (255, 0), &[255], Hand::One(&[258, 255])),
        of("255 0, no byte", (255, 0), b"", Hand::None),
        of("254 1, first byte", (254, 1), &[0], Hand::None),
        of("254 1, second byte", (254, 1), &[1], Hand::One(&[258, 1])),
        of("254 1, last byte but one", (254, 1), &[254], Hand::One(&[258, 254])),
        of("254 1, last byte", (254, 1), &[255], Hand::None),
        of("1 0, low end", (1, 0), &[0], Hand::One(&[258, 0])),
        of("1 0, high end", (1, 0), &[1], Hand::One(&[258, 1])),
        of("1 0, one above", (1, 0), &[2], Hand::None),
        of("255 254, one below", (255, 254), &[253], Hand::None),
        of("255 254, low end", (255, 254), &[254], Hand::One(&[258, 254])),
        of("255 254, high end", (255, 254), &[255], Hand::One(&[258, 255])),
        // Across the words of a set of 256 bits.
        of("64 63, one below", (64, 63), &[62], Hand::None),
        of("64 63, low end", (64, 63), &[63], Hand::One(&[258, 63])),
        of("64 63, high end", (64, 63), &[64], Hand::One(&[258, 64])),
        of("64 63, one above", (64, 63), &[65], Hand::None),
        of("192 63, a word between", (192, 63), &[130], Hand::One(&[258, 130])),
    ]
}

/// 2 to 5 downwards beside another range of the class.
fn beside() -> Vec<Worked> {
    let of = |name, ranges: &[(u8, u8)], text, hand| worked(name, class_of(ranges), text, hand);
    vec![
        of("touching, in the first", &[(53, 50), (54, 57)], b"3", Hand::One(&[258, 51])),
        of("touching, in the second", &[(53, 50), (54, 57)], b"6", Hand::One(&[258, 54])),
        of("touching, below both", &[(53, 50), (54, 57)], b"1", Hand::None),
        of("touching, above both", &[(53, 50), (54, 57)], b":", Hand::None),
        // In two ranges of one class, but one character all the same.
        of("overlapping, in both", &[(53, 50), (52, 57)], b"4", Hand::One(&[258, 52])),
        of("overlapping, in the first", &[(53, 50), (52, 57)], b"3", Hand::One(&[258, 51])),
        of("overlapping, in the second", &[(53, 50), (52, 57)], b"7", Hand::One(&[258, 55])),
        of("both ways, in both", &[(50, 53), (53, 50)], b"4", Hand::One(&[258, 52])),
        of("both ways, above both", &[(50, 53), (53, 50)], b"6", Hand::None),
        of("a gap of one, before it", &[(53, 50), (55, 57)], b"5", Hand::One(&[258, 53])),
        of("a gap of one, in it", &[(53, 50), (55, 57)], b"6", Hand::None),
        of("a gap of one, behind it", &[(53, 50), (55, 57)], b"7", Hand::One(&[258, 55])),
        of("a gap of one, both down, before it", &[(57, 55), (53, 50)], b"5", Hand::One(&[258, 53])),
        of("a gap of one, both down, in it", &[(57, 55), (53, 50)], b"6", Hand::None),
        of("a gap of one, both down, behind it", &[(57, 55), (53, 50)], b"7", Hand::One(&[258, 55])),
        of("sixteen alike", &[(57, 48); 16], b"8", Hand::One(&[258, 56])),
    ]
}

/// Sixteen ranges, the first, the eighth or the last of them downwards: 102-100, 137-135 and 177-175.
fn among_sixteen() -> Vec<Worked> {
    let of = |name, down, text, hand| worked(name, class_of(&sixteen(&[down])), text, hand);
    vec![
        of("first of 16, one below", 0, &[99], Hand::None),
        of("first of 16, inside", 0, &[101], Hand::One(&[258, 101])),
        of("first of 16, one above", 0, &[103], Hand::None),
        of("first of 16, in the second", 0, &[106], Hand::One(&[258, 106])),
        of("eighth of 16, in the first", 7, &[101], Hand::One(&[258, 101])),
        of("eighth of 16, one below", 7, &[134], Hand::None),
        of("eighth of 16, low end", 7, &[135], Hand::One(&[258, 135])),
        of("eighth of 16, inside", 7, &[136], Hand::One(&[258, 136])),
        of("eighth of 16, high end", 7, &[137], Hand::One(&[258, 137])),
        of("eighth of 16, one above", 7, &[138], Hand::None),
        of("last of 16, one below", 15, &[174], Hand::None),
        of("last of 16, inside", 15, &[176], Hand::One(&[258, 176])),
        of("last of 16, one above", 15, &[178], Hand::None),
    ]
}

/// Two and more classes. By request [5] rules with the same characters are equal, whatever the name of the class and the way
/// it is written: of two classes, rule 0 is at byte 10 and rule 1 at byte 12. One character more or less, and they are not.
fn several_classes() -> Vec<Worked> {
    let of = |name, classes: &[&[(u8, u8)]], text, hand| worked(name, rule_to_each(classes), text, hand);
    let in_turn = |name, text, hand| {
        let classes = vec![vec![(53, 50)], vec![(102, 97)]];
        let plan = Plan { sorts: 1, start: 0, rules: vec![(0, vec![64, 65])], classes, declarations: vec![] };
        worked(name, plan.bytes(), text, hand)
    };
    // Class k is the character 100 + k.
    let characters: Vec<Vec<(u8, u8)>> = (0..63).map(|k| vec![(100 + k, 100 + k)]).collect();
    let singles: Vec<&[(u8, u8)]> = characters.iter().map(|class| &class[..]).collect();
    // Rule 0 has the first class; no rule has the second.
    let unused = vec![1, 1, 2, 0, 0, 0, 1, 1, 1, 0, 64, 56, 56, 9, 0];
    vec![
        of("48 57 and 57 48", &[&[(48, 57)], &[(57, 48)]], b"8", Hand::Refused(8, 12)),
        of("57 48 and 48 57", &[&[(57, 48)], &[(48, 57)]], b"0", Hand::Refused(8, 12)),
        of("57 48 twice", &[&[(57, 48)], &[(57, 48)]], b"9", Hand::Refused(8, 12)),
        of("57 48 twice, one above", &[&[(57, 48)], &[(57, 48)]], b":", Hand::Refused(8, 12)),
        of("48 57 and 57 49, in both", &[&[(48, 57)], &[(57, 49)]], b"8", Hand::Several),
        of("48 57 and 57 49, in one", &[&[(48, 57)], &[(57, 49)]], b"0", Hand::One(&[258, 48])),
        of("57 48 and 48 56, low end", &[&[(57, 48)], &[(48, 56)]], b"0", Hand::Several),
        of("57 48 and 58 48, high end", &[&[(57, 48)], &[(58, 48)]], b"9", Hand::Several),
        of("57 48 and 58 48, one above", &[&[(57, 48)], &[(58, 48)]], b":", Hand::One(&[259, 58])),
        of("57 48 and 58 48, two above", &[&[(57, 48)], &[(58, 48)]], b";", Hand::None),
        of("57 48 and 56 56, in both", &[&[(57, 48)], &[(56, 56)]], b"8", Hand::Several),
        of("57 48 and 56 56, in one", &[&[(57, 48)], &[(56, 56)]], b"7", Hand::One(&[258, 55])),
        of("53 48 and 57 52, in the first", &[&[(53, 48)], &[(57, 52)]], b"3", Hand::One(&[258, 51])),
        of("53 48 and 57 52, in both", &[&[(53, 48)], &[(57, 52)]], b"4", Hand::Several),
        of("53 48 and 57 52, at an end", &[&[(53, 48)], &[(57, 52)]], b"5", Hand::Several),
        of("53 48 and 57 52, in the second", &[&[(53, 48)], &[(57, 52)]], b"6", Hand::One(&[259, 54])),
        of("the last of 64 classes", &[&singles[..], &[&[(57, 48)]]].concat(), b"8", Hand::One(&[321, 56])),
        // Rule 1 is at byte 6 + 64 + 64 + 2.
        of("63 alike, and the last of 64", &[&[&[(97, 97)][..]; 63][..], &[&[(57, 48)]]].concat(), b"8", Hand::Refused(8, 136)),
        in_turn("2 to 5, then a to f", b"3c", Hand::One(&[258, 51, 99])),
        in_turn("2 to 5, then a to f, turned", b"c3", Hand::None),
        in_turn("2 to 5, then a to f, at their ends", b"2f", Hand::One(&[258, 50, 102])),
        worked("in a class without rules", unused, b"8", Hand::One(&[258, 56])),
    ]
}

/// A downward range, and behind it a declaration. Rules 0 and 1 are at bytes 9 and 10, the range at 12, the declaration at
/// 14. Refusal 6, with place 12, came before all of these.
fn and_a_declaration() -> Vec<Worked> {
    let declared = |name, [kind, first, second]: [u8; 3], hand| {
        worked(name, vec![1, 2, 1, 1, 0, 0, 0, 1, 1, 0, 0, 64, 57, 48, kind, first, second], b"8", hand)
    };
    vec![
        declared("57 48 and 2 0 1", [2, 0, 1], Hand::One(&[259, 56])),
        declared("57 48 and 5 0 1", [5, 0, 1], Hand::One(&[259, 56])),
        declared("57 48 and kind 0", [0, 0, 1], Hand::Refused(7, 14)),
        declared("57 48 and kind 8", [8, 0, 1], Hand::Refused(7, 14)),
        declared("57 48 and no first rule", [2, 2, 0], Hand::Refused(7, 15)),
        declared("57 48 and no second rule", [2, 0, 2], Hand::Refused(7, 16)),
        declared("57 48 and a group turned", [5, 1, 0], Hand::Refused(7, 15)),
        declared("57 48 and 2 1 0", [2, 1, 0], Hand::One(&[259, 56])),
        declared("57 48 and a circle", [1, 1, 1], Hand::Refused(9, 1)),
        declared("57 48 and another circle", [1, 0, 0], Hand::Refused(9, 0)),
    ]
}

/// A downward range and equal rules, or a fault in front of it.
fn other_refusals() -> Vec<Worked> {
    // Rules 0 and 1 are at bytes 9 and 11 and are equal, the range is at 13, a declaration at 15.
    let equal = |name, declarations: &[[u8; 3]], hand| {
        let front = [1, 2, 1, declarations.len() as u8, 0, 0, 1, 1, 1, 0, 64, 0, 64, 57, 48];
        worked(name, [&front[..], &declarations.concat()].concat(), b"8", hand)
    };
    // The rule is at bytes 8 and 9, the range at 10, a declaration at 12.
    let named = |name, result: u8, argument: u8, kind: u8, hand| {
        worked(name, vec![1, 1, 1, 1, 0, 0, 1, 1, result, argument, 57, 48, kind, 0, 0], b"8", hand)
    };
    let shorter = down_t(&T)[..36].to_vec();
    let longer = [&down_t(&T)[..], &[0]].concat();
    vec![
        equal("57 48 and equal rules", &[], Hand::Refused(8, 11)),
        equal("57 48, equal rules and a circle", &[[1, 0, 0]], Hand::Refused(8, 11)),
        equal("57 48, equal rules and no rule", &[[1, 0, 2]], Hand::Refused(7, 17)),
        named("57 48 and all good", 0, 64, 2, Hand::One(&[258, 56])),
        named("57 48 and an argument that is none", 0, 65, 2, Hand::Refused(5, 9)),
        named("57 48 and a result that is none", 1, 64, 2, Hand::Refused(5, 8)),
        named("an argument that is none, 57 48 and kind 8", 0, 65, 8, Hand::Refused(5, 9)),
        worked("57 48 and a byte too few", shorter, b"8", Hand::Refused(4, 36)),
        worked("57 48 and a byte too many", longer, b"8", Hand::Refused(4, 37)),
        worked("57 and no second end", vec![1, 1, 1, 0, 0, 0, 1, 1, 0, 64, 57], b"8", Hand::Refused(4, 11)),
        worked("57 48, 17 times", class_of(&[(57, 48); 17]), b"8", Hand::Refused(3, 7)),
        worked("57 48 and no start sort", vec![1, 1, 1, 0, 1, 0, 1, 1, 0, 64, 57, 48], b"8", Hand::Refused(2, 4)),
    ]
}

pub fn run(dice: &mut Dice, tally: &mut Tally) -> Result<(), Mismatch> {
    let readings = [in_book_t(), alone(), beside(), among_sixteen(), several_classes()];
    let refusals = [and_a_declaration(), other_refusals()];
    for cases in readings.iter().chain(&refusals) {
        all_by_hand(cases, dice, tally)?;
    }
    Ok(())
}
