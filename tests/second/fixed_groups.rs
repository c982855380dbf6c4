//! Groups worked by hand from request [2] of 02: readings and refusals, at the ends of a group and just outside, beside
//! other declarations, and past what single declarations can say.

use crate::compare::Mismatch;
use crate::fixed::{all_by_hand, book_t, see_saw, shape, worked, Hand, Worked};
use crate::plans::Plan;
use crate::prng::Dice;
use crate::tally::Tally;

/// A digit (rule 0), and so many rules: number, sign, number. Rule k has the sign of byte 100 + k.
pub fn many_signs(count: u8, declarations: &[[u8; 3]]) -> Vec<u8> {
    let mut rules = vec![(0, vec![64])];
    rules.extend((1..=count).map(|k| (0, vec![0, 64 + k, 0])));
    let mut classes = vec![vec![(48, 57)]];
    classes.extend((1..=count).map(|k| vec![(100 + k, 100 + k)]));
    Plan { sorts: 1, start: 0, rules, classes, declarations: declarations.to_vec() }.bytes()
}

/// Rules 1 to 4 have the signs `e` to `h` and the numbers 259 to 262.
pub fn four_signs(declarations: &[[u8; 3]]) -> Vec<u8> {
    many_signs(4, declarations)
}

/// Rules 3 and 4 higher than rules 1 and 2, and each two left.
const LEVELS: [[u8; 3]; 6] = [[5, 1, 2], [1, 3, 1], [1, 3, 2], [1, 4, 1], [1, 4, 2], [5, 3, 4]];

/// `(8/4)*2`, the tree of (a) in 01.
const A: &[u16] = &[259, 260, 258, 56, 47, 258, 52, 42, 258, 50];
/// `8/(4*2)`, the tree of (g).
const G: &[u16] = &[260, 258, 56, 47, 259, 258, 52, 42, 258, 50];
/// `8/(4/2)`, the tree of (f).
const F: &[u16] = &[260, 258, 56, 47, 260, 258, 52, 47, 258, 50];
/// `(8/4)/2`
const LEFT_QUOTIENTS: &[u16] = &[260, 260, 258, 56, 47, 258, 52, 47, 258, 50];
/// `(8*4)*2`
const LEFT_PRODUCTS: &[u16] = &[259, 259, 258, 56, 42, 258, 52, 42, 258, 50];
/// `(8*4)/2`
const PRODUCT_FIRST: &[u16] = &[260, 259, 258, 56, 42, 258, 52, 47, 258, 50];
/// `8*(4/2)`
const QUOTIENT_LAST: &[u16] = &[259, 258, 56, 42, 260, 258, 52, 47, 258, 50];
/// `8/4`
const QUOTIENT: &[u16] = &[260, 258, 56, 47, 258, 52];

/// Book T with a group in place of its declarations.
fn in_book_t() -> Vec<Worked> {
    let of_t = |name, group: [u8; 3], text, hand| worked(name, book_t(&[group]), text, hand);
    vec![
        of_t("5 1 2", [5, 1, 2], b"8/4*2", Hand::One(A)),
        of_t("5 1 2, turned", [5, 1, 2], b"8*4/2", Hand::One(PRODUCT_FIRST)),
        of_t("5 1 2, first with itself", [5, 1, 2], b"8*4*2", Hand::One(LEFT_PRODUCTS)),
        of_t("5 1 2, second with itself", [5, 1, 2], b"8/4/2", Hand::One(LEFT_QUOTIENTS)),
        of_t("6 1 2", [6, 1, 2], b"8/4*2", Hand::One(G)),
        of_t("6 1 2, second with itself", [6, 1, 2], b"8/4/2", Hand::One(F)),
        of_t("7 1 2", [7, 1, 2], b"8/4*2", Hand::None),
        of_t("7 1 2, second with itself", [7, 1, 2], b"8/4/2", Hand::None),
        of_t("7 1 2, one sign", [7, 1, 2], b"8/4", Hand::One(QUOTIENT)),
        // The digit is in the group too: nothing can be the last argument of a sign, or the first.
        of_t("5 0 2", [5, 0, 2], b"8/4*2", Hand::None),
        of_t("5 0 2, one sign", [5, 0, 2], b"8/4", Hand::None),
        of_t("6 0 2, one sign", [6, 0, 2], b"8/4", Hand::None),
        of_t("7 0 2, no sign", [7, 0, 2], b"8", Hand::One(&[258, 56])),
        // A digit can't stand behind *, a quotient can: rule 2 is just above the group.
        of_t("5 0 1", [5, 0, 1], b"8*4/2", Hand::One(QUOTIENT_LAST)),
        of_t("5 0 1, in the group", [5, 0, 1], b"8*4", Hand::None),
        of_t("5 0 1, above it", [5, 0, 1], b"8/4", Hand::One(QUOTIENT)),
        of_t("7 0 0", [7, 0, 0], b"8/4*2", Hand::Several),
        of_t("2 1 1", [2, 1, 1], b"8*4*2", Hand::One(LEFT_PRODUCTS)),
        of_t("5 1 1", [5, 1, 1], b"8*4*2", Hand::One(LEFT_PRODUCTS)),
        of_t("5 1 1, above it", [5, 1, 1], b"8/4/2", Hand::Several),
        of_t("5 1 1, in and above", [5, 1, 1], b"8/4*2", Hand::Several),
        of_t("5 2 2", [5, 2, 2], b"8/4/2", Hand::One(LEFT_QUOTIENTS)),
        of_t("5 2 2, below it", [5, 2, 2], b"8*4*2", Hand::Several),
    ]
}

/// Groups beside each other, beside kind 1 and beside single declarations.
fn beside() -> Vec<Worked> {
    let of_t = |name, declarations: &[[u8; 3]], text, hand| worked(name, book_t(declarations), text, hand);
    let signs = |name, declarations: &[[u8; 3]], text, hand| worked(name, four_signs(declarations), text, hand);
    // (8e8)f8, (8e8)g8 and 8g(8h8)
    let e_in_f = Hand::One(&[260, 259, 258, 56, 101, 258, 56, 102, 258, 56]);
    let e_in_g = Hand::One(&[261, 259, 258, 56, 101, 258, 56, 103, 258, 56]);
    let h_in_g = Hand::One(&[261, 258, 56, 103, 262, 258, 56, 104, 258, 56]);
    // 8e(8g8), (8f8)e8 and (8h8)g8
    let g_in_e = Hand::One(&[259, 258, 56, 101, 261, 258, 56, 103, 258, 56]);
    let f_in_e = Hand::One(&[259, 260, 258, 56, 102, 258, 56, 101, 258, 56]);
    let h_before_g = Hand::One(&[261, 262, 258, 56, 104, 258, 56, 103, 258, 56]);
    vec![
        of_t("5 and 6", &[[5, 1, 2], [6, 1, 2]], b"8/4*2", Hand::None),
        of_t("5 and 6, one sign", &[[5, 1, 2], [6, 1, 2]], b"8/4", Hand::One(QUOTIENT)),
        of_t("5 and 6 of one rule each", &[[5, 1, 1], [6, 2, 2]], b"8/4/2", Hand::One(F)),
        of_t("5 twice", &[[5, 1, 2], [5, 1, 2]], b"8/4*2", Hand::One(A)),
        of_t("1 1 2 and 5", &[[1, 1, 2], [5, 1, 2]], b"8/4*2", Hand::None),
        of_t("1 1 2 and 5, turned", &[[1, 1, 2], [5, 1, 2]], b"8*4/2", Hand::One(PRODUCT_FIRST)),
        of_t("5 and 1 2 1", &[[5, 1, 2], [1, 2, 1]], b"8/4*2", Hand::One(A)),
        of_t("5 and 1 2 1, turned", &[[5, 1, 2], [1, 2, 1]], b"8*4/2", Hand::None),
        signs("5 1 4 and 3 1 4", &[[5, 1, 4], [3, 1, 4]], b"8e8h8", Hand::None),
        signs("3 4 1 and 5 1 4", &[[3, 4, 1], [5, 1, 4]], b"8e8f8", e_in_f),
        signs("5 1 4 and 4 2 2", &[[5, 1, 4], [4, 2, 2]], b"8f8f8", Hand::None),
        signs("overlapping, 1 and 3", &[[5, 1, 3], [6, 3, 4]], b"8e8g8", e_in_g),
        signs("overlapping, 3 and 4", &[[5, 1, 3], [6, 3, 4]], b"8g8h8", h_in_g),
        signs("overlapping, 3 with itself", &[[5, 1, 3], [6, 3, 4]], b"8g8g8", Hand::None),
        signs("overlapping, 1 and 4", &[[5, 1, 3], [6, 3, 4]], b"8e8h8", Hand::Several),
        signs("not closed", &[[5, 1, 2], [5, 2, 3]], b"8e8g8", Hand::Several),
        signs("levels, across", &LEVELS, b"8e8g8", g_in_e),
        signs("levels, the lower", &LEVELS, b"8f8e8", f_in_e),
        signs("levels, the higher", &LEVELS, b"8h8g8", h_before_g),
    ]
}

/// Arguments other than number, sign, number.
fn other_shapes() -> Vec<Worked> {
    vec![
        worked("one argument", see_saw(&[[7, 0, 2], [5, 0, 2], [6, 0, 2]]), b"8", Hand::Several),
        worked("one argument, cut by 1", see_saw(&[[7, 0, 2], [1, 0, 1]]), b"8", Hand::One(&[260, 56])),
        worked("prefix is last", shape(&[65, 0], &[[5, 0, 1]]), b"+8", Hand::None),
        worked("prefix is not first", shape(&[65, 0], &[[6, 0, 1]]), b"++8", Hand::One(&[259, 43, 259, 43, 258, 56])),
        worked("postfix is first", shape(&[0, 65], &[[6, 0, 1]]), b"8+", Hand::None),
        worked("postfix is not last", shape(&[0, 65], &[[5, 0, 1]]), b"8++", Hand::One(&[259, 259, 258, 56, 43, 43])),
        worked("middle stays", shape(&[66, 0, 67], &[[7, 0, 1]]), b"((8))", Hand::One(&[259, 40, 259, 40, 258, 56, 41, 41])),
    ]
}

/// Sixty-three signs: more pairs than 255 declarations can say. Rule 1 has byte 101, rule 63 byte 163 and number 321.
fn wide() -> Vec<Worked> {
    let signs = |name, declarations: &[[u8; 3]], text, hand| worked(name, many_signs(63, declarations), text, hand);
    let text: &[u8] = &[56, 101, 56, 163, 56];
    let from_left: &[u16] = &[321, 259, 258, 56, 101, 258, 56, 163, 258, 56];
    let from_right: &[u16] = &[259, 258, 56, 101, 321, 258, 56, 163, 258, 56];
    let last_itself: &[u16] = &[321, 321, 258, 56, 163, 258, 56, 163, 258, 56];
    let mut last_counts = [[5, 1, 62]; 255];
    last_counts[254] = [5, 1, 63];
    vec![
        signs("5 1 63", &[[5, 1, 63]], text, Hand::One(from_left)),
        signs("6 1 63", &[[6, 1, 63]], text, Hand::One(from_right)),
        signs("7 1 63", &[[7, 1, 63]], text, Hand::None),
        signs("5 1 62", &[[5, 1, 62]], text, Hand::Several),
        signs("5 2 63", &[[5, 2, 63]], text, Hand::Several),
        signs("5 63 63", &[[5, 63, 63]], &[56, 163, 56, 163, 56], Hand::One(last_itself)),
        signs("5 0 63, 255 times", &[[5, 0, 63]; 255], b"8", Hand::One(&[258, 56])),
        signs("the last of 255", &last_counts, text, Hand::One(from_left)),
    ]
}

/// Book T, whose declaration k has its kind at byte 28 + 3k and its rules at 29 + 3k and 30 + 3k. There are three rules.
fn refusals() -> Vec<Worked> {
    let refused = |name, declarations: &[[u8; 3]], place| worked(name, book_t(declarations), b"8", Hand::Refused(7, place));
    let accepted = |name, declarations: &[[u8; 3]]| worked(name, book_t(declarations), b"8", Hand::One(&[258, 56]));
    vec![
        accepted("kind 7", &[[7, 1, 1]]),
        refused("kind 8", &[[8, 1, 1]], 28),
        refused("kind 0", &[[0, 1, 1]], 28),
        refused("kind 255", &[[255, 1, 1]], 28),
        refused("kind 8 falling", &[[8, 2, 1]], 28),
        refused("kind 8 and no rules", &[[8, 3, 3]], 28),
        accepted("5 2 2", &[[5, 2, 2]]),
        refused("5 2 1", &[[5, 2, 1]], 29),
        refused("6 2 1", &[[6, 2, 1]], 29),
        refused("7 2 1", &[[7, 2, 1]], 29),
        refused("5 2 0", &[[5, 2, 0]], 29),
        refused("5 1 0", &[[5, 1, 0]], 29),
        accepted("5 0 2", &[[5, 0, 2]]),
        refused("5 0 3", &[[5, 0, 3]], 30),
        refused("5 2 3", &[[5, 2, 3]], 30),
        refused("5 2 255", &[[5, 2, 255]], 30),
        refused("5 3 2", &[[5, 3, 2]], 29),
        refused("5 3 0", &[[5, 3, 0]], 29),
        refused("5 3 3", &[[5, 3, 3]], 29),
        refused("5 3 4", &[[5, 3, 4]], 29),
        refused("7 255 254", &[[7, 255, 254]], 29),
        accepted("1 2 1", &[[1, 2, 1]]),
        accepted("2 2 1, 3 2 0 and 4 1 0", &[[2, 2, 1], [3, 2, 0], [4, 1, 0]]),
        refused("a good group before", &[[5, 1, 2], [7, 1, 0]], 32),
        refused("a good group after", &[[7, 1, 0], [5, 1, 2]], 29),
        refused("falling, then a bad kind", &[[5, 2, 1], [8, 1, 1]], 29),
        refused("a bad kind, then falling", &[[8, 1, 1], [5, 2, 1]], 28),
        refused("falling, then no rule", &[[6, 1, 0], [2, 3, 1]], 29),
        refused("no rule, then falling", &[[5, 1, 3], [5, 2, 1]], 30),
        refused("falling twice", &[[4, 2, 1], [6, 2, 0], [7, 2, 1]], 32),
        refused("falling, and a circle", &[[1, 1, 2], [1, 2, 1], [5, 2, 1]], 35),
        accepted("groups make no circle", &[[5, 0, 2], [6, 1, 1], [7, 1, 2], [1, 1, 2]]),
    ]
}

/// Groups and other refusals, and other books.
fn other_refusals() -> Vec<Worked> {
    let circle = book_t(&[[5, 1, 2], [1, 1, 2], [6, 0, 1], [1, 2, 1]]);
    let mut six_announced = book_t(&[[5, 0, 2]]);
    six_announced[3] = 6;
    // The declarations of 64 rules start at 6 + 64 + 64 + 2 + 63 * 4 + 64 * 2 = 516.
    let of_64 = |name, group: [u8; 3], place| worked(name, many_signs(63, &[group]), b"8", Hand::Refused(7, place));
    vec![
        worked("a circle beside groups", circle, b"8", Hand::Refused(9, 1)),
        // A group of three rules is one declaration, not six.
        worked("six announced", six_announced, b"8", Hand::Refused(4, 31)),
        // The range 9 to 8 is at byte 12 and no fault any more; the group's first rule is at byte 15.
        worked("9-8 and falling", vec![1, 2, 1, 1, 0, 0, 0, 1, 1, 0, 0, 64, 9, 8, 5, 1, 0], b"", Hand::Refused(7, 15)),
        // Rules 0 and 1, at bytes 8 and 9, are equal.
        worked("8 and falling", vec![1, 2, 0, 1, 0, 0, 0, 0, 0, 0, 5, 1, 0], b"", Hand::Refused(7, 11)),
        worked("8 and a good group", vec![1, 2, 0, 1, 0, 0, 0, 0, 0, 0, 5, 0, 1], b"", Hand::Refused(8, 9)),
        of_64("5 0 64 of 64", [5, 0, 64], 518),
        of_64("5 64 63 of 64", [5, 64, 63], 517),
        of_64("5 63 62 of 64", [5, 63, 62], 517),
    ]
}

pub fn run(dice: &mut Dice, tally: &mut Tally) -> Result<(), Mismatch> {
    for cases in [in_book_t(), beside(), other_shapes(), wide(), refusals(), other_refusals()] {
        all_by_hand(&cases, dice, tally)?;
    }
    Ok(())
}
