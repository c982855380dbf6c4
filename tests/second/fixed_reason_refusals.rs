//! Questions for reasons that are refused, worked by hand from 01 and request [8] of 02: for the book, or for what isn't there.

use crate::compare::Mismatch;
use crate::fixed::{book_t, T};
use crate::fixed_groups::{four_signs, many_signs};
use crate::fixed_reasons::{all_reasons, first, last, only, worked, Hand, Worked};
use crate::fixed_sheets::{circle, nothing};
use crate::prng::Dice;
use crate::reasons::Question;
use crate::tally::Tally;

/// A book with each refusal of its own, and its place.
pub fn bad_books() -> Vec<(Vec<u8>, (u64, u64))> {
    let changed = |at: usize, value: u8| {
        let mut book = book_t(&T);
        book[at] = value;
        book
    };
    vec![
        (vec![], (1, 0)),
        (vec![1, 64, 0, 0, 0, 0], (1, 6)),
        (vec![1, 65, 0, 0, 0, 0], (2, 1)),
        (changed(5, 1), (2, 5)),
        (changed(7, 9), (3, 7)),
        (changed(9, 17), (3, 9)),
        (book_t(&T)[..36].to_vec(), (4, 36)),
        ([book_t(&T), vec![0]].concat(), (4, 37)),
        (changed(12, 1), (5, 12)),
        (changed(13, 67), (5, 13)),
        (book_t(&[[8, 1, 1]]), (7, 28)),
        (book_t(&[[1, 1, 2], [5, 2, 1]]), (7, 32)),
        (book_t(&[[1, 0, 3]]), (7, 30)),
        (vec![1, 2, 0, 0, 0, 0, 0, 0, 0, 0], (8, 9)),
        (circle(), (9, 1)),
        (book_t(&[[1, 2, 1], [1, 0, 0], [1, 1, 2]]), (9, 0)),
    ]
}

/// A bad book is refused by its own number whatever is asked, be it not there.
fn refused_books() -> Vec<Worked> {
    let asks = [(1, 0, 2), (0, 0, 0), (3, 0, 0), (1, 3, 2), (1, 0, 3), (u64::MAX, 0, 0), (u64::MAX, u64::MAX, u64::MAX)];
    let all = |(number, place): (u64, u64)| asks.map(|ask| (ask, Hand::Refused(number, place)));
    bad_books().into_iter().map(|(book, hand)| worked("a bad book", book, all(hand))).collect()
}

/// Each way to ask for what isn't there: of the number that is, this one or that with a high bit more.
fn missing() -> Vec<Question> {
    let high = |good: u64| [256 + good, 65_536 + good, (1 << 32) + good, (1 << 63) + good, u64::MAX - 1, u64::MAX];
    let mut asks = vec![(5, 0, 2), (64, 0, 2), (1, 3, 2), (1, 8, 2), (1, 0, 5), (1, 0, 64), (0, 1, 2), (0, 2, 2)];
    asks.extend(high(1).map(|p| (p, 0, 2)));
    asks.extend(high(0).map(|i| (1, i, 2)));
    asks.extend(high(2).map(|q| (1, 0, q)));
    asks.extend([(5, 3, 5), (u64::MAX, u64::MAX, 2), (1, u64::MAX, u64::MAX), (u64::MAX, u64::MAX, u64::MAX)]);
    asks
}

/// Five rules, the first with one argument and the others with three; one rule without arguments; and 64 rules.
fn refused_questions() -> Vec<Worked> {
    let refused = |ask| (ask, Hand::Refused(7, 0));
    let five = || four_signs(&[[1, 1, 2], [7, 0, 4]]);
    vec![
        worked("not there", five(), missing().into_iter().map(refused)),
        worked("there", five(), [only([1, 0, 2], &[0]), last([4, 2, 4], 1)]),
        worked("no argument", nothing(), [(0, 0, 0), (1, 0, 0), (0, 0, 1)].map(refused)),
        worked("not among 64", many_signs(63, &[[7, 62, 63]]), [(64, 0, 1), (1, 0, 64), (1, 3, 63)].map(refused)),
        worked("the last of 64", many_signs(63, &[[7, 62, 63]]), [first([63, 0, 63], 0), last([62, 2, 63], 0)]),
    ]
}

pub fn run(dice: &mut Dice, tally: &mut Tally) -> Result<(), Mismatch> {
    [refused_books(), refused_questions()].iter().try_for_each(|cases| all_reasons(cases, dice, tally))
}
