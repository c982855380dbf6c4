//! Reasons of clashes worked by hand from request [8] of 02: the lowest declaration of those that cover a pair, and at which
//! arguments.

use crate::compare::Mismatch;
use crate::fixed::{see_saw, shape};
use crate::fixed_reasons::{all_reasons, first, last, no, only, signs, worked, Worked};
use crate::plans::Plan;
use crate::prng::Dice;
use crate::tally::Tally;

/// Single declarations, either way round, at both ends.
fn singles() -> Vec<Worked> {
    let right = [first([1, 0, 2], 0), first([2, 0, 1], 0), no([1, 2, 2]), no([2, 2, 1])];
    let left = [last([1, 2, 2], 0), last([2, 2, 1], 0), no([1, 0, 2]), no([2, 0, 1])];
    let at_both = || [first([1, 0, 2], 0), last([1, 2, 2], 0), first([2, 0, 1], 0), last([2, 2, 1], 0)];
    let itself = [first([3, 0, 3], 1), last([3, 2, 3], 0), no([3, 1, 3]), no([1, 0, 1])];
    let kinds = [[2, 1, 2], [4, 1, 2], [3, 1, 2]];
    vec![
        signs("right", &[[3, 1, 2]], right),
        signs("left", &[[2, 1, 2]], left),
        signs("right, turned", &[[3, 2, 1]], [first([1, 0, 2], 0), first([2, 0, 1], 0), no([1, 2, 2])]),
        signs("left, turned", &[[2, 2, 1]], [last([1, 2, 2], 0), last([2, 2, 1], 0), no([1, 0, 2])]),
        signs("not together", &[[4, 1, 2]], at_both()),
        signs("not together, turned", &[[4, 2, 1]], at_both()),
        signs("itself", &[[2, 3, 3], [3, 3, 3]], itself),
        signs("the kinds of line 2", &kinds, [first([1, 0, 2], 1), first([2, 0, 1], 1)]),
        signs("the kinds of line 3", &kinds, [last([1, 2, 2], 0), last([2, 2, 1], 0)]),
        signs("left last", &[[3, 1, 2], [6, 1, 2], [2, 1, 2]], [last([1, 2, 2], 2), first([1, 0, 2], 0)]),
        signs("right last", &[[2, 1, 2], [5, 1, 2], [3, 1, 2]], [first([1, 0, 2], 2), last([1, 2, 2], 0)]),
        signs("turned before straight", &[[2, 2, 1], [2, 1, 2]], [last([1, 2, 2], 0), last([2, 2, 1], 0)]),
        signs("one rule of the pair", &[[2, 1, 3], [2, 2, 4], [2, 1, 1], [2, 1, 2]], [last([1, 2, 2], 3)]),
        signs("not closed", &[[2, 1, 2], [2, 2, 3]], [no([1, 2, 3]), last([1, 2, 2], 0), last([2, 2, 3], 1)]),
    ]
}

/// Groups, with p and q in either order, beside single declarations.
fn groups() -> Vec<Worked> {
    let of_three = |p, q| first([p, 0, q], 0);
    let every_pair = [of_three(1, 3), of_three(3, 1), of_three(1, 2), of_three(2, 3), of_three(3, 2), of_three(2, 2)];
    let both_ends = [first([3, 0, 1], 0), last([3, 2, 1], 0), first([1, 0, 3], 0), last([1, 2, 3], 0)];
    let narrow = [[5, 2, 4], [5, 1, 1], [2, 2, 1], [5, 1, 2]];
    let mixed = [[3, 1, 2], [6, 1, 4], [2, 2, 1], [5, 1, 4], [7, 1, 4]];
    let outside = [no([1, 0, 2]), no([3, 0, 4]), no([4, 0, 2]), no([1, 0, 4]), of_three(2, 3)];
    vec![
        signs("six pairs of it", &[[6, 1, 3]], every_pair),
        signs("not at the other end", &[[6, 1, 3]], [no([1, 2, 3]), no([3, 2, 1]), no([2, 1, 2])]),
        signs("left of each", &[[5, 1, 3]], [last([1, 2, 3], 0), last([3, 2, 1], 0), no([1, 0, 3])]),
        signs("not together", &[[7, 1, 3]], both_ends),
        signs("just outside", &[[6, 2, 3]], outside),
        signs("of one rule", &[[7, 2, 2]], [first([2, 0, 2], 0), last([2, 2, 2], 0), no([2, 0, 1])]),
        signs("before a single", &[[5, 1, 2], [2, 1, 2]], [last([1, 2, 2], 0), last([2, 2, 1], 0)]),
        signs("behind a single", &[[1, 3, 4], [2, 1, 2], [5, 1, 2]], [last([1, 2, 2], 1), last([2, 2, 2], 2)]),
        signs("6 before 3", &[[6, 0, 4], [3, 2, 1]], [first([1, 0, 2], 0), first([2, 0, 1], 0)]),
        signs("6 behind 3", &[[3, 2, 1], [6, 0, 4]], [first([1, 0, 2], 0), first([1, 0, 0], 1)]),
        signs("7 before 4", &[[7, 1, 2], [4, 2, 1]], [first([1, 0, 2], 0), last([1, 2, 2], 0)]),
        signs("groups that don't cover", &narrow, [last([1, 2, 2], 2), last([2, 2, 2], 0), last([1, 2, 1], 1)]),
        signs("one rule in each", &[[7, 1, 2], [7, 3, 4], [5, 2, 3]], [last([2, 2, 3], 2), no([2, 0, 3]), no([1, 0, 4])]),
        signs("groups that overlap", &[[5, 2, 3], [5, 1, 4]], [last([2, 2, 3], 0), last([1, 2, 3], 1)]),
        signs("all kinds", &mixed, [last([1, 2, 2], 2), first([1, 0, 2], 0), last([3, 2, 4], 3), first([4, 0, 3], 1)]),
    ]
}

/// Other arguments than number, sign, number: one alone, one in the middle, another sort.
fn arguments() -> Vec<Worked> {
    let every_kind = [[2, 0, 1], [3, 0, 1], [4, 0, 1], [7, 0, 2]];
    let eight = |kind| shape(&[0; 8], &[[kind, 1, 1], [1, 1, 0]]);
    let inside = |i| no([1, i, 1]);
    vec![
        worked("one argument", see_saw(&every_kind), [no([0, 0, 1]), no([1, 0, 0]), no([1, 0, 2])]),
        worked("one argument, line 1", see_saw(&[[7, 0, 2], [1, 0, 1]]), [only([0, 0, 1], &[1]), no([1, 0, 0])]),
        worked("one argument, a chain", see_saw(&[[1, 2, 0], [1, 1, 2]]), [only([1, 0, 0], &[1, 0]), only([1, 0, 2], &[1])]),
        worked("another sort", see_saw(&[[1, 0, 2], [7, 0, 2]]), [no([0, 0, 2]), no([0, 0, 0])]),
        worked("a class", see_saw(&[[1, 2, 0], [7, 0, 2]]), [no([2, 0, 0]), no([2, 0, 1]), no([2, 0, 2])]),
        signs("a class between", &[[1, 1, 2], [7, 1, 2]], [no([1, 1, 2]), no([2, 1, 1])]),
        worked("prefix, left", shape(&[65, 0], &[[2, 1, 1]]), [last([1, 1, 1], 0), no([1, 0, 1])]),
        worked("prefix, right", shape(&[65, 0], &[[3, 1, 1]]), [no([1, 1, 1]), no([1, 0, 1])]),
        worked("postfix, right", shape(&[0, 65], &[[6, 0, 1]]), [first([1, 0, 1], 0), first([1, 0, 0], 0)]),
        worked("postfix, left", shape(&[0, 65], &[[5, 0, 1]]), [no([1, 0, 1]), no([1, 0, 0])]),
        worked("two, side by side", shape(&[0, 0], &[[2, 1, 1], [3, 1, 1]]), [first([1, 0, 1], 1), last([1, 1, 1], 0)]),
        worked("in brackets", shape(&[66, 0, 67], &[[7, 0, 1]]), [no([1, 1, 1]), no([1, 1, 0])]),
        worked("in brackets, line 1", shape(&[66, 0, 67], &[[7, 0, 1], [1, 1, 0]]), [only([1, 1, 0], &[1])]),
        worked("in the middle", shape(&[0, 0, 0], &[[4, 1, 1]]), [first([1, 0, 1], 0), inside(1), last([1, 2, 1], 0)]),
        worked("eight, left", eight(2), [last([1, 7, 1], 0), inside(6), inside(0), only([1, 3, 0], &[1])]),
        worked("eight, right", eight(3), [first([1, 0, 1], 0), inside(7), inside(1), only([1, 7, 0], &[1])]),
    ]
}

/// Two sorts: rule 0 is a digit of sort 0, rule 1 is sorts 0 and 1 of sort 0, rule 2 is sorts 1 and 0 of sort 1.
fn crossed(declarations: &[[u8; 3]]) -> Vec<u8> {
    let rules = vec![(0, vec![64]), (0, vec![0, 1]), (1, vec![1, 0])];
    Plan { sorts: 2, start: 0, rules, classes: vec![vec![(48, 57)]], declarations: declarations.to_vec() }.bytes()
}

/// No two rules together, and rule 1 higher than the others: but only where their sort is.
fn other_sorts() -> Vec<Worked> {
    let apart = [first([1, 0, 0], 0), first([1, 0, 1], 0), last([1, 1, 2], 0)];
    let apart_too = [first([2, 0, 2], 0), last([2, 1, 0], 0), last([2, 1, 1], 0)];
    let none = || [no([1, 1, 0]), no([1, 1, 1]), no([1, 0, 2]), no([2, 0, 0]), no([2, 0, 1]), no([2, 1, 2])];
    let ranked = [[7, 0, 2], [1, 1, 0], [1, 1, 2]];
    vec![
        worked("two sorts", crossed(&[[7, 0, 2]]), apart.into_iter().chain(apart_too)),
        worked("two sorts, the other sort", crossed(&[[7, 0, 2]]), none()),
        worked("two sorts, line 1", crossed(&ranked), [only([1, 0, 0], &[1]), only([1, 1, 2], &[2]), first([1, 0, 1], 0)]),
        worked("two sorts, line 1, the other sort", crossed(&ranked), none()),
    ]
}

pub fn run(dice: &mut Dice, tally: &mut Tally) -> Result<(), Mismatch> {
    [singles(), groups(), arguments(), other_sorts()].iter().try_for_each(|cases| all_reasons(cases, dice, tally))
}
