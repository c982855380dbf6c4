//! Random ranges written downwards: alone in a class, beside others, at both ends of the alphabet, all of a book's ranges or
//! some of them.

use crate::prng::Dice;

type Class = Vec<(u8, u8)>;

/// Sixteen ranges of up to three characters, which touch here and there; one of them is turned round, and has two characters
/// or more.
fn sixteen(dice: &mut Dice) -> Class {
    let turned = dice.below(16);
    let mut class: Class = (0..16).map(|k| (90 + 3 * k, 90 + 3 * k + dice.below(3) as u8)).collect();
    class[turned] = (92 + 3 * turned as u8, 90 + 3 * turned as u8 + dice.below(2) as u8);
    class
}

/// A class with a downward range, beside an upward one now and then. Most start at `letter`.
fn downward(dice: &mut Dice, letter: u8) -> Class {
    let up = |k: u8| letter.saturating_add(k);
    let mut class = match dice.below(14) {
        0 => vec![(255, 0)],
        1 => vec![(letter, 0)],
        2 => vec![(255, letter)],
        3 => vec![(up(2), letter), (up(3), up(5))],
        4 => vec![(letter, up(1)), (up(4), up(2))],
        5 => vec![(up(3), letter), (up(2), up(5))],
        6 => vec![(up(2), letter), (up(4), up(6))],
        7 => vec![(up(2), letter), (letter, up(2))],
        8 => sixteen(dice),
        _ => vec![(up(dice.between(1, 6) as u8), letter)],
    };
    if dice.chance(50) {
        class.reverse();
    }
    class
}

/// One of the classes becomes one with a downward range. A class with more ranges than a book may have is left alone.
fn change_one(dice: &mut Dice, classes: &mut [Class]) {
    let at = dice.below(classes.len());
    if classes[at].len() <= 16 {
        let letter = classes[at].first().map_or(97, |r| r.0.min(r.1));
        classes[at] = downward(dice, letter);
    }
}

/// Turns so many in a hundred of the ranges, so that they go down.
fn turn(dice: &mut Dice, classes: &mut [Class], percent: usize) {
    for range in classes.iter_mut().flatten() {
        if dice.chance(percent) {
            *range = (range.0.max(range.1), range.0.min(range.1));
        }
    }
}

/// The classes as they are, or in about a third of the books with ranges that go down: all, or some.
pub fn perhaps_downward(dice: &mut Dice, mut classes: Vec<Class>) -> Vec<Class> {
    if classes.is_empty() || !dice.chance(45) {
        return classes;
    }
    if dice.chance(60) {
        change_one(dice, &mut classes);
    }
    let percent = dice.pick(&[100, 100, 50, 20]);
    turn(dice, &mut classes, percent);
    classes
}
