//! Random flat books: such as try the written form, at all its limits, and small ones to read by; lines allowed at the root;
//! and texts for them.

use crate::book::read_book;
use crate::flat::{Flat, Rooted, Set, NUMBERS, RULES};
use crate::flat_lines::{MOST_ARGUMENTS, MOST_LINES};
use crate::plans::tower;
use crate::prng::Dice;
use std::ops::RangeInclusive;

/// Numbers at which numerals get longer, or begin otherwise, or the characters end.
const CHARACTERS: [usize; 22] = [0, 1, 2, 8, 9, 10, 11, 19, 20, 25, 26, 31, 32, 97, 99, 100, 101, 199, 200, 249, 254, 255];
/// The same of lines.
const LINES: [usize; 14] = [258, 259, 260, 261, 269, 270, 279, 299, 300, 301, 309, 310, 320, 321];
/// One random flat book in so many has all limits at once: 64 lines of 8 arguments, most of 128 ranges.
const LIMITS_ONE_IN: usize = 8000;
/// The most bytes that are lent for the roots: some more than there are entries.
pub const MOST_ROOTS: usize = 70;
/// A random tree has at most so many rules, and is tried so often.
const MOST_RULES: usize = 60;
const TRIES: usize = 12;

fn set_of(numbers: impl IntoIterator<Item = usize>) -> Set {
    let mut set = vec![false; NUMBERS];
    numbers.into_iter().for_each(|n| set[n] = true);
    set
}

/// One range or a few, within these numbers.
fn some_ranges(dice: &mut Dice, telling: &[usize], within: RangeInclusive<usize>) -> Set {
    let (low, high) = (*within.start(), *within.end());
    let mut set = set_of([]);
    for _ in 0..dice.pick(&[1, 1, 1, 2, 2, 3, 5]) {
        let number = if dice.chance(60) { dice.pick(telling) } else { dice.between(low, high) };
        let first = number.min(high);
        let last = (first + dice.pick(&[0, 0, 0, 1, 1, 2, 10, 99])).min(high);
        set[first..=last].fill(true);
    }
    set
}

/// A class with characters, or with numbers of lines up to `last`, or empty.
fn some_class(dice: &mut Dice, last: usize) -> Set {
    match dice.below(40) {
        0..=3 => set_of([]),
        4 => set_of(0..=255),
        5 => set_of(dice.pick(&[0, 1])..=dice.pick(&[253, 254])),
        6 => set_of(RULES..=last),
        7 => set_of((RULES + dice.below(2)..=last).step_by(2)),
        8 if dice.chance(6) => set_of((dice.below(2)..256).step_by(2)),
        8..=20 => some_ranges(dice, &CHARACTERS, 0..=255),
        _ => some_ranges(dice, &LINES, RULES..=last),
    }
}

/// Nearly all that the form has room for.
fn at_limits(dice: &mut Dice) -> Flat {
    let mut argument = || set_of(if dice.chance(80) { (0..256).step_by(2) } else { (RULES..NUMBERS).step_by(2) });
    Flat { lines: (0..MOST_LINES).map(|_| (0..MOST_ARGUMENTS).map(|_| argument()).collect()).collect() }
}

/// A flat book of the form: mostly a few lines, now and then 64. Some name lines that are not there.
pub fn some_form(dice: &mut Dice) -> Flat {
    if dice.below(LIMITS_ONE_IN) == 0 {
        return at_limits(dice);
    }
    let count = match dice.below(100) {
        0..=74 => dice.between(1, 5),
        75..=92 => dice.between(6, 12),
        93..=97 => dice.between(MOST_LINES - 1, MOST_LINES),
        _ => dice.between(13, MOST_LINES),
    };
    let last = if dice.chance(15) { NUMBERS - 1 } else { RULES + count - 1 };
    let counts: &[usize] = if count > 12 { &[0, 0, 1, 1, 2] } else { &[0, 1, 1, 2, 2, 3, 7, 8] };
    let line = |dice: &mut Dice| (0..dice.pick(counts)).map(|_| some_class(dice, last)).collect();
    Flat { lines: (0..count).map(|_| line(dice)).collect() }
}

/// Some characters of a small alphabet.
fn some_letters(dice: &mut Dice, base: usize) -> Set {
    let letter = base + dice.below(3);
    match dice.below(12) {
        0 => set_of(0..=255),
        1 | 2 => set_of(base..=base + 1),
        3 => set_of([base, base + 2]),
        _ => set_of([letter]),
    }
}

/// Some lines of so many, at least one.
fn some_lines(dice: &mut Dice, count: usize) -> Set {
    let one = dice.below(count);
    match dice.below(8) {
        0 => set_of(RULES..RULES + count),
        1..=4 => set_of([RULES + one]),
        _ => set_of((0..count).filter(|&line| line == one || dice.chance(30)).map(|line| RULES + line)),
    }
}

/// What a small flat book is made of.
struct Taste {
    lines: usize,
    counts: &'static [usize],
    line_percent: usize,
}

fn tangle(dice: &mut Dice, taste: Taste) -> Flat {
    let base = dice.pick(&[97, 97, 97, 0, 253]);
    let count = dice.between(1, taste.lines);
    let argument = |dice: &mut Dice| match dice.below(100) {
        0..=4 => set_of([]),
        k if k < 5 + taste.line_percent => some_lines(dice, count),
        _ => some_letters(dice, base),
    };
    let line = |dice: &mut Dice| (0..dice.pick(taste.counts)).map(|_| argument(dice)).collect();
    Flat { lines: (0..count).map(|_| line(dice)).collect() }
}

/// A long chain of lines, each with the next one alone or beside an empty line, closed to a ring or not, in any order.
fn chain(dice: &mut Dice) -> Flat {
    let count = dice.between(3, MOST_LINES);
    let order = dice.shuffled(count);
    let mut lines = vec![vec![]; count];
    for k in 1..count - 1 {
        let next = set_of([RULES + order[k + 1]]);
        let nothing = set_of([RULES + order[0]]);
        lines[order[k]] = match dice.below(5) {
            0 => vec![nothing, next],
            1 => vec![next, nothing],
            _ => vec![next],
        };
    }
    let ring = set_of([RULES + order[1], RULES + order[0]]);
    lines[order[count - 1]] = if dice.chance(50) { vec![set_of([97])] } else { vec![ring] };
    Flat { lines }
}

/// The flat book of a tower: its empty text has one reading with about so many numbers.
fn high(dice: &mut Dice) -> Flat {
    let size = dice.pick(&[5, 60, 4096, 32_767, 32_768, 32_769, 70_000]) + dice.below(2);
    read_book(&tower(size).bytes()).map(|book| Flat::of(&book)).expect("a tower is a book")
}

/// A flat book to read by.
pub fn some_small(dice: &mut Dice) -> Flat {
    match dice.below(400) {
        0..=159 => tangle(dice, Taste { lines: 6, counts: &[0, 1, 1, 2, 2, 3], line_percent: 50 }),
        160..=219 => tangle(dice, Taste { lines: 9, counts: &[1, 1, 1, 1, 1, 2, 0], line_percent: 70 }),
        220..=269 => tangle(dice, Taste { lines: 5, counts: &[0, 0, 1, 2, 2, 3], line_percent: 85 }),
        270..=339 => tangle(dice, Taste { lines: 4, counts: &[0, 1, 2, 2, 3, 4], line_percent: 45 }),
        340..=359 => tangle(dice, Taste { lines: 6, counts: &[0, 1, 2, 3, 5, 7, 8], line_percent: 30 }),
        360..=363 => tangle(dice, Taste { lines: 64, counts: &[0, 1, 1, 2, 2, 8], line_percent: 60 }),
        364 | 365 => high(dice),
        _ => chain(dice),
    }
}

/// One class gets the number of a line that is not there, if there may be one.
pub fn name_absent(dice: &mut Dice, flat: &mut Flat) {
    let count = flat.lines.len();
    let mut classes: Vec<&mut Set> = flat.lines.iter_mut().flatten().filter(|set| !set[..256].contains(&true)).collect();
    if count < MOST_LINES && !classes.is_empty() {
        let at = dice.below(classes.len());
        let line = if dice.chance(50) { count } else { dice.between(count, MOST_LINES - 1) };
        classes[at][RULES + line] = true;
    }
}

/// Which byte means yes.
fn yes(dice: &mut Dice) -> u8 {
    dice.pick(&[1, 1, 2, 128, 255])
}

/// Bytes that allow these lines at the root, as far as the area reaches. What is behind the 64th has no meaning.
pub fn roots_for(dice: &mut Dice, lines: &[usize], length: usize) -> Vec<u8> {
    let mut roots = vec![0; length];
    for &line in lines.iter().filter(|&&line| line < length) {
        roots[line] = yes(dice);
    }
    for byte in roots.iter_mut().skip(MOST_LINES) {
        *byte = dice.pick(&[0, 1, 255]);
    }
    roots
}

/// Some lines of so many at the root, all of them or one; now and then one that is not there. The area may be too short for
/// some of them.
pub fn some_roots(dice: &mut Dice, count: usize) -> Vec<u8> {
    let one = dice.below(count);
    let mut lines: Vec<usize> = match dice.below(4) {
        0 => (0..count).collect(),
        1 => vec![one],
        _ => (0..count).filter(|_| dice.chance(60)).collect(),
    };
    if count < MOST_LINES && dice.chance(5) {
        lines.push(dice.pick(&[count, MOST_LINES - 1]));
    }
    let length = match dice.below(10) {
        0..=3 => MOST_LINES,
        4..=6 => count,
        _ => dice.below(MOST_ROOTS + 1),
    };
    roots_for(dice, &lines, length)
}

/// What a random tree spells, as it grows.
struct Growing<'a> {
    flat: &'a Flat,
    longest: usize,
    rules: usize,
    text: Vec<u8>,
}

impl Growing<'_> {
    /// Adds a tree of this line; false if it gets too large.
    fn add(&mut self, dice: &mut Dice, line: usize) -> bool {
        let flat = self.flat;
        self.rules += 1;
        for set in &flat.lines[line] {
            let members: Vec<usize> = (0..NUMBERS).filter(|&n| set[n]).collect();
            if members.is_empty() || self.rules > MOST_RULES || self.text.len() > self.longest {
                return false;
            }
            let number = dice.pick(&members);
            if number < RULES {
                self.text.push(number as u8);
            } else if !self.add(dice, number - RULES) {
                return false;
            }
        }
        self.text.len() <= self.longest
    }
}

/// Some letters that the classes know, and one that they may not know.
fn some_known(dice: &mut Dice, flat: &Flat, longest: usize) -> Vec<u8> {
    let is_known = |letter: &u8| flat.lines.iter().flatten().any(|set| set[*letter as usize]);
    let mut letters: Vec<u8> = [0, 1, 2, 97, 98, 99, 253, 254, 255].into_iter().filter(is_known).collect();
    letters.push(b'z');
    (0..dice.below(longest + 1)).map(|_| dice.pick(&letters)).collect()
}

/// A text that some tree with an allowed root spells, if one is found; or letters of the classes.
pub fn some_text(dice: &mut Dice, lines: &Rooted, longest: usize) -> Vec<u8> {
    for _ in 0..TRIES {
        if lines.roots.is_empty() || dice.chance(5) {
            break;
        }
        let root = dice.pick(&lines.roots);
        let mut growing = Growing { flat: &lines.flat, longest, rules: 0, text: vec![] };
        if growing.add(dice, root) {
            return growing.text;
        }
    }
    some_known(dice, &lines.flat, longest)
}
