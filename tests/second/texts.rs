//! Random texts for a book: spelled by a random tree of it, so that many have readings, and near misses.

use crate::book::{Argument, Book, FIRST_RULE};
use crate::prng::Dice;

/// A text and the listing of the tree that spelled it (empty if none did).
pub struct Grown {
    pub text: Vec<u8>,
    pub listing: Vec<u16>,
}

/// What rules a tree is rather made of: those with more arguments than one, or those with exactly one sort.
#[derive(Clone, Copy, PartialEq, Eq)]
pub enum Shape {
    Any,
    Wide,
    Deep,
}

/// What tree is wanted. A careful one heeds the clashes; another lets them through.
#[derive(Clone, Copy)]
pub struct Wish {
    pub careful: bool,
    pub longest: usize,
    pub shape: Shape,
}

/// Which rules may stand where, and how high each rule's lowest tree is.
struct Choice<'a> {
    book: &'a Book,
    allowed: Vec<Vec<Vec<usize>>>,
    heights: Vec<Option<usize>>,
    wish: Wish,
}

impl<'a> Choice<'a> {
    fn new(book: &'a Book, wish: Wish) -> Choice<'a> {
        let of_sort = |rule: usize, at: usize| match book.rules[rule].arguments[at] {
            Argument::Sort(s) => (0..book.rules.len()).filter(|&q| book.rules[q].result == s).collect(),
            Argument::Class(_) => vec![],
        };
        let place = |rule: usize, at: usize| if wish.careful { book.allowed(rule, at) } else { of_sort(rule, at) };
        let allowed = (0..book.rules.len()).map(|r| (0..book.count(r)).map(|at| place(r, at)).collect()).collect();
        let mut choice = Choice { book, allowed, heights: vec![None; book.rules.len()], wish };
        choice.find_heights();
        choice
    }

    fn height(&self, rule: usize) -> Option<usize> {
        let mut most = 0;
        for (at, argument) in self.book.rules[rule].arguments.iter().enumerate() {
            let lowest = match argument {
                Argument::Class(k) => self.book.classes[*k].contains(&true).then_some(0),
                Argument::Sort(_) => self.allowed[rule][at].iter().filter_map(|&q| self.heights[q]).min(),
            };
            most = most.max(lowest?);
        }
        Some(most + 1)
    }

    fn find_heights(&mut self) {
        loop {
            let next: Vec<_> = (0..self.heights.len()).map(|r| self.heights[r].or_else(|| self.height(r))).collect();
            if next == self.heights {
                return;
            }
            self.heights = next;
        }
    }

    /// Is the rule one that a tree of the wished shape is rather made of?
    fn suits(&self, rule: usize) -> bool {
        let arguments = &self.book.rules[rule].arguments;
        match self.wish.shape {
            Shape::Any => false,
            Shape::Wide => arguments.len() > 1,
            Shape::Deep => arguments.iter().filter(|a| matches!(a, Argument::Sort(_))).count() == 1,
        }
    }

    /// A rule for a place: any that has trees, rather one that suits the shape; or one with the lowest tree once the depth
    /// is used up.
    fn rule(&self, dice: &mut Dice, from: &[usize], depth: usize) -> Option<usize> {
        let living: Vec<usize> = from.iter().copied().filter(|&q| self.heights[q].is_some()).collect();
        if living.is_empty() {
            return None;
        }
        if depth == 0 {
            return living.into_iter().min_by_key(|&q| self.heights[q]);
        }
        let suited: Vec<usize> = living.iter().copied().filter(|&q| self.suits(q)).collect();
        let percent = if self.wish.shape == Shape::Deep { 99 } else { 75 };
        if !suited.is_empty() && dice.chance(percent) {
            return Some(dice.pick(&suited));
        }
        Some(dice.pick(&living))
    }

    /// Adds a tree of this rule; false if it gets too long.
    fn add(&self, dice: &mut Dice, rule: usize, depth: usize, out: &mut Grown) -> bool {
        out.listing.push(FIRST_RULE + rule as u16);
        if out.text.len() > self.wish.longest || out.listing.len() > 4200 {
            return false;
        }
        for (at, argument) in self.book.rules[rule].arguments.iter().enumerate() {
            let depth = if 2 * out.text.len() > self.wish.longest { 0 } else { depth };
            let good = match argument {
                Argument::Class(k) => self.add_character(dice, *k, out),
                Argument::Sort(_) => match self.rule(dice, &self.allowed[rule][at], depth) {
                    Some(q) => self.add(dice, q, depth.saturating_sub(1), out),
                    None => false,
                },
            };
            if !good {
                return false;
            }
        }
        out.text.len() <= self.wish.longest
    }

    fn add_character(&self, dice: &mut Dice, class: usize, out: &mut Grown) -> bool {
        let members = members(&self.book.classes[class]);
        if members.is_empty() {
            return false;
        }
        let letter = dice.pick(&members);
        out.text.push(letter);
        out.listing.push(letter as u16);
        true
    }
}

/// The text of a random tree of the start sort, of a wide one the longest of some tries.
pub fn spelled(dice: &mut Dice, book: &Book, wish: Wish) -> Option<Grown> {
    let choice = Choice::new(book, wish);
    let starts: Vec<usize> = (0..book.rules.len()).filter(|&r| book.rules[r].result == book.start).collect();
    let mut best: Option<Grown> = None;
    let tries = if wish.shape == Shape::Wide { 12 } else { 3 };
    for _ in 0..tries {
        let depth = match wish.shape {
            Shape::Any => dice.below(7),
            Shape::Wide => dice.between(4, 90),
            Shape::Deep => dice.between(90, 4000),
        };
        let root = choice.rule(dice, &starts, 1)?;
        let mut out = Grown { text: vec![], listing: vec![] };
        let good = choice.add(dice, root, depth, &mut out);
        if good && best.as_ref().map_or(true, |b| out.text.len() > b.text.len() || wish.shape != Shape::Wide) {
            best = Some(out);
        }
    }
    best
}

fn members(class: &[bool; 256]) -> Vec<u8> {
    (0..=255).filter(|&c| class[c as usize]).collect()
}

/// The characters next to those of a class.
fn neighbours(class: &[bool; 256]) -> Vec<u8> {
    let has = |c: Option<u8>| c.is_some_and(|c| class[c as usize]);
    (0..=255u8).filter(|&c| !has(Some(c)) && (has(c.checked_sub(1)) || has(c.checked_add(1)))).collect()
}

/// Letters that the book's classes know: of each class the lowest three, the highest and any one; its neighbours, now and
/// then; and one letter that the book may not know.
fn letters(dice: &mut Dice, book: &Book) -> Vec<u8> {
    let mut out = vec![b'z'];
    for class in &book.classes {
        let members = members(class);
        out.extend(members.iter().take(3));
        if members.len() > 3 {
            out.extend([dice.pick(&members), members[members.len() - 1]]);
        }
        if dice.chance(20) {
            out.extend(neighbours(class));
        }
    }
    out
}

fn near_miss(dice: &mut Dice, text: &mut Vec<u8>, letters: &[u8]) {
    let at = dice.below(text.len() + 1);
    match dice.below(4) {
        0 => text.insert(at, dice.pick(letters)),
        1 if at < text.len() => drop(text.remove(at)),
        2 if at < text.len() => text[at] = dice.pick(letters),
        3 if text.len() > 1 => {
            let other = dice.below(text.len());
            let at = dice.below(text.len());
            text.swap(at, other);
        }
        _ => text.truncate(at),
    }
}

/// A text of at most about `longest` bytes.
pub fn some_text(dice: &mut Dice, book: &Book, longest: usize) -> Grown {
    let letters = letters(dice, book);
    let style = dice.below(10);
    let random = |dice: &mut Dice| {
        let length = dice.below(longest + 1);
        Grown { text: (0..length).map(|_| dice.pick(&letters)).collect(), listing: vec![] }
    };
    if style == 0 {
        return random(dice);
    }
    let shape = if longest > 12 { Shape::Wide } else { Shape::Any };
    let wish = Wish { careful: dice.chance(70), longest, shape };
    let Some(mut grown) = spelled(dice, book, wish) else {
        return random(dice);
    };
    if style <= 2 {
        near_miss(dice, &mut grown.text, &letters);
    }
    grown
}
