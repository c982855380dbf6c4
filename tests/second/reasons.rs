//! What request [8] of 02 says of a clash: which of 01's three lines is behind it, the lowest that holds, and by which
//! declarations. Any of the shortest chains will do, so a chain is judged.
//!
//! How short a chain can be is read from a table of all rules by all rules, which is mended for each rule in turn by the ways
//! through it. Declarations are not searched along.

use crate::book::{Argument, Book, Refusal};

/// The kind that makes chains, and the kinds that lines 2 and 3 name.
pub const HIGHER: u8 = 1;
pub const AT_FIRST: [u8; 4] = [3, 4, 6, 7];
pub const AT_LAST: [u8; 4] = [2, 4, 5, 7];

/// No chain leads there. The longest has one declaration less than there are rules.
const NEVER: u8 = u8::MAX;

/// May rule q stand as argument i of rule p?
pub type Question = (u64, u64, u64);

/// Why not.
#[derive(Clone, Copy, PartialEq, Eq, Debug)]
pub enum Reason {
    /// Line 1, and how many declarations the shortest chains have.
    Chain(usize),
    /// Line 2, and the lowest declaration that covers the pair.
    First(usize),
    /// Line 3, and the lowest declaration that covers the pair.
    Last(usize),
}

/// A reason, none, or a refusal.
pub type Answer = Result<Option<Reason>, Refusal>;

impl Reason {
    /// 4 times the length or the declaration, plus the line.
    pub fn value(&self) -> u64 {
        match *self {
            Reason::Chain(length) => 4 * length as u64 + 1,
            Reason::First(declaration) => 4 * declaration as u64 + 2,
            Reason::Last(declaration) => 4 * declaration as u64 + 3,
        }
    }
}

/// A book, and how few declarations of kind 1 lead from each of its rules down to each other.
pub struct Ways<'a> {
    pub book: &'a Book,
    fewest: Vec<Vec<u8>>,
}

impl<'a> Ways<'a> {
    pub fn new(book: &'a Book) -> Ways<'a> {
        let rules = book.rules.len();
        let mut fewest = vec![vec![NEVER; rules]; rules];
        for d in book.declarations.iter().filter(|d| d.kind == HIGHER) {
            fewest[d.first][d.second] = 1;
        }
        for rule in 0..rules {
            fewest[rule][rule] = 0;
        }
        for through in 0..rules {
            let onward = fewest[through].clone();
            for row in &mut fewest {
                let there = row[through];
                row.iter_mut().zip(&onward).for_each(|(old, &rest)| *old = (*old).min(there.saturating_add(rest)));
            }
        }
        Ways { book, fewest }
    }

    /// How few declarations lead from one rule down to another: 0 to itself, none at all if it isn't lower.
    pub fn fewest(&self, from: usize, to: usize) -> Option<usize> {
        Some(self.fewest[from][to]).filter(|&count| count != NEVER).map(usize::from)
    }

    /// The lowest declaration of these kinds that covers two rules.
    fn lowest(&self, kinds: &[u8], a: usize, b: usize) -> Option<usize> {
        self.book.declarations.iter().position(|d| kinds.contains(&d.kind) && d.covers(a, b))
    }

    /// Which of the three lines would bar the pair, were the argument of q's sort. The rules and the argument must be there.
    pub fn of_pair(&self, p: usize, i: usize, q: usize) -> Vec<Reason> {
        let count = self.book.count(p);
        let chain = self.fewest(p, q).filter(|&length| length > 0).map(Reason::Chain);
        let first = self.lowest(&AT_FIRST, p, q).filter(|_| count > 1 && i == 0).map(Reason::First);
        let last = self.lowest(&AT_LAST, p, q).filter(|_| count > 1 && i == count - 1).map(Reason::Last);
        [chain, first, last].into_iter().flatten().collect()
    }

    /// Is the argument a sort, and rule q of it?
    pub fn is_sort(&self, p: usize, i: usize, q: usize) -> bool {
        self.book.rules[p].arguments[i] == Argument::Sort(self.book.rules[q].result)
    }

    /// The lowest line that holds. What isn't there is refused as in the plain question.
    pub fn answer(&self, (p, i, q): Question) -> Answer {
        self.book.conflict(p, i, q)?;
        let (p, i, q) = (p as usize, i as usize, q as usize);
        Ok(self.of_pair(p, i, q).first().copied().filter(|_| self.is_sort(p, i, q)))
    }

    /// Do these declarations lead from p towards q by a shortest chain, which has `length`? Each must be of kind 1 and start
    /// where the one before it ends, and from where they end no fewer may be left than are missing.
    pub fn judge(&self, (p, q): (usize, usize), length: usize, begun: &[u8]) -> Result<(), String> {
        let mut at = p;
        for (k, &index) in begun.iter().enumerate() {
            let found = self.book.declarations.get(index as usize);
            match found.filter(|d| d.kind == HIGHER && d.first == at) {
                Some(d) => at = d.second,
                None => return Err(format!("byte {k} is {index}, {found:?}, and no declaration of kind 1 that starts at {at}")),
            }
        }
        match self.fewest(at, q) {
            Some(left) if begun.len() + left == length => Ok(()),
            left => Err(format!("{begun:?} ends at {at}, from where to {q} it takes {left:?}, which doesn't make {length}")),
        }
    }
}
