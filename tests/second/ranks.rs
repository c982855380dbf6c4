//! Ranks and clashes, in two forms that are checked against each other: the clash question as 01's three lines put it,
//! with each group spelled out, and the set of tree patterns that Definition 2.6 of document 000 generates from the
//! declarations, where a group is asked whether both rules are in it.

use crate::book::{Argument, Book, Declaration, Refusal};
use std::collections::HashSet;

type Table = Vec<Vec<bool>>;

pub struct Ranks {
    /// Closed: higher[a][b] if a chain of declarations leads from a down to b.
    higher: Table,
    left: Table,
    right: Table,
    apart: Table,
}

/// All rules below `from`, by depth-first search along the declared pairs. `from` itself is marked only if a chain comes
/// back to it, so the search starts from its neighbours.
fn below(from: usize, next: &[Vec<usize>]) -> Vec<bool> {
    let mut reached = vec![false; next.len()];
    let mut open = next[from].clone();
    while let Some(rule) = open.pop() {
        if !reached[rule] {
            reached[rule] = true;
            open.extend(&next[rule]);
        }
    }
    reached
}

/// Every two rules from `first` to `second`, ends included, a rule with itself too.
fn pairs(first: usize, second: usize) -> impl Iterator<Item = (usize, usize)> {
    (first..=second).flat_map(move |a| (a..=second).map(move |b| (a, b)))
}

/// The declarations with each group in its pairs: kind 5 as so many of kind 2, 6 of 3, and 7 of 4. The list may have any
/// length.
pub fn spelled_out(declarations: &[Declaration]) -> Vec<Declaration> {
    let mut list = vec![];
    for d in declarations {
        match d.is_group() {
            true => list.extend(pairs(d.first, d.second).map(|(first, second)| Declaration { kind: d.kind - 3, first, second })),
            false => list.push(*d),
        }
    }
    list
}

fn both_ways(rules: usize, kind: u8, declarations: &[Declaration]) -> Table {
    let mut table = vec![vec![false; rules]; rules];
    for d in declarations.iter().filter(|d| d.kind == kind) {
        table[d.first][d.second] = true;
        table[d.second][d.first] = true;
    }
    table
}

impl Declaration {
    /// Is it of these two rules, in either order, or of a group that both are in?
    pub fn covers(&self, a: usize, b: usize) -> bool {
        match self.is_group() {
            true => self.first <= a.min(b) && a.max(b) <= self.second,
            false => [(a, b), (b, a)].contains(&(self.first, self.second)),
        }
    }
}

impl Ranks {
    pub fn new(rules: usize, with_groups: &[Declaration]) -> Ranks {
        let declarations = &spelled_out(with_groups);
        let mut next = vec![vec![]; rules];
        for d in declarations.iter().filter(|d| d.kind == 1) {
            next[d.first].push(d.second);
        }
        Ranks {
            higher: (0..rules).map(|r| below(r, &next)).collect(),
            left: both_ways(rules, 2, declarations),
            right: both_ways(rules, 3, declarations),
            apart: both_ways(rules, 4, declarations),
        }
    }

    /// Does a chain of declarations lead from `a` down to `b`?
    pub fn is_higher(&self, a: usize, b: usize) -> bool {
        self.higher[a][b]
    }

    /// The lowest rule that is higher than itself.
    pub fn circle(&self) -> Option<usize> {
        (0..self.higher.len()).find(|&r| self.higher[r][r])
    }
}

impl Book {
    /// 01: "Rule q clashes as argument i of rule p only if ...". The rules and the argument must be there.
    pub fn clashes(&self, p: usize, i: usize, q: usize) -> bool {
        if self.rules[p].arguments[i] != Argument::Sort(self.rules[q].result) {
            return false;
        }
        let two_or_more = self.count(p) >= 2;
        let first = two_or_more && i == 0;
        let last = two_or_more && i + 1 == self.count(p);
        let ranks = &self.ranks;
        ranks.higher[p][q]
            || (first && (ranks.right[p][q] || ranks.apart[p][q]))
            || (last && (ranks.left[p][q] || ranks.apart[p][q]))
    }

    /// The clash question with its refusal: numbers that name no rule or no argument are 7, place 0.
    pub fn conflict(&self, p: u64, i: u64, q: u64) -> Result<bool, Refusal> {
        let rules = self.rules.len() as u64;
        if p >= rules || q >= rules || i >= self.count(p as usize) as u64 {
            return Err(Refusal { number: 7, place: 0 });
        }
        Ok(self.clashes(p as usize, i as usize, q as usize))
    }

    /// Is this kind (2, 3 or 4) declared of two rules, in either order or by a group that both are in?
    fn declared(&self, kind: u8, a: usize, b: usize) -> bool {
        self.declarations.iter().any(|d| [kind, kind + 3].contains(&d.kind) && d.covers(a, b))
    }

    /// The smallest set closed under Definition 2.6's three rules. A pattern [alpha [beta -> B] gamma -> A] is held as
    /// (outer rule, length of alpha, inner rule).
    pub fn patterns(&self) -> HashSet<(usize, usize, usize)> {
        let mut set = HashSet::new();
        for outer in 0..self.rules.len() {
            for inner in 0..self.rules.len() {
                self.patterns_of_pair(outer, inner, &mut set);
            }
        }
        set
    }

    fn patterns_of_pair(&self, outer: usize, inner: usize, set: &mut HashSet<(usize, usize, usize)>) {
        let b = Argument::Sort(self.rules[inner].result);
        let [left, right, apart] = [2, 3, 4].map(|kind| self.declared(kind, inner, outer));
        // Every way to write the outer rule as alpha B gamma -> A.
        for (alpha, argument) in self.rules[outer].arguments.iter().enumerate() {
            if *argument != b {
                continue;
            }
            let gamma = self.count(outer) - alpha - 1;
            if self.ranks.higher[outer][inner] {
                set.insert((outer, alpha, inner));
            }
            if alpha == 0 && gamma != 0 && (right || apart) {
                set.insert((outer, alpha, inner));
            }
            if gamma == 0 && alpha != 0 && (left || apart) {
                set.insert((outer, alpha, inner));
            }
        }
    }
}
