//! The multi-set order of 002 by single steps, for small bags: a rule is taken out once, and in its place come rules that are
//! declared below it, any number of them or none. A bag is below another if steps lead down to it, one or more. Declarations are
//! taken as they stand: nothing is closed here, nothing counted, and nothing in common is left out. So it is a search.
//!
//! No bag on the way need have more rules than both ends. What is to leave nothing behind is taken out at the beginning, and
//! then every rule on the way leaves something that is there in the end.

use crate::book::Book;
use crate::lower::{Bag, Order};
use crate::reasons::HIGHER;
use std::collections::HashSet;

/// Larger bags are not searched, nor more bags than this, to save time.
const MOST_RULES: usize = 6;
const MOST_BAGS: usize = 200;

struct Search {
    /// For each rule those that are declared below it.
    below: Vec<Vec<usize>>,
    /// The most rules in a bag.
    room: usize,
    seen: HashSet<Bag>,
    open: Vec<Bag>,
}

impl Search {
    /// This bag is reached, and so is each with some of these rules more, from the `from`th on.
    fn reach(&mut self, bag: &[usize], rules: &[usize], from: usize) {
        let mut sorted = bag.to_vec();
        sorted.sort_unstable();
        if self.seen.insert(sorted.clone()) {
            self.open.push(sorted);
        }
        if bag.len() < self.room {
            for (k, &rule) in rules.iter().enumerate().skip(from) {
                self.reach(&[bag, &[rule]].concat(), rules, k);
            }
        }
    }

    /// Each single step down from this bag.
    fn step(&mut self, bag: &[usize]) {
        for at in 0..bag.len() {
            let rules = self.below[bag[at]].clone();
            self.reach(&[&bag[..at], &bag[at + 1..]].concat(), &rules, 0);
        }
    }

    /// Do steps lead from one bag down to another? None if that takes too long to say.
    fn leads(mut self, from: &[usize], to: &[usize]) -> Option<bool> {
        self.step(from);
        while !self.seen.contains(to) {
            let Some(bag) = self.open.pop() else {
                return Some(false);
            };
            if self.seen.len() > MOST_BAGS {
                return None;
            }
            self.step(&bag);
        }
        Some(true)
    }
}

/// Do steps lead down from one bag to another?
fn leads(book: &Book, from: &[usize], to: &[usize]) -> Option<bool> {
    let mut below = vec![vec![]; book.rules.len()];
    for d in book.declarations.iter().filter(|d| d.kind == HIGHER && d.first != d.second) {
        below[d.first].push(d.second);
    }
    let room = from.len().max(to.len());
    Search { below, room, seen: HashSet::new(), open: vec![] }.leads(from, to)
}

/// The order of two small bags; none if they are too large to search.
pub fn by_steps(book: &Book, first: &[usize], second: &[usize]) -> Option<Order> {
    if first.len().max(second.len()) > MOST_RULES {
        return None;
    }
    if first == second {
        return Some(Order::EqualCounts);
    }
    Some(Order::of_sides(leads(book, second, first)?, leads(book, first, second)?))
}
