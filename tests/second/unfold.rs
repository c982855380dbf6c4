//! The listing of the only reading, from the counts. It may have more numbers than any 64-bit number, so it is unfolded
//! only up to a bound.

use crate::book::FIRST_RULE;
use crate::counter::{Counter, Item};
use std::collections::HashMap;

#[derive(Clone, Copy)]
enum Due {
    Character(u8),
    Tree(Item),
}

pub struct Listing {
    /// The first numbers, all of them if `whole`.
    pub numbers: Vec<u16>,
    pub whole: bool,
}

/// The parts of a tree whose rule and span have exactly one list, found from the last argument backwards.
fn parts(counter: &Counter, tree: Item) -> Vec<Due> {
    let mut found = vec![];
    let mut item = tree;
    while item.dots > 0 {
        let ways = counter.ways(item);
        assert!(ways.len() == 1, "an only list is made in one way");
        let (before, trees) = &ways[0];
        assert!(trees.len() <= 1, "its last argument is one tree");
        found.push(match trees.first() {
            Some(&t) => Due::Tree(t),
            None => Due::Character(counter.text[before.end]),
        });
        item = *before;
    }
    found.reverse();
    found
}

/// The listing of the only reading, cut after `most` numbers.
pub fn unfold(counter: &Counter, most: usize) -> Listing {
    let root = counter.starts().into_iter().find(|&t| counter.count(t) == 1).expect("one reading");
    let mut known: HashMap<usize, Vec<Due>> = HashMap::new();
    let mut due = vec![Due::Tree(root)];
    let mut numbers = vec![];
    while let Some(next) = due.pop() {
        if numbers.len() == most {
            return Listing { numbers, whole: false };
        }
        match next {
            Due::Character(c) => numbers.push(c as u16),
            Due::Tree(item) => {
                numbers.push(FIRST_RULE + item.rule as u16);
                let place = counter.layout.place(item);
                let parts = known.entry(place).or_insert_with(|| parts(counter, item));
                due.extend(parts.iter().rev());
            }
        }
    }
    Listing { numbers, whole: true }
}
