//! What request [5] of 02 promises of a text with several readings, tried on all readings that trees.rs keeps. Two listings
//! are gone through side by side: where they no longer agree both must have a rule, and these two rules must give the same
//! sort and be unequal.

use crate::book::{Book, FIRST_RULE};
use crate::compare::Mismatch;
use crate::equal::{meanings, one_character, Meaning};
use crate::others::Outcome;
use crate::tally::Tally;
use crate::trees::Forest;
use std::collections::BTreeMap;

/// Readings of one text are taken until their listings have so many numbers together, to save time.
const MOST_NUMBERS: usize = 50_000;

/// Two listings part: the index, and the rules whose numbers stand there.
#[derive(PartialEq, Eq, PartialOrd, Ord)]
pub struct Fork {
    pub at: usize,
    pub rules: [usize; 2],
}

/// Where two listings first part; none if one is the other or its beginning, or if a number there is not of a rule.
pub fn fork(first: &[u16], second: &[u16]) -> Option<Fork> {
    let at = first.iter().zip(second).position(|(a, b)| a != b)?;
    let rule = |number: u16| number.checked_sub(FIRST_RULE).map(usize::from);
    Some(Fork { at, rules: [rule(first[at])?, rule(second[at])?] })
}

impl Fork {
    /// The two rules, written out.
    fn meanings<'a>(&self, all: &'a [Meaning]) -> [&'a Meaning; 2] {
        self.rules.map(|rule| &all[rule])
    }

    /// Are these two rules of one result that are not equal?
    pub fn is_true(&self, all: &[Meaning]) -> bool {
        let [p, q] = self.meanings(all);
        p.result == q.result && p != q
    }

    /// Are they only one character apart?
    fn is_close(&self, all: &[Meaning]) -> bool {
        let [p, q] = self.meanings(all);
        one_character(p, q).is_some()
    }
}

/// The listings of the readings that are kept, as many as there is time for.
fn listings(forest: &Forest) -> Vec<Vec<u16>> {
    let (mut found, mut numbers) = (vec![], 0);
    for tree in forest.readings() {
        if numbers > MOST_NUMBERS {
            break;
        }
        let listing = forest.listing(tree);
        numbers += listing.len();
        found.push(listing);
    }
    found
}

/// How many pairs there were of each kind.
fn note(forks: &BTreeMap<Fork, u64>, all: &[Meaning], tally: &mut Tally) {
    for (fork, &times) in forks {
        tally.add_times("readings part", "pairs looked at", times);
        tally.add_times("readings part", if fork.at == 0 { "at the root" } else { "below the root" }, times);
        if fork.is_close(all) {
            tally.add_times("readings part", "one character apart", times);
        }
    }
}

/// Every two of the readings.
pub fn check(bytes: &[u8], book: &Book, forest: &Forest, tally: &mut Tally) -> Outcome {
    let listings = listings(forest);
    let all = if listings.len() > 1 { meanings(bytes, &book.rules) } else { vec![] };
    let mut forks: BTreeMap<Fork, u64> = BTreeMap::new();
    for (k, first) in listings.iter().enumerate() {
        for second in &listings[k + 1..] {
            let Some(found) = fork(first, second).filter(|found| forks.contains_key(found) || found.is_true(&all)) else {
                let call = "where two readings part (this program against itself)".into();
                let expected = "two rules of one result that are not equal".into();
                return Err(Mismatch { call, expected, found: format!("{first:?} and {second:?}"), lent: vec![] });
            };
            *forks.entry(found).or_insert(0) += 1;
        }
    }
    note(&forks, &all, tally);
    Ok(())
}
