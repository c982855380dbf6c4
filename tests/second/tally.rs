//! How often each kind of answer was met, so that a reader sees that none was left out.

use crate::cases::Case;
use crate::kinds::wanted;
use crate::reading::Study;
use std::collections::BTreeMap;

pub struct Tally {
    met: BTreeMap<(&'static str, String), u64>,
    /// Are the fixed cases done? Numerals of random cases are counted by themselves.
    pub is_random: bool,
}

impl Tally {
    pub fn new() -> Tally {
        Tally { met: BTreeMap::new(), is_random: false }
    }

    pub fn add(&mut self, call: &'static str, kind: impl Into<String>) {
        self.add_times(call, kind, 1);
    }

    /// Once or more.
    pub fn add_times(&mut self, call: &'static str, kind: impl Into<String>, times: u64) {
        *self.met.entry((call, kind.into())).or_insert(0) += times;
    }

    /// Those of these kinds that are met.
    pub fn add_met(&mut self, call: &'static str, met: &[(bool, &'static str)]) {
        for (_, name) in met.iter().filter(|m| m.0) {
            self.add(call, *name);
        }
    }

    /// How long the text is, and which limits an accepted book just keeps.
    pub fn note_sizes(&mut self, case: &Case, study: &Study) {
        if study.book.is_err() {
            return;
        }
        let lengths = match case.text.len() {
            0 => "0 bytes",
            1..=12 => "1 to 12 bytes",
            13..=40 => "13 to 40 bytes",
            41..=199 => "41 to 199 bytes",
            200 => "200 bytes",
            _ => "over 200 bytes",
        };
        self.add("text", lengths);
        let (rules, classes) = (case.book[1] as usize, case.book[2] as usize);
        let arguments = &case.book[6..6 + rules];
        let ranges = &case.book[6 + rules..6 + rules + classes];
        let limits = [
            (case.book[0] == 32, "32 sorts"),
            (rules == 64, "64 rules"),
            (classes == 64, "64 classes"),
            (case.book[3] == 255, "255 declarations"),
            (arguments.contains(&8), "8 arguments"),
            (ranges.contains(&16), "16 ranges"),
        ];
        for (met, name) in limits {
            if met {
                self.add("accepted book", name);
            }
        }
    }

    /// The kinds that were never met.
    pub fn missing(&self) -> Vec<(&'static str, String)> {
        wanted().into_iter().filter(|key| !self.met.contains_key(key)).collect()
    }

    pub fn print(&self) {
        println!("{:<16} {:<28} {:>10}", "call", "answer", "times");
        for ((call, kind), times) in &self.met {
            println!("{call:<16} {kind:<28} {times:>10}");
        }
        for (call, kind) in self.missing() {
            println!("{call:<16} {kind:<28} {:>10}", "never");
        }
    }
}
