//! Numerals, by request [6] of 02: each one that the library writes, read in base ten, gives its number, and it begins with 0
//! only for 0.
//!
//! They are read digit by digit from the lent buffer. Which numbers are meant comes from this program's own sets and trees;
//! no text that it writes has a part in it.

use crate::book::{read_book, Book, FIRST_RULE};
use crate::compare::Mismatch;
use crate::flat::due;
use crate::library::Lent;
use crate::others::Outcome;
use crate::pages::{Line, LINE_LENGTH};
use crate::tally::Tally;

/// The columns of a page's line with its four numbers, and the space behind them. The text behind that may have digits too.
const COLUMNS: usize = 18;

/// What the numerals stand in.
#[derive(Clone, Copy)]
enum Writing {
    Flat,
    Page,
}

/// The numbers that the numerals must give, in order.
pub struct Meant {
    writing: Writing,
    pub numbers: Vec<u64>,
}

/// The ends of a set's normal ranges, each once: the numbers in it with a neighbour that is not in it.
fn ends(set: &[bool]) -> Vec<u64> {
    let has = |n: usize| set.get(n) == Some(&true);
    let is_end = |&n: &usize| has(n) && (n == 0 || !has(n - 1) || !has(n + 1));
    (0..set.len()).filter(is_end).map(|n| n as u64).collect()
}

/// The ends of each argument's ranges and the result, rule by rule.
fn of_book(book: &Book) -> Vec<u64> {
    let mut numbers = vec![];
    for rule in 0..book.rules.len() {
        for at in 0..book.count(rule) {
            numbers.extend(ends(&due(book, rule, at)));
        }
        numbers.push(FIRST_RULE as u64 + rule as u64);
    }
    numbers
}

/// The longest runs of digits, in order.
fn runs(bytes: &[u8]) -> impl Iterator<Item = &[u8]> {
    bytes.split(|byte| !byte.is_ascii_digit()).filter(|run| !run.is_empty())
}

/// The number that digits give in base ten.
fn in_base_ten(digits: &[u8]) -> u64 {
    digits.iter().fold(0, |number: u64, digit| number.saturating_mul(10).saturating_add((digit - b'0') as u64))
}

/// Does a numeral give this number, and begin with 0 only if it is the single digit 0?
fn gives(numeral: &[u8], number: u64) -> bool {
    in_base_ten(numeral) == number && (numeral[0] != b'0' || numeral.len() == 1)
}

impl Meant {
    /// In the flat text of the book in these bytes; nothing if it is refused, as it then has no flat text.
    pub fn in_flat(bytes: &[u8]) -> Meant {
        Meant { writing: Writing::Flat, numbers: read_book(bytes).as_ref().map_or(vec![], of_book) }
    }

    /// In a page: depth, number, start and end of each line.
    pub fn in_page(lines: &[Line]) -> Meant {
        let figures = |line: &Line| [line.depth as u64, line.number as u64, line.start as u64, line.end() as u64];
        Meant { writing: Writing::Page, numbers: lines.iter().flat_map(figures).collect() }
    }

    /// The numerals in what the library has written.
    fn found<'a>(&self, written: &'a [u8]) -> Vec<&'a [u8]> {
        match self.writing {
            Writing::Flat => runs(written).collect(),
            Writing::Page => written.chunks(LINE_LENGTH).flat_map(|line| runs(&line[..COLUMNS.min(line.len())])).collect(),
        }
    }

    /// Each numeral in the so many bytes that the library has written must give its number, with none too few or too many.
    pub fn read(&self, call: &str, length: u64, lent: &Lent, tally: &mut Tally) -> Outcome {
        let found = self.found(&lent.contents()[..length as usize]);
        let is_good = |k: usize| match (found.get(k), self.numbers.get(k)) {
            (Some(numeral), Some(&number)) => gives(numeral, number),
            _ => false,
        };
        let most = found.len().max(self.numbers.len());
        if let Some(at) = (0..most).find(|&k| !is_good(k)) {
            let numeral = found.get(at).map(|numeral| String::from_utf8_lossy(numeral));
            let expected = format!("numeral {at} gives {:?} (of {} numbers)", self.numbers.get(at), self.numbers.len());
            let found = format!("numeral {at} is {numeral:?} (of {} numerals)", found.len());
            return Err(Mismatch { call: format!("{call}, numerals"), expected, found, lent: vec![] });
        }
        self.note(&found, tally);
        Ok(())
    }

    /// How many numerals were read, and how many of each length; of random cases by themselves.
    fn note(&self, found: &[&[u8]], tally: &mut Tally) {
        let call = if tally.is_random { "numerals" } else { "fixed numerals" };
        let name = match self.writing {
            Writing::Flat => "flat",
            Writing::Page => "page",
        };
        let of_length = |length: usize| found.iter().filter(|numeral| numeral.len() == length).count();
        let met = [
            (found.len(), "all"),
            (of_length(1), "one digit"),
            (of_length(2), "two digits"),
            (of_length(3), "three digits"),
            (of_length(4), "four digits"),
            (found.iter().filter(|numeral| **numeral == b"0").count(), "0"),
        ];
        for (times, kind) in met.into_iter().filter(|m| m.0 > 0) {
            tally.add_times(call, format!("{name}, {kind}"), times as u64);
        }
    }
}
