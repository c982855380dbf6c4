//! A flat text taken apart, by request [7] of 02: its lines, the lines that are allowed at the root, and refusals 27 and 28.
//!
//! Taking apart asks little of a text. Whether it is in the written form is seen by writing its lines again, which must give
//! the same bytes; flat_form.rs judges the same in another way, and has the place if it is not.

use crate::book::Refusal;
use crate::compare::Mismatch;
use crate::flat::{line_text, lines_in, Flat, Rooted, Set, NUMBERS, RULES};
use crate::flat_form;
use crate::others::Outcome;

pub const MOST_LINES: usize = 64;
pub const MOST_ARGUMENTS: usize = 8;
/// The refusals of a flat text: not in the written form, and a line named that is not there.
pub const NOT_WRITTEN: u64 = 27;
pub const ABSENT: u64 = 28;
/// A flat text up to this long is shown as text too.
const SHOWN: usize = 400;

fn number(digits: &str) -> Option<usize> {
    digits.parse().ok().filter(|&n| n < NUMBERS)
}

/// The numbers of a class, in ranges or single.
fn class(text: &str) -> Option<Set> {
    let inner = text.strip_prefix('[')?.strip_suffix(']')?;
    let mut set = vec![false; NUMBERS];
    let mut low = None;
    for piece in inner.split('\\').skip(1) {
        match piece.strip_suffix('-') {
            Some(first) => low = Some(number(first)?),
            None => {
                let high = number(piece)?;
                (low.take().unwrap_or(high)..=high).for_each(|n| set[n] = true);
            }
        }
    }
    Some(set)
}

/// The classes before the arrow.
fn arguments(line: &str) -> Option<Vec<Set>> {
    line.split_once("->")?.0.split_terminator(' ').map(class).collect()
}

/// Only characters, only numbers that a line could have, or none.
fn is_of_one_kind(set: &Set) -> bool {
    let (characters, others) = set.split_at(256);
    let (between, lines) = others.split_at(RULES - 256);
    !between.contains(&true) && !(characters.contains(&true) && lines.contains(&true))
}

/// The arguments of line `k`, exactly if a line of the form is written so.
pub fn written_line(k: usize, line: &[u8]) -> Option<Vec<Set>> {
    let found = arguments(std::str::from_utf8(line).ok()?)?;
    let is_good = k < MOST_LINES && found.len() <= MOST_ARGUMENTS && found.iter().all(is_of_one_kind);
    (is_good && line_text(k, &found).as_bytes() == line).then_some(found)
}

/// The lines of a text, exactly if it is in the form.
pub fn written(text: &[u8]) -> Option<Flat> {
    let lines = text.split_inclusive(|&byte| byte == b'\n').enumerate();
    let lines: Vec<Vec<Set>> = lines.map(|(k, line)| written_line(k, line)).collect::<Option<_>>()?;
    (!lines.is_empty()).then_some(Flat { lines })
}

/// A flat text, judged in both ways.
pub struct FlatText {
    pub bytes: Vec<u8>,
    by_words: Result<(), usize>,
    by_writing: Option<Flat>,
}

/// The first line that a class names and that is not there.
fn first_absent(flat: &Flat) -> Option<usize> {
    let mut named = flat.lines.iter().flatten().flat_map(|set| lines_in(set));
    named.find(|&line| line >= flat.lines.len())
}

fn absent(line: usize) -> Refusal {
    Refusal { number: ABSENT, place: (RULES + line) as u64 }
}

/// The lines that lent bytes allow at the root: entry r is yes if byte r is there and is not 0.
pub fn allowed(roots: &[u8]) -> Vec<usize> {
    (0..MOST_LINES).filter(|&r| roots.get(r).is_some_and(|&byte| byte != 0)).collect()
}

impl FlatText {
    pub fn new(bytes: &[u8]) -> FlatText {
        FlatText { bytes: bytes.to_vec(), by_words: flat_form::judge(bytes), by_writing: written(bytes) }
    }

    /// This program against itself: both ways say the same.
    pub fn agrees(&self) -> Outcome {
        if self.by_words.is_ok() == self.by_writing.is_some() {
            return Ok(());
        }
        let (expected, found) = (format!("by words: {:?}", self.by_words), format!("by writing again: {:?}", self.by_writing));
        let call = "the form (this program against itself)".into();
        Err(self.tell(Mismatch { call, expected, found, lent: vec![] }))
    }

    /// A mismatch with the text, as bytes and so that it can be read.
    pub fn tell(&self, mut wrong: Mismatch) -> Mismatch {
        if self.bytes.len() <= SHOWN {
            wrong.call = format!("{} of {:?}", wrong.call, String::from_utf8_lossy(&self.bytes));
        }
        wrong.lent.push(("flat text", self.bytes.clone()));
        wrong
    }

    /// The lines, if it is in the form, whether or not all that it names are there.
    pub fn written(&self) -> Result<&Flat, Refusal> {
        match (self.by_words, &self.by_writing) {
            (Ok(()), Some(flat)) => Ok(flat),
            (place, _) => Err(Refusal { number: NOT_WRITTEN, place: place.err().unwrap_or(0) as u64 }),
        }
    }

    /// The lines, or the first refusal.
    pub fn lines(&self) -> Result<&Flat, Refusal> {
        let flat = self.written()?;
        first_absent(flat).map_or(Ok(flat), |line| Err(absent(line)))
    }

    /// The lines with those allowed at the root, or the first refusal.
    pub fn rooted(&self, roots: &[u8]) -> Result<Rooted, Refusal> {
        let flat = self.lines()?;
        let roots = allowed(roots);
        match roots.iter().find(|&&line| line >= flat.lines.len()) {
            Some(&line) => Err(absent(line)),
            None => Ok(Rooted { flat: flat.clone(), roots }),
        }
    }
}
