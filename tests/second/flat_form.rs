//! The written form of a flat text, by 01 and request [7] of 02: is a text in it, and if not, how long is its longest
//! beginning with which some text of the form begins?
//!
//! A text of the form is a row of words. Of each spot between two words it is said which words may come next, and which spot
//! is behind each. A numeral is not taken digit by digit: every number from 0 to 321 that may stand there is written out and
//! is a word. All words that fit what was read so far are kept, with what is left of them; when none is kept, no text of the
//! form goes on so.

use crate::flat::{NUMBERS, RULES};
use crate::flat_lines::{MOST_ARGUMENTS, MOST_LINES};
use std::sync::OnceLock;

/// What is due at a spot.
#[derive(Clone, Copy)]
enum Due {
    /// An argument, or the arrow; with no argument before it this is the start of a line.
    Argument,
    /// A range behind the number `last`, or the end of the class.
    Range { last: Option<u16> },
    /// The first number of that range, or its only one.
    First { last: Option<u16> },
    /// The rest of the range that starts with this number, or all that may come behind it alone.
    Rest { first: u16 },
    /// The last number of that range.
    Last { first: u16 },
}

/// A spot between two words, behind so many whole lines, and so many whole arguments of the next.
#[derive(Clone, Copy)]
struct Spot {
    lines: u8,
    arguments: u8,
    due: Due,
}

/// What is left of a word that may be the one that is being read, and the spot behind it.
struct Guess {
    left: &'static [u8],
    behind: Spot,
}

/// Numbers that may be in one class.
#[derive(Clone, Copy, PartialEq, Eq)]
enum Kind {
    Character,
    Line,
}

/// The numbers that a line could have.
const FIRST_LINE: u16 = RULES as u16;
const LAST_LINE: u16 = NUMBERS as u16 - 1;

fn kind(number: u16) -> Option<Kind> {
    match number {
        0..=255 => Some(Kind::Character),
        FIRST_LINE..=LAST_LINE => Some(Kind::Line),
        _ => None,
    }
}

/// May two numbers be in one class, the second above the first?
fn rises(first: u16, second: u16) -> bool {
    kind(first).is_some() && kind(first) == kind(second) && first < second
}

/// May a range start with this number, behind one that ends with `last`? They must not touch.
fn follows(last: Option<u16>, number: u16) -> bool {
    match last {
        None => kind(number).is_some(),
        Some(last) => rises(last, number) && number != last + 1,
    }
}

/// Each number written out.
fn numerals() -> &'static [String] {
    static WORDS: OnceLock<Vec<String>> = OnceLock::new();
    WORDS.get_or_init(|| (0..NUMBERS).map(|n| n.to_string()).collect())
}

/// The arrow, the result and the feed of each line.
fn arrows() -> &'static [String] {
    static WORDS: OnceLock<Vec<String>> = OnceLock::new();
    WORDS.get_or_init(|| (0..MOST_LINES).map(|line| format!("-> [\\{}]\n", RULES + line)).collect())
}

impl Spot {
    fn with(self, due: Due) -> Spot {
        Spot { due, ..self }
    }

    /// Each number that may stand here.
    fn numbers(self) -> impl Iterator<Item = u16> {
        (0..=LAST_LINE).filter(move |&n| match self.due {
            Due::First { last } => follows(last, n),
            Due::Last { first } => rises(first, n),
            _ => false,
        })
    }

    /// Can a text of the form be completed from here? Only for want of a number it can't: a class may end, and a line.
    fn goes_on(self) -> bool {
        match self.due {
            Due::First { .. } | Due::Last { .. } => self.numbers().next().is_some(),
            _ => true,
        }
    }

    fn is_end(self) -> bool {
        matches!(self.due, Due::Argument) && self.arguments == 0 && self.lines > 0
    }
}

/// All words that fit what was read so far.
#[derive(Default)]
struct Guesses {
    kept: Vec<Guess>,
    /// Some word is just finished behind which the text may end.
    may_end: bool,
}

impl Guesses {
    fn add(&mut self, word: &'static str, behind: Spot) {
        if behind.goes_on() {
            self.kept.push(Guess { left: word.as_bytes(), behind });
        }
    }

    /// An argument begins, if there may be one more, or the line ends, if it may be there at all.
    fn add_argument(&mut self, spot: Spot) {
        if spot.lines as usize == MOST_LINES {
            return;
        }
        self.add(&arrows()[spot.lines as usize], Spot { lines: spot.lines + 1, arguments: 0, due: Due::Argument });
        if (spot.arguments as usize) < MOST_ARGUMENTS {
            self.add("[", spot.with(Due::Range { last: None }));
        }
    }

    /// The class ends, or a range begins.
    fn add_range(&mut self, spot: Spot, last: Option<u16>) {
        self.add("] ", Spot { arguments: spot.arguments + 1, due: Due::Argument, ..spot });
        self.add("\\", spot.with(Due::First { last }));
    }

    /// Every word that may come next from a spot.
    fn add_words(&mut self, spot: Spot) {
        match spot.due {
            Due::Argument => self.add_argument(spot),
            Due::Range { last } => self.add_range(spot, last),
            Due::First { .. } => {
                spot.numbers().for_each(|n| self.add(&numerals()[n as usize], spot.with(Due::Rest { first: n })));
            }
            Due::Rest { first } => {
                self.add_range(spot, Some(first));
                self.add("-\\", spot.with(Due::Last { first }));
            }
            Due::Last { .. } => {
                spot.numbers().for_each(|n| self.add(&numerals()[n as usize], spot.with(Due::Range { last: Some(n) })));
            }
        }
    }

    /// What is left of the words that this byte fits, and the words behind those that it finishes.
    fn step(&self, byte: u8, next: &mut Guesses) {
        next.kept.clear();
        next.may_end = false;
        for guess in self.kept.iter().filter(|guess| guess.left[0] == byte) {
            let (left, behind) = (&guess.left[1..], guess.behind);
            if left.is_empty() {
                next.may_end |= behind.is_end();
                next.add_words(behind);
            } else {
                next.kept.push(Guess { left, behind });
            }
        }
    }
}

/// Nothing if the text is in the form, else the length of its longest beginning with which some text of the form begins.
pub fn judge(text: &[u8]) -> Result<(), usize> {
    let (mut guesses, mut next) = (Guesses::default(), Guesses::default());
    guesses.add_words(Spot { lines: 0, arguments: 0, due: Due::Argument });
    for (at, &byte) in text.iter().enumerate() {
        guesses.step(byte, &mut next);
        std::mem::swap(&mut guesses, &mut next);
        if guesses.kept.is_empty() && !guesses.may_end {
            return Err(at);
        }
    }
    if guesses.may_end {
        return Ok(());
    }
    Err(text.len())
}
