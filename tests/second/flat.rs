//! The flat book by document 01: its classes as sets of numbers, and its text.

use crate::book::{Argument, Book, FIRST_RULE};

/// The number of the first rule.
pub const RULES: usize = FIRST_RULE as usize;
/// Numbers run from 0 (a character) to 258 + 63 (a rule).
pub const NUMBERS: usize = RULES + 64;

/// For each number, whether it is in a class.
pub type Set = Vec<bool>;

/// The lines of a flat book: for each argument the numbers that may stand there.
#[derive(Clone, PartialEq, Eq, Debug)]
pub struct Flat {
    pub lines: Vec<Vec<Set>>,
}

/// A flat book, and the lines that may stand at the root, lowest first.
#[derive(Clone, PartialEq, Eq, Debug)]
pub struct Rooted {
    pub flat: Flat,
    pub roots: Vec<usize>,
}

/// The numbers due at an argument: the class's characters, or the rules of the sort that do not clash there.
pub fn due(book: &Book, rule: usize, at: usize) -> Set {
    let mut set = vec![false; NUMBERS];
    match book.rules[rule].arguments[at] {
        Argument::Class(k) => set[..256].copy_from_slice(&book.classes[k]),
        Argument::Sort(_) => {
            for q in book.allowed(rule, at) {
                set[RULES + q] = true;
            }
        }
    }
    set
}

/// A set in normal form: rising ranges, touching ones joined.
fn class_text(set: &[bool]) -> String {
    let mut text = String::from("[");
    let mut number = 0;
    while number < set.len() {
        if !set[number] {
            number += 1;
            continue;
        }
        let run = set[number..].iter().take_while(|&&s| s).count();
        text += &match run {
            1 => format!("\\{number}"),
            _ => format!("\\{}-\\{}", number, number + run - 1),
        };
        number += run;
    }
    text + "]"
}

/// The lines whose numbers are in a set.
pub fn lines_in(set: &[bool]) -> Vec<usize> {
    (RULES..NUMBERS).filter(|&n| set[n]).map(|n| n - RULES).collect()
}

/// One line of the text.
pub fn line_text(line: usize, arguments: &[Set]) -> String {
    let classes: String = arguments.iter().map(|set| class_text(set) + " ").collect();
    format!("{classes}-> [\\{}]\n", RULES + line)
}

impl Flat {
    /// The flat book of a book.
    pub fn of(book: &Book) -> Flat {
        let line = |rule: usize| (0..book.count(rule)).map(|at| due(book, rule, at)).collect();
        Flat { lines: (0..book.rules.len()).map(line).collect() }
    }

    /// How many arguments a line has.
    pub fn count(&self, line: usize) -> usize {
        self.lines[line].len()
    }

    /// The whole text.
    pub fn text(&self) -> Vec<u8> {
        let lines = self.lines.iter().enumerate();
        lines.map(|(line, arguments)| line_text(line, arguments)).collect::<String>().into_bytes()
    }
}

impl Rooted {
    /// The flat book of a book, with the rules of the start sort.
    pub fn of(book: &Book) -> Rooted {
        let is_root = |&rule: &usize| book.rules[rule].result == book.start;
        Rooted { flat: Flat::of(book), roots: (0..book.rules.len()).filter(is_root).collect() }
    }
}

/// The text of a book's flat book.
pub fn text(book: &Book) -> Vec<u8> {
    Flat::of(book).text()
}
