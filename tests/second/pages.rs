//! The page for the binder, by request [1] of document 02.
//!
//! The numbers of a right listing are taken from the last to the first, so that each rule finds its arguments finished, and
//! every tree spells its own text from its own characters; the lent text is not looked at. Depths and starts come
//! afterwards, on the way down the whole tree.

use crate::book::{Book, Refusal};
use crate::listing::{judge, named, to_numbers, Judgement};

/// The bytes of a line, with the line feed.
pub const LINE_LENGTH: usize = 73;

/// How many bytes of its text a line shows.
pub const SHOWN: usize = 54;

/// The refusals of the page alone.
pub const NOT_RIGHT: u64 = 23;
pub const PAGE_SHORT: u64 = 24;

/// What the page says of one number.
#[derive(Clone, PartialEq, Eq, Debug)]
pub struct Line {
    pub depth: usize,
    pub number: u16,
    pub start: usize,
    pub spelled: Vec<u8>,
}

/// A line to each number, or why there is no page, however long its buffer is.
pub type Lines = Result<Vec<Line>, Refusal>;

fn prints(byte: u8) -> bool {
    (32..=126).contains(&byte)
}

impl Line {
    /// The index after the last byte.
    pub fn end(&self) -> usize {
        self.start + self.spelled.len()
    }

    fn shown(&self) -> &[u8] {
        &self.spelled[..self.spelled.len().min(SHOWN)]
    }

    pub fn has_full_stop(&self) -> bool {
        !self.shown().iter().all(|&b| prints(b))
    }

    fn printed(&self) -> String {
        let shown: String = self.shown().iter().map(|&b| if prints(b) { b as char } else { '.' }).collect();
        format!("{:>4} {:>4} {:>3} {:>3} {:<SHOWN$}\n", self.depth, self.number, self.start, self.end(), shown)
    }
}

struct Tree {
    number: u16,
    parts: Vec<Tree>,
    spelled: Vec<u8>,
}

/// The tree that a right listing lists.
fn tree(book: &Book, numbers: &[u16]) -> Tree {
    let mut finished: Vec<Tree> = vec![];
    for &number in numbers.iter().rev() {
        let made = match named(book, number) {
            None => Tree { number, parts: vec![], spelled: vec![number as u8] },
            Some(rule) => {
                // The tree that was finished last is the first argument.
                let others = finished.len() - book.count(rule);
                let parts: Vec<Tree> = finished.drain(others..).rev().collect();
                let spelled = parts.iter().flat_map(|part| &part.spelled).copied().collect();
                Tree { number, parts, spelled }
            }
        };
        finished.push(made);
    }
    assert!(finished.len() == 1, "a right listing lists one tree");
    finished.remove(0)
}

/// A number before what is below it, which is one deeper and starts where the part before it ends.
fn add_lines(tree: Tree, depth: usize, start: usize, lines: &mut Vec<Line>) {
    lines.push(Line { depth, number: tree.number, start, spelled: tree.spelled });
    let mut at = start;
    for part in tree.parts {
        let width = part.spelled.len();
        add_lines(part, depth + 1, at, lines);
        at += width;
    }
}

/// The lines of a right listing.
pub fn lines_of(book: &Book, numbers: &[u16]) -> Vec<Line> {
    let mut lines = vec![];
    add_lines(tree(book, numbers), 0, 0, &mut lines);
    lines
}

/// The refusals of checking a listing, then 23 with the index that the check gives.
pub fn lines(book: &Result<Book, Refusal>, text: &[u8], listing: &[u8]) -> Lines {
    let judged = judge(book, text, listing)?;
    match (book, judged) {
        (Err(refused), _) => Err(*refused),
        (_, Judgement::Wrong(index)) => Err(Refusal { number: NOT_RIGHT, place: index }),
        (Ok(good), Judgement::Right) => Ok(lines_of(good, &to_numbers(listing))),
    }
}

pub fn page(lines: &[Line]) -> Vec<u8> {
    lines.iter().map(Line::printed).collect::<String>().into_bytes()
}

/// The start and the end of the part of the text that is handed back.
pub fn part(lines: &Lines, index: usize) -> (usize, usize) {
    let line = lines.as_ref().ok().and_then(|all| all.get(index));
    line.map_or((0, 0), |line| (line.start, line.end()))
}
