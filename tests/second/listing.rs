//! Checking a listing by document 01, with a stack of what is due instead of one function calling another.

use crate::book::{Argument, Book, Refusal, FIRST_RULE};

/// The longest listing that is checked.
pub const MOST_BYTES: usize = 8192;

#[derive(Clone, Copy, PartialEq, Eq, Debug)]
pub enum Judgement {
    Right,
    /// The index of the first number that is not right, or the count of numbers.
    Wrong(u64),
}

#[derive(Clone, Copy)]
enum Due {
    Root,
    Argument { rule: usize, at: usize },
}

/// Is it refused by 11?
pub fn is_bad_length(listing: &[u8]) -> bool {
    listing.len() % 2 == 1 || listing.len() > MOST_BYTES
}

/// Refusals 10 and 11 in that order. The operation takes a text, so it has 10 (points.md, F1).
fn refusal(text: &[u8], listing: &[u8]) -> Option<Refusal> {
    if text.len() > 200 {
        return Some(Refusal { number: 10, place: text.len() as u64 });
    }
    if is_bad_length(listing) {
        return Some(Refusal { number: 11, place: listing.len() as u64 });
    }
    None
}

/// The rule that a number names, if it names one.
pub fn named(book: &Book, number: u16) -> Option<usize> {
    let rule = number.checked_sub(FIRST_RULE)? as usize;
    (rule < book.rules.len()).then_some(rule)
}

/// Is the number right where `due` is due, with `left` the text not yet spelled?
fn is_right(book: &Book, due: Due, number: u16, left: &[u8]) -> bool {
    match due {
        Due::Root => named(book, number).is_some_and(|r| book.rules[r].result == book.start),
        Due::Argument { rule, at } => match book.rules[rule].arguments[at] {
            Argument::Class(k) => number < 256 && book.classes[k][number as usize] && left.first() == Some(&(number as u8)),
            Argument::Sort(s) => {
                named(book, number).is_some_and(|q| book.rules[q].result == s && !book.clashes(rule, at, q))
            }
        },
    }
}

/// The bytes of a listing: two a number, low byte first.
pub fn to_bytes(numbers: &[u16]) -> Vec<u8> {
    numbers.iter().flat_map(|n| n.to_le_bytes()).collect()
}

/// The numbers in these bytes, an even count of them.
pub fn to_numbers(listing: &[u8]) -> Vec<u16> {
    listing.chunks(2).map(|pair| u16::from_le_bytes([pair[0], pair[1]])).collect()
}

/// Checking a listing with a book that may be refused.
pub fn judge(book: &Result<Book, Refusal>, text: &[u8], listing: &[u8]) -> Result<Judgement, Refusal> {
    match book {
        Ok(good) => check(good, text, listing),
        Err(refused) => Err(*refused),
    }
}

/// The book has been accepted already.
pub fn check(book: &Book, text: &[u8], listing: &[u8]) -> Result<Judgement, Refusal> {
    if let Some(refused) = refusal(text, listing) {
        return Err(refused);
    }
    let mut stack = vec![Due::Root];
    let mut spelled = 0;
    for (index, &number) in to_numbers(listing).iter().enumerate() {
        let wrong = Ok(Judgement::Wrong(index as u64));
        let Some(due) = stack.pop() else {
            return wrong;
        };
        if !is_right(book, due, number, &text[spelled..]) {
            return wrong;
        }
        match named(book, number) {
            Some(rule) => stack.extend((0..book.count(rule)).rev().map(|at| Due::Argument { rule, at })),
            None => spelled += 1,
        }
    }
    if stack.is_empty() && spelled == text.len() {
        return Ok(Judgement::Right);
    }
    Ok(Judgement::Wrong(listing.len() as u64 / 2))
}
