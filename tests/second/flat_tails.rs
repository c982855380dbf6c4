//! The judgement of flat_form.rs in a second way, from what a beginning is: some tail completes it to a text of the form.
//! Tails are tried one by one, and what they complete is judged by writing it again.

use crate::compare::Mismatch;
use crate::flat::{NUMBERS, RULES};
use crate::flat_lines::{written, written_line, FlatText};
use crate::others::Outcome;

/// Numerals and parts of numerals: nothing, one digit or two, and every number.
fn digits() -> Vec<String> {
    let one = (0..10).map(|d| d.to_string());
    let two = (0..100).map(|d| format!("{d:02}"));
    let numbers = (0..NUMBERS).map(|n| n.to_string());
    [String::new()].into_iter().chain(one).chain(two).chain(numbers).collect()
}

/// What may complete a line: the rest of its arrow and result; the end of a class before that; the end of a numeral, or a
/// whole numeral with its backslash, before that.
fn tails(line: usize) -> Vec<String> {
    let arrow = format!("-> [\\{}]\n", RULES + line);
    let mut tails: Vec<String> = (0..=arrow.len()).map(|from| arrow[from..].to_string()).collect();
    tails.push(format!(" {arrow}"));
    for numeral in digits() {
        tails.push(format!("{numeral}] {arrow}"));
        tails.push(format!("\\{numeral}] {arrow}"));
    }
    tails
}

/// Does some text of the form begin with this one?
pub fn is_beginning(text: &[u8]) -> bool {
    let start = text.iter().rposition(|&byte| byte == b'\n').map_or(0, |feed| feed + 1);
    let (whole, rest) = text.split_at(start);
    let line = whole.iter().filter(|&&byte| byte == b'\n').count();
    let whole_is_good = whole.is_empty() || written(whole).is_some();
    let completes = |tail: String| written_line(line, &[rest, tail.as_bytes()].concat()).is_some();
    whole_is_good && ((!whole.is_empty() && rest.is_empty()) || tails(line).into_iter().any(completes))
}

/// This program against itself: is the place of 27 the length of the longest beginning?
pub fn place_agrees(text: &FlatText) -> Outcome {
    let (bytes, Err(refused)) = (&text.bytes, text.written()) else {
        return Ok(());
    };
    let place = refused.place as usize;
    let is_longest = place == bytes.len() || !is_beginning(&bytes[..=place]);
    if is_beginning(&bytes[..place]) && is_longest {
        return Ok(());
    }
    let longest = (0..=bytes.len()).rev().find(|&length| is_beginning(&bytes[..length]));
    let (expected, found) = (format!("by words: {place}"), format!("by tails: {longest:?}"));
    let call = "the place of 27 (this program against itself)".into();
    Err(text.tell(Mismatch { call, expected, found, lent: vec![] }))
}
