//! What request [5] of 02 says of equal rules, held in a second way: each rule is written out with the characters of its
//! classes in place of their names, as the ranges have them, and equal rules are then found side by side in order. (book.rs
//! holds every two rules against each other, by sets of 256 yes-or-no entries.)

use crate::book::{bodies, Argument, Book, Refusal, Rule};
use crate::compare::Mismatch;
use crate::others::Outcome;
use crate::ranges::{written, Class};

/// An argument written out: a sort, or characters in rising order.
#[derive(Clone, PartialEq, Eq, PartialOrd, Ord, Debug)]
pub enum Meant {
    Sort(usize),
    Characters(Vec<u8>),
}

/// A rule written out.
#[derive(Clone, PartialEq, Eq, PartialOrd, Ord, Debug)]
pub struct Meaning {
    pub result: usize,
    pub arguments: Vec<Meant>,
}

/// The characters that some range of the class has.
pub fn members(class: &Class) -> Vec<u8> {
    (0..=255).filter(|&c| class.iter().any(|range| range.has(c))).collect()
}

/// The rules of the book in these bytes, written out.
pub fn meanings(bytes: &[u8], rules: &[Rule]) -> Vec<Meaning> {
    let sets: Vec<Vec<u8>> = written(bytes).iter().map(members).collect();
    let meant = |argument: &Argument| match *argument {
        Argument::Sort(s) => Meant::Sort(s),
        Argument::Class(k) => Meant::Characters(sets[k].clone()),
    };
    let meaning = |rule: &Rule| Meaning { result: rule.result, arguments: rule.arguments.iter().map(meant).collect() };
    rules.iter().map(meaning).collect()
}

/// The first rule that is equal to an earlier one. Equal rules stand together once all are put in order, the earliest of
/// them first.
fn first_twin(meanings: &[Meaning]) -> Option<usize> {
    let mut order: Vec<usize> = (0..meanings.len()).collect();
    order.sort_by(|&a, &b| (&meanings[a], a).cmp(&(&meanings[b], b)));
    order.windows(2).filter(|two| meanings[two[0]] == meanings[two[1]]).map(|two| two[1]).min()
}

/// This program against itself: both ways find the same rule at fault, or none.
pub fn ways_agree(bytes: &[u8], book: &Result<Book, Refusal>) -> Outcome {
    let Ok(found) = bodies(bytes) else {
        return Ok(());
    };
    let twin = first_twin(&meanings(bytes, &found.rules));
    let in_order = twin.map(|r| Refusal { number: 8, place: found.places[r] as u64 });
    let by_pairs = book.as_ref().err().copied().filter(|refused| refused.number == 8);
    if in_order == by_pairs {
        return Ok(());
    }
    let call = "equal rules (this program against itself)".into();
    Err(Mismatch { call, expected: format!("in order: {in_order:?}"), found: format!("by pairs: {by_pairs:?}"), lent: vec![] })
}

/// The arguments at which two rules are not the same, if they have one result and as many arguments.
pub fn differences(a: &Meaning, b: &Meaning) -> Option<Vec<usize>> {
    let comparable = a.result == b.result && a.arguments.len() == b.arguments.len();
    comparable.then(|| (0..a.arguments.len()).filter(|&at| a.arguments[at] != b.arguments[at]).collect())
}

/// The only argument at which two rules are not the same, and the only character that one of them has there and the other
/// hasn't.
pub fn one_character(a: &Meaning, b: &Meaning) -> Option<(usize, u8)> {
    let [at] = differences(a, b)?[..] else {
        return None;
    };
    let (Meant::Characters(x), Meant::Characters(y)) = (&a.arguments[at], &b.arguments[at]) else {
        return None;
    };
    let mut apart = (0..=255).filter(|c| x.binary_search(c).is_ok() != y.binary_search(c).is_ok());
    let first = apart.next()?;
    apart.next().is_none().then_some((at, first))
}
