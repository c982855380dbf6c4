//! What request [3] of 02 says of a range with low above high: it means the same characters as the range turned round. A
//! book is given to the library a second time with ranges turned, and must be answered alike by every call; if it is
//! refused, with the same number and place.

use crate::alike::{self, Pair};
use crate::book::{read_book, Refusal};
use crate::cases::Case;
use crate::compare::Mismatch;
use crate::flat;
use crate::others::Outcome;
use crate::prng::Dice;
use crate::ranges::{written, Class, Written};
use crate::reading::Study;
use crate::tally::Tally;

/// Ranges have no part in clashes, so few questions about them will do.
const MOST_QUESTIONS: usize = 30;

/// The ranges to be turned: those that go down (so that none does), those that go up (so that all go down), some, or all;
/// all, too, if there would be none. A range of one character is the same either way, and is left out.
fn some_ranges(dice: &mut Dice, classes: &[Class]) -> Vec<Written> {
    let all: Vec<Written> = classes.iter().flatten().filter(|r| r.is_upward() || r.is_downward()).copied().collect();
    let style = dice.below(4);
    let wanted = |r: &Written, dice: &mut Dice| match style {
        0 => r.is_downward(),
        1 => r.is_upward(),
        2 => dice.chance(50),
        _ => true,
    };
    let some: Vec<Written> = all.iter().filter(|r| wanted(r, dice)).copied().collect();
    if some.is_empty() {
        return all;
    }
    some
}

/// The same book with these ranges turned round.
fn turn(bytes: &[u8], ranges: &[Written]) -> Vec<u8> {
    let mut out = bytes.to_vec();
    for range in ranges {
        out.swap(range.at, range.at + 1);
    }
    out
}

/// What both books must have: for each class its characters, and the flat text; or the same refusal.
type Meaning = Result<(Vec<[bool; 256]>, Vec<u8>), Refusal>;

fn meaning(bytes: &[u8]) -> Meaning {
    read_book(bytes).map(|book| {
        let text = flat::text(&book);
        (book.classes, text)
    })
}

/// Has each class the characters that some range of it has, either way round, and no other?
fn classes_hold(sets: &[[bool; 256]], classes: &[Class]) -> bool {
    let holds = |set: &[bool; 256], class: &Class| (0..=255u8).all(|c| set[c as usize] == class.iter().any(|r| r.has(c)));
    sets.len() == classes.len() && sets.iter().zip(classes).all(|(set, class)| holds(set, class))
}

/// This program against itself: what the ranges say, and what they say turned.
fn own_meaning(bytes: &[u8], turned: &[u8], classes: &[Class]) -> Outcome {
    let (before, after) = (meaning(bytes), meaning(turned));
    let holds = before.as_ref().map_or(true, |(sets, _)| classes_hold(sets, classes));
    if holds && before == after {
        return Ok(());
    }
    let text = |m: Meaning| format!("{:?}", m.map(|(_, text)| String::from_utf8_lossy(&text).into_owned()));
    let call = "turning ranges (this program against itself)".into();
    let expected = format!("what its ranges say: {holds}, and so turned: {}", text(before));
    Err(Mismatch { call, expected, found: text(after), lent: vec![] })
}

fn note(before: &[Class], after: &[Class], turned: usize, name: &'static str, tally: &mut Tally) {
    let count = |classes: &[Class], good: fn(&Written) -> bool| classes.iter().flatten().filter(|r| good(r)).count();
    let (down, up) = (count(after, Written::is_downward), count(after, Written::is_upward));
    let met = [
        (turned == down + up, "every range"),
        (turned < down + up, "some ranges"),
        (count(before, Written::is_downward) > 0 && down == 0, "none downward any more"),
        (count(before, Written::is_upward) > 0 && up == 0, "none upward any more"),
    ];
    for (_, what) in met.iter().filter(|m| m.0) {
        tally.add(name, *what);
    }
}

/// If the book has a range of two characters or more: the library's answers for it, and with ranges turned.
pub fn same_answers(case: &Case, study: &Study, name: &'static str, dice: &mut Dice, tally: &mut Tally) -> Outcome {
    let classes = written(&case.book);
    let ranges = some_ranges(dice, &classes);
    if ranges.is_empty() {
        return Ok(());
    }
    let turned = turn(&case.book, &ranges);
    note(&classes, &written(&turned), ranges.len(), name, tally);
    let pair = Pair { case, other: &turned, most_questions: MOST_QUESTIONS, name };
    let alike = own_meaning(&case.book, &turned, &classes).and_then(|_| alike::both(&pair, study, dice, tally));
    alike.map_err(|mut wrong| {
        wrong.call = format!("a book and the same with ranges turned round: {}", wrong.call);
        wrong.lent.push(("turned", turned.clone()));
        wrong
    })
}
