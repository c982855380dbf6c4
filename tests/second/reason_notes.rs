//! Which reasons random questions have, and what of them is easily got wrong.

use crate::book::{Argument, Declaration};
use crate::others::refused_name;
use crate::reason_calls::Asked;
use crate::reasons::{Reason, Ways, AT_FIRST, AT_LAST, HIGHER};
use crate::tally::Tally;

/// Beyond what seven bits can hold.
const HIGH: usize = 128;
/// No book has such a rule.
const NO_RULE: u64 = 64;

fn length_name(length: usize) -> &'static str {
    match length {
        1 => "of 1",
        2 => "of 2",
        3 => "of 3",
        4..=9 => "of 4 to 9",
        10..=62 => "of 10 to 62",
        _ => "of 63",
    }
}

fn room_name(length: usize, room: usize) -> &'static str {
    match room {
        0 => "no room",
        _ if room + 1 == length => "a byte too little room",
        _ if room < length => "too little room",
        _ if room == length => "just room enough",
        _ => "more room",
    }
}

/// A chain: what else leads from p, and what else bars the pair.
fn note_chain(ways: &Ways, (p, i, q): (usize, usize, usize), length: usize, tally: &mut Tally) {
    let all = &ways.book.declarations;
    let through = |d: &Declaration| Some(ways.fewest(p, d.first)? + 1 + ways.fewest(d.second, q)?);
    let lengths: Vec<Option<usize>> = all.iter().filter(|d| d.kind == HIGHER).map(through).collect();
    let on_shortest = lengths.iter().filter(|&&l| l == Some(length)).count();
    let first = all.iter().find(|d| d.kind == HIGHER && d.first == p).map(through);
    let lines = ways.of_pair(p, i, q);
    let met = [
        (on_shortest > length, "several shortest"),
        (lengths.iter().flatten().any(|&l| l > length), "a longer chain too"),
        (first.is_some_and(|l| l.is_some_and(|l| l > length)), "a longer chain's link first"),
        (first == Some(None), "a dead end first"),
        (lines.iter().any(|line| matches!(line, Reason::First(_))), "line 2 too"),
        (lines.iter().any(|line| matches!(line, Reason::Last(_))), "line 3 too"),
        (ways.book.count(p) == 1, "the only argument"),
        (i > 0 && i + 1 < ways.book.count(p), "an argument in the middle"),
    ];
    tally.add_met("reason, chain", &met);
}

/// Line 2 or 3: how the declaration covers the pair, and which others do.
fn note_covered(ways: &Ways, (p, q): (usize, usize), kinds: &[u8], declaration: usize, tally: &mut Tally) {
    let all = &ways.book.declarations;
    let one = &all[declaration];
    let behind: Vec<_> = all[declaration + 1..].iter().filter(|d| kinds.contains(&d.kind) && d.covers(p, q)).collect();
    let other_kind = |d: &Declaration| !kinds.contains(&d.kind) && d.covers(p, q);
    let met = [
        (one.is_group() && behind.iter().any(|d| !d.is_group()), "a group, one of two behind"),
        (!one.is_group() && behind.iter().any(|d| d.is_group()), "of two, a group behind"),
        (one.is_group() && p < q, "a group, p below q"),
        (one.is_group() && p > q, "a group, p above q"),
        (!one.is_group() && (one.first, one.second) == (q, p) && p != q, "of two, turned"),
        (p == q, "a rule with itself"),
        ([4, 7].contains(&one.kind), "not together"),
        (all[..declaration].iter().any(other_kind), "another line's kind before"),
        (declaration >= HIGH, "a high declaration"),
    ];
    tally.add_met("reason, covered", &met);
}

/// No reason, although declarations cover the pair or chains lead from p to q.
fn note_none(ways: &Ways, (p, i, q): (usize, usize, usize), tally: &mut Tally) {
    let count = ways.book.count(p);
    let barred = !ways.of_pair(p, i, q).is_empty();
    let is_class = matches!(ways.book.rules[p].arguments[i], Argument::Class(_));
    let covered = |kinds: &[u8]| ways.book.declarations.iter().any(|d| kinds.contains(&d.kind) && d.covers(p, q));
    let fits = ways.is_sort(p, i, q);
    let met = [
        (barred && is_class, "barred, but a class"),
        (barred && !is_class, "barred, but another sort"),
        (fits && count > 1 && i == 0 && covered(&AT_LAST), "left at the first"),
        (fits && count > 1 && i + 1 == count && covered(&AT_FIRST), "right at the last"),
        (fits && i > 0 && i + 1 < count && covered(&AT_FIRST), "right in the middle"),
        (fits && count == 1 && covered(&AT_LAST), "left of the only argument"),
        (fits && p != q && ways.fewest(q, p).is_some(), "q above p"),
    ];
    tally.add_met("reason, none", &met);
}

/// A question with its answer.
pub fn note(asked: &Asked, tally: &mut Tally) {
    let (p, i, q) = (asked.ask.0 as usize, asked.ask.1 as usize, asked.ask.2 as usize);
    let answer = asked.answer();
    let name = match &answer {
        Ok(None) => "no".into(),
        Ok(Some(reason)) => format!("line {}", reason.value() % 4),
        Err(refused) => refused_name(refused),
    };
    tally.add("reason", name);
    let names_nothing = asked.ask.0 >= NO_RULE || asked.ask.2 >= NO_RULE;
    tally.add_met("reason", &[(asked.ways.is_err() && names_nothing, "a bad book and no such rule")]);
    let (Ok(ways), Ok(found)) = (asked.ways, answer) else {
        return;
    };
    match found {
        Some(Reason::Chain(length)) => {
            tally.add("reason, chain", length_name(length));
            tally.add("reason, chain", room_name(length, asked.before.len()));
            note_chain(ways, (p, i, q), length, tally);
        }
        Some(Reason::First(declaration)) => note_covered(ways, (p, q), &AT_FIRST, declaration, tally),
        Some(Reason::Last(declaration)) => note_covered(ways, (p, q), &AT_LAST, declaration, tally),
        None => note_none(ways, (p, i, q), tally),
    }
}
