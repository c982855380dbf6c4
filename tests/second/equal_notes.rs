//! Which equal and nearly equal rules random books have (request [5] of 02).

use crate::book::{bodies, read_book, Argument, Bodies, Refusal, Rule};
use crate::cases::Case;
use crate::equal::{differences, meanings, members, one_character, Meaning, Meant};
use crate::ranges::{written, Class, Written};
use crate::ranks::Ranks;
use crate::reading::Study;
use crate::tally::Tally;

/// The last rule and the last class that a book may have.
const LAST: usize = 63;
/// The characters on both sides of each 64 of the alphabet.
const EDGES: [u8; 6] = [63, 64, 127, 128, 191, 192];

/// Adds each kind that was met.
fn add_met(call: &'static str, met: &[(bool, &'static str)], tally: &mut Tally) {
    for (_, name) in met.iter().filter(|m| m.0) {
        tally.add(call, *name);
    }
}

/// Have two rules the same bytes?
fn same_bytes(a: &Rule, b: &Rule) -> bool {
    a.result == b.result && a.arguments == b.arguments
}

/// Has some rule of these the same bytes as another of them?
fn some_same_bytes(rules: &[Rule]) -> bool {
    rules.iter().enumerate().any(|(k, rule)| rules[..k].iter().any(|earlier| same_bytes(earlier, rule)))
}

/// The classes that two equal rules have under two names at an argument.
fn renamed(a: &Rule, b: &Rule) -> Vec<(usize, usize)> {
    let two_names = |(x, y): (&Argument, &Argument)| match (*x, *y) {
        (Argument::Class(k), Argument::Class(l)) if k != l => Some((k, l)),
        _ => None,
    };
    a.arguments.iter().zip(&b.arguments).filter_map(two_names).collect()
}

/// How one set is written twice.
fn note_sets(a: &Class, b: &Class, tally: &mut Tally) {
    let bytes = |class: &Class| class.iter().map(Written::bytes).collect::<Vec<_>>();
    let ends = |class: &Class| class.iter().map(Written::ends).collect::<Vec<_>>();
    let sorted = |class: &Class| {
        let mut all = ends(class);
        all.sort();
        all
    };
    let overlap = |class: &Class| class.iter().enumerate().any(|(k, r)| class[..k].iter().any(|s| r.gap(s) < 0));
    let count = members(a).len();
    let met = [
        (count == 0, "no character"),
        (count == 256, "all characters"),
        (bytes(a) == bytes(b), "same ranges"),
        (bytes(a) != bytes(b) && ends(a) == ends(b), "turned round"),
        (ends(a) != ends(b) && sorted(a) == sorted(b), "another order"),
        (sorted(a) != sorted(b), "other ranges"),
        (overlap(a) != overlap(b), "overlapping ranges"),
    ];
    add_met("equal sets", &met, tally);
}

/// How a book is refused by 8: `r` is the rule at fault.
fn note_refused(case: &Case, found: &Bodies, r: usize, tally: &mut Tally) {
    let (rules, all) = (&found.rules, meanings(&case.book, &found.rules));
    let by_bytes = rules[..r].iter().any(|earlier| same_bytes(earlier, &rules[r]));
    let names: Vec<(usize, usize)> = match (0..r).find(|&e| all[e] == all[r]) {
        Some(earlier) if !by_bytes => renamed(&rules[earlier], &rules[r]),
        _ => vec![],
    };
    let met = [
        (by_bytes, "by bytes"),
        (!some_same_bytes(rules), "by sets alone"),
        (!by_bytes && some_same_bytes(rules), "by sets, bytes behind"),
        (!by_bytes && r == LAST, "the last of 64 rules"),
        (names.iter().any(|&(k, l)| k.max(l) == LAST), "the last of 64 classes"),
        (names.len() > 1, "two arguments renamed"),
        (!by_bytes && Ranks::new(rules.len(), &found.declarations).circle().is_some(), "beside a circle"),
        (!by_bytes && case.text.len() > 200, "a text over 200 bytes"),
    ];
    add_met("equal rules", &met, tally);
    let classes = written(&case.book);
    for (k, l) in names {
        note_sets(&classes[k], &classes[l], tally);
    }
}

/// The character `c` that only one of two arguments has: which it is, and where it is in the larger set.
fn note_character(arguments: [&Meant; 2], c: u8, tally: &mut Tally) {
    let has = |argument: &&Meant| matches!(argument, Meant::Characters(set) if set.contains(&c));
    let Some(Meant::Characters(set)) = arguments.into_iter().find(has) else {
        return;
    };
    let (lowest, highest) = (set.first() == Some(&c), set.last() == Some(&c));
    let met = [
        (c == 0, "0 apart"),
        (c == 255, "255 apart"),
        (EDGES.contains(&c), "an edge of 64 apart"),
        (lowest && highest, "the only one apart"),
        (lowest && !highest, "the lowest apart"),
        (!lowest && highest, "the highest apart"),
        (!lowest && !highest, "one between apart"),
    ];
    add_met("nearly equal", &met, tally);
}

/// The other ways in which two rules can be nearly equal.
fn note_others(a: &Meaning, b: &Meaning, tally: &mut Tally) {
    let has_class = a.arguments.iter().any(|x| matches!(x, Meant::Characters(_)));
    let sorted = |rule: &Meaning| {
        let mut all = rule.arguments.clone();
        all.sort();
        all
    };
    let at = differences(a, b).unwrap_or_default();
    let is_sort = |rule: &Meaning| matches!(rule.arguments[at[0]], Meant::Sort(_));
    let (long, short) = if a.arguments.len() > b.arguments.len() { (a, b) } else { (b, a) };
    let one_more = long.arguments.len() == short.arguments.len() + 1 && long.arguments.starts_with(&short.arguments);
    let met = [
        (at.len() == 1 && is_sort(a) != is_sort(b), "a sort for a class"),
        (at.len() > 1 && has_class && sorted(a) == sorted(b), "another order"),
        (has_class && a.result != b.result && a.arguments == b.arguments, "another result"),
        (has_class && a.result == b.result && one_more, "an argument more"),
    ];
    add_met("nearly equal", &met, tally);
}

/// The nearly equal rules of an accepted book; and one set under two names of which both are in use.
fn note_accepted(case: &Case, study: &Study, rules: &[Rule], tally: &mut Tally) {
    let all = meanings(&case.book, rules);
    let mut is_near = false;
    for (k, a) in all.iter().enumerate() {
        for b in &all[..k] {
            if let Some((at, c)) = one_character(a, b) {
                is_near = true;
                note_character([&a.arguments[at], &b.arguments[at]], c, tally);
            } else {
                note_others(a, b, tally);
            }
        }
    }
    if is_near {
        tally.add("nearly equal", "one character apart");
        if study.text.len() <= 200 {
            tally.add("nearly equal", format!("read {}", ["none", "one", "several"][study.readings.min(2) as usize]));
        }
    }
    let sets: Vec<Vec<u8>> = written(&case.book).iter().map(members).collect();
    let used = |k: usize| rules.iter().any(|rule| rule.arguments.contains(&Argument::Class(k)));
    let twice = |k: usize| used(k) && (0..k).any(|l| sets[l] == sets[k] && used(l));
    if (0..sets.len()).any(twice) {
        tally.add("equal sets", "in an accepted book");
    }
}

/// Without its declarations, would the book be refused by 8, and not by the bytes of its rules?
fn has_twins(bytes: &[u8]) -> bool {
    let mut without = bytes[..bytes.len() - 3 * bytes[3] as usize].to_vec();
    without[3] = 0;
    let by_bytes = bodies(&without).is_ok_and(|found| some_same_bytes(&found.rules));
    !by_bytes && read_book(&without).is_err_and(|refused| refused.number == 8)
}

/// Which equal or nearly equal rules a book has.
pub fn note(case: &Case, study: &Study, tally: &mut Tally) {
    match (&study.book, bodies(&case.book)) {
        (Err(Refusal { number: 8, place }), Ok(found)) => {
            if let Some(r) = found.places.iter().position(|&at| at as u64 == *place) {
                note_refused(case, &found, r, tally);
            }
        }
        (Err(Refusal { number: 7, .. }), _) if has_twins(&case.book) => tally.add("equal rules", "refused 7 before"),
        (Ok(book), _) => note_accepted(case, study, &book.rules, tally),
        _ => {}
    }
}
