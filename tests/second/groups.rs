//! What request [2] of 02 says of groups: a book with groups has the same clashes as the book with each pair spelled out.
//! Where that list has at most 255 declarations its book is given to the library too, and must be answered alike.

use crate::alike::{self, Pair};
use crate::book::{read_book, Book, Declaration, Refusal};
use crate::cases::Case;
use crate::compare::Mismatch;
use crate::flat;
use crate::others::Outcome;
use crate::prng::Dice;
use crate::ranks::spelled_out;
use crate::reading::Study;
use crate::tally::Tally;

/// Of the clash questions about two books, to save time.
const MOST_QUESTIONS: usize = 1000;

/// The same book with another list of declarations, if it is not too long for a book.
fn with_declarations(bytes: &[u8], list: &[Declaration]) -> Option<Vec<u8>> {
    let count = u8::try_from(list.len()).ok()?;
    let mut out = bytes[..bytes.len() - 3 * bytes[3] as usize].to_vec();
    out[3] = count;
    out.extend(list.iter().flat_map(|d| [d.kind, d.first as u8, d.second as u8]));
    Some(out)
}

/// The book with each group spelled out, if that is a book. What holds both ways round is written this way or that.
fn spelled_book(bytes: &[u8], book: &Book, dice: &mut Dice) -> Option<Vec<u8>> {
    let mut list = spelled_out(&book.declarations);
    for d in list.iter_mut().filter(|d| d.kind != 1) {
        if dice.chance(50) {
            (d.first, d.second) = (d.second, d.first);
        }
    }
    with_declarations(bytes, &list)
}

/// If the book has groups, and can be spelled out: the library's answers for both.
pub fn same_answers(case: &Case, study: &Study, name: &'static str, dice: &mut Dice, tally: &mut Tally) -> Outcome {
    let Ok(book) = &study.book else {
        return Ok(());
    };
    if !book.declarations.iter().any(Declaration::is_group) {
        return Ok(());
    }
    let Some(spelled) = spelled_book(&case.book, book, dice) else {
        tally.add(name, "past 255");
        return Ok(());
    };
    let found = read_book(&spelled).map(|b| flat::text(&b));
    if found.as_ref() != Ok(&flat::text(book)) {
        let expected = format!("the flat text of the book with groups for {spelled:?}");
        let call = "spelling out (this program against itself)".into();
        return Err(Mismatch { call, expected, found: format!("{found:?}"), lent: vec![] });
    }
    let pair = Pair { case, other: &spelled, most_questions: MOST_QUESTIONS, name };
    alike::both(&pair, study, dice, tally).map_err(|mut wrong| {
        wrong.call = format!("a book with groups and the one spelled out: {}", wrong.call);
        wrong.lent.push(("spelled out", spelled.clone()));
        wrong
    })
}

/// What is at fault in the declaration in which refusal 7 has its place, if it is a group or no kind at all.
fn fault(bytes: &[u8], place: usize) -> Option<String> {
    let at = place - (place + 3 * bytes[3] as usize - bytes.len()) % 3;
    let kind = bytes[at];
    let group = (5..=7).contains(&kind);
    match place - at {
        0 => Some(format!("refused, kind {}", if kind > 8 { "above 8".into() } else { kind.to_string() })),
        1 if group && bytes[place] < bytes[1] => Some(format!("refused, kind {kind} falling")),
        1 if group => Some("refused, first is no rule".into()),
        2 if group => Some("refused, second is no rule".into()),
        _ => None,
    }
}

/// Are there clashes that only groups bring?
fn matter(bytes: &[u8], book: &Book) -> bool {
    let single: Vec<Declaration> = book.declarations.iter().filter(|d| !d.is_group()).copied().collect();
    let without = with_declarations(bytes, &single).map(|b| read_book(&b).map(|b| flat::text(&b)));
    without != Some(Ok(flat::text(book)))
}

fn note_groups(bytes: &[u8], book: &Book, tally: &mut Tally) {
    let all = &book.declarations;
    let groups: Vec<&Declaration> = all.iter().filter(|d| d.is_group()).collect();
    let inside = |d: &Declaration, g: &Declaration| [d.first, d.second].iter().all(|r| (g.first..=g.second).contains(r));
    let beside = |kinds: &[u8]| all.iter().any(|d| kinds.contains(&d.kind) && groups.iter().any(|g| inside(d, g)));
    let meet = |g: &Declaration, h: &Declaration| g.first <= h.second && h.first <= g.second;
    let last = book.rules.len() - 1;
    let met = [
        (groups.iter().any(|g| g.kind == 5), "kind 5"),
        (groups.iter().any(|g| g.kind == 6), "kind 6"),
        (groups.iter().any(|g| g.kind == 7), "kind 7"),
        (groups.iter().any(|g| g.first == g.second), "one rule"),
        (groups.iter().any(|g| last > 0 && (g.first, g.second) == (0, last)), "all rules"),
        (last == 63 && groups.iter().any(|g| (g.first, g.second) == (0, 63)), "all of 64 rules"),
        (groups.iter().enumerate().any(|(k, g)| groups[..k].iter().any(|h| meet(g, h))), "overlapping"),
        (beside(&[1]), "kind 1 on a pair of it"),
        (beside(&[2, 3, 4]), "kinds 2 to 4 on a pair of it"),
        (groups.len() == 255, "255 groups"),
        (!groups.is_empty() && matter(bytes, book), "clashes by groups alone"),
        (!groups.is_empty(), "books with groups"),
        (!all.is_empty(), "books with declarations"),
    ];
    for (_, name) in met.iter().filter(|m| m.0) {
        tally.add("groups", *name);
    }
}

/// Which groups a book has, or how it is refused for one.
pub fn note(bytes: &[u8], book: &Result<Book, Refusal>, tally: &mut Tally) {
    match book {
        Ok(good) => note_groups(bytes, good, tally),
        Err(Refusal { number: 7, place }) => {
            if let Some(name) = fault(bytes, *place as usize) {
                tally.add("groups", name);
            }
        }
        Err(_) => {}
    }
}
