//! Random cases of request [7] of 02: a flat text to check, a flat text to read by, and a book's own flat text.

use crate::book::Book;
use crate::cases::{chart_length, listing_length, Case};
use crate::compare::{same_number, Mismatch};
use crate::flat::{self, Rooted};
use crate::flat_calls::{check, read_with, same_as_book, Given};
use crate::flat_damage::{damage, perhaps_damaged};
use crate::flat_heights;
use crate::flat_lines::{allowed, FlatText};
use crate::flat_notes::{note_form, note_order, note_reading};
use crate::flat_plans::{name_absent, roots_for, some_form, some_roots, some_small, some_text, MOST_ROOTS};
use crate::flat_tails::place_agrees;
use crate::library::{self, Lent, Make};
use crate::others::Outcome;
use crate::prng::Dice;
use crate::reading::{Answer, Study};
use crate::tally::Tally;

/// The place of 27 is also found with tails in one flat text of so many, if it is no longer than this, to save time.
const TAILS_ONE_IN: usize = 25;
const MOST_TAILED: usize = 400;
/// A text over this long is read by the book's own flat text only once in so many cases, to save time.
const SHORT: usize = 40;
const LONG_ONE_IN: usize = 3;

/// A flat text, damaged or not, through the check.
pub fn form(dice: &mut Dice, tally: &mut Tally) -> Outcome {
    let flat = some_form(dice);
    let whole = flat.text();
    let text = FlatText::new(&perhaps_damaged(dice, whole.clone()));
    text.agrees()?;
    if text.bytes == whole && text.written() != Ok(&flat) {
        let (call, expected) = ("a flat text taken apart (this program against itself)".into(), "its lines".into());
        return Err(text.tell(Mismatch { call, expected, found: "others".into(), lent: vec![] }));
    }
    if text.written().is_err() && text.bytes.len() <= MOST_TAILED && dice.below(TAILS_ONE_IN) == 0 {
        place_agrees(&text)?;
        tally.add("27 at", "places found with tails");
    }
    note_form(&text, text.bytes != whole, tally);
    check(&text, dice, tally)
}

/// How long a text may be for these lines: mostly short; now and then long, if there are few of them.
fn longest(dice: &mut Dice, lines: &Rooted) -> usize {
    let rows: usize = lines.flat.lines.iter().map(|arguments| arguments.len() + 1).sum();
    match dice.below(4000) {
        0 if rows <= 10 => 200,
        1..=20 if rows <= 30 => SHORT,
        _ if rows > 60 => dice.below(4),
        _ => dice.pick(&[0, 1, 2, 3, 4, 5, 6, 7, 9]),
    }
}

fn text_for(dice: &mut Dice, lines: &Rooted) -> Vec<u8> {
    let most = longest(dice, lines);
    let mut text = some_text(dice, lines, most);
    let letter = text.first().copied().unwrap_or(b'a');
    if most == 200 {
        text.resize(200, letter);
    } else if dice.chance(1) {
        let length = dice.pick(&[201, 201, 202, 256, 300]);
        text.resize(length, letter);
    }
    text
}

/// What a random reading is given.
struct Plan {
    flat: Vec<u8>,
    roots: Vec<u8>,
    text: Vec<u8>,
    has_chart: bool,
}

/// A flat text that is good, mostly, with roots and a text that suit it.
fn some_plan(dice: &mut Dice) -> Plan {
    let mut flat = some_small(dice);
    let roots = some_roots(dice, flat.lines.len());
    let present = allowed(&roots).into_iter().filter(|&line| line < flat.lines.len()).collect();
    let lines = Rooted { flat: flat.clone(), roots: present };
    let text = text_for(dice, &lines);
    if dice.chance(3) {
        name_absent(dice, &mut flat);
    }
    let mut plan = Plan { flat: flat.text(), roots, text, has_chart: true };
    match dice.below(100) {
        0..=3 => damage(dice, &mut plan.flat),
        4..=9 => spoil(dice, &mut flat, &mut plan),
        _ => {}
    }
    plan
}

/// Several faults at once, so that the order of the refusals shows: of the flat text, the roots, the text and the chart.
fn spoil(dice: &mut Dice, flat: &mut flat::Flat, plan: &mut Plan) {
    if dice.chance(60) {
        name_absent(dice, flat);
        plan.flat = flat.text();
    }
    if dice.chance(30) {
        damage(dice, &mut plan.flat);
    }
    if dice.chance(60) {
        plan.roots.resize(dice.pick(&[64, 65, MOST_ROOTS]), 0);
        plan.roots[63] = 1;
    }
    if dice.chance(60) {
        plan.text.resize(dice.pick(&[201, 202, 300]), b'a');
    }
    plan.has_chart = dice.chance(30);
}

/// A text read by a flat text.
pub fn reading(dice: &mut Dice, tally: &mut Tally) -> Outcome {
    let plan = some_plan(dice);
    let flat = FlatText::new(&plan.flat);
    flat.agrees()?;
    let given = Given { flat: &flat, roots: &plan.roots, text: &plan.text };
    let study = given.study();
    flat_heights::agrees(&study).map_err(|wrong| given.tell((&[], &[]), wrong))?;
    let chart_size = if plan.has_chart { chart_length(dice, &study) } else { 0 };
    let listing_size = listing_length(dice, &study);
    let (chart, listing) = (dice.garbage(chart_size), dice.garbage(listing_size));
    let answer = read_with(given, &study, (&chart, &listing), dice)?;
    tally.add("read_flat", answer.name());
    note_reading(given, &study, tally);
    if let Answer::Refused(refused) = &answer {
        note_order(given, refused, chart.len(), tally);
    }
    Ok(())
}

/// The flat text that the library writes for a book.
fn library_text(bytes: &[u8], book: &Book, dice: &mut Dice) -> Result<Vec<u8>, Mismatch> {
    let need = flat::text(book).len();
    let (mut lent, mut out) = (Lent::new(bytes, dice), Lent::new(&vec![0; need], dice));
    same_number("meadowsink_flat", 4 * need as u64 + 1, library::flat(Make::Number, &mut lent, &mut out))?;
    Ok(out.contents().to_vec())
}

/// This program against itself: the flat text read again has the classes of the book's flat book.
fn reads_back(given: Given, lines: &Rooted) -> Outcome {
    given.flat.agrees()?;
    let found = given.flat.rooted(given.roots);
    if found.as_ref() == Ok(lines) {
        return Ok(());
    }
    let call = "a book's own flat text (this program against itself)".into();
    let found = format!("{:?}", found.map(|other| String::from_utf8_lossy(&other.flat.text()).into_owned()));
    let wrong = Mismatch { call, expected: format!("its lines, roots {:?}", lines.roots), found, lent: vec![] };
    Err(given.flat.tell(wrong))
}

/// For an accepted book, its text read by its own flat text and the numbers of its start sort's rules.
pub fn of_book(case: &Case, study: &Study, name: &'static str, dice: &mut Dice, tally: &mut Tally) -> Outcome {
    let Ok(book) = &study.book else {
        return Ok(());
    };
    let lines = Rooted::of(book);
    let least = lines.roots.last().map_or(0, |&line| line + 1);
    let length = dice.between(least, MOST_ROOTS);
    let flat = FlatText::new(&library_text(&case.book, book, dice)?);
    let roots = roots_for(dice, &lines.roots, length);
    let given = Given { flat: &flat, roots: &roots, text: &case.text };
    reads_back(given, &lines)?;
    let (chart_size, listing_size) = (chart_length(dice, study), listing_length(dice, study));
    let (chart, listing) = (dice.garbage(chart_size), dice.garbage(listing_size));
    let answer = same_as_book(&case.book, given, study, (&chart, &listing), dice)?;
    tally.add(name, answer.name());
    Ok(())
}

/// The same of most books.
pub fn perhaps_of_book(case: &Case, study: &Study, dice: &mut Dice, tally: &mut Tally) -> Outcome {
    if case.text.len() > SHORT && dice.below(LONG_ONE_IN) > 0 {
        return Ok(());
    }
    of_book(case, study, "flat of a book", dice, tally)
}
