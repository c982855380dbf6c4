//! Which kinds of flat texts, of places in them, and of readings by them random cases have.

use crate::book::Refusal;
use crate::counter::ENDLESS;
use crate::flat::{Flat, Rooted, RULES};
use crate::flat_calls::Given;
use crate::flat_lines::{allowed, FlatText, ABSENT, MOST_ARGUMENTS, MOST_LINES, NOT_WRITTEN};
use crate::reading::Study;
use crate::tally::Tally;

/// The most ranges of one class: every second character.
const MOST_RANGES: usize = 128;

/// What stands at the place of 27.
fn place_name(text: &[u8], place: usize) -> &'static str {
    let before = &text[..place];
    let line = before.rsplit(|&byte| byte == b'\n').next().unwrap_or(before);
    let is_behind_digit = line.last().is_some_and(|byte| byte.is_ascii_digit());
    let arguments = line.iter().filter(|&&byte| byte == b']').count();
    match text.get(place) {
        None => "cut short",
        Some(_) if before.iter().filter(|&&byte| byte == b'\n').count() == MOST_LINES => "a 65th line",
        Some(b'[') if arguments == MOST_ARGUMENTS && line.ends_with(b" ") => "a ninth argument",
        Some(b'0'..=b'9') if is_behind_digit => "a later digit",
        Some(b'0'..=b'9') => "a first digit",
        Some(b'\\') => "a backslash",
        Some(b'-') => "a dash",
        Some(b']') if is_behind_digit => "the end behind a numeral",
        Some(b'[' | b']') => "a bracket",
        Some(b'\n') => "a feed",
        Some(b' ') => "a space",
        Some(_) => "another byte",
    }
}

/// How many ranges a set has.
fn ranges(set: &[bool]) -> usize {
    (0..set.len()).filter(|&n| set[n] && (n == 0 || !set[n - 1])).count()
}

/// What of a text in the form is easily got wrong.
fn note_lines(flat: &Flat, tally: &mut Tally) {
    let all: Vec<_> = flat.lines.iter().flatten().collect();
    let met = [
        (flat.lines.len() == 1, "one line"),
        (flat.lines.len() == MOST_LINES, "64 lines"),
        (flat.lines.iter().any(|arguments| arguments.is_empty()), "no argument"),
        (flat.lines.iter().any(|arguments| arguments.len() == MOST_ARGUMENTS), "8 arguments"),
        (all.iter().any(|set| !set.contains(&true)), "an empty class"),
        (all.iter().any(|set| ranges(set) == MOST_RANGES), "128 ranges"),
        (all.iter().any(|set| set[0]), "character 0"),
        (all.iter().any(|set| set[255]), "character 255"),
        (all.iter().any(|set| set[RULES + MOST_LINES - 1]), "number 321"),
        (all.iter().any(|set| set[255] && ranges(set) == 1 && set[0]), "all characters"),
    ];
    tally.add_met("form with", &met);
}

/// What a flat text has, or where and how it is refused.
pub fn note_form(text: &FlatText, is_damaged: bool, tally: &mut Tally) {
    let Ok(flat) = text.written() else {
        let place = text.lines().map_or_else(|refused| refused.place, |_| 0);
        return tally.add("27 at", place_name(&text.bytes, place as usize));
    };
    note_lines(flat, tally);
    match text.lines() {
        Err(refused) if refused.place as usize == RULES + flat.lines.len() => tally.add("28 at", "the next line"),
        Err(_) => tally.add("28 at", "a later line"),
        Ok(_) if is_damaged => tally.add("form with", "damage that leaves it one"),
        Ok(_) => {}
    }
}

/// What of a reading by an accepted flat text is easily got wrong.
pub fn note_reading(given: Given, study: &Study<Rooted>, tally: &mut Tally) {
    let Ok(Rooted { flat, roots }) = &study.book else {
        return;
    };
    let count = flat.lines.len();
    let is_beside_loop = study.readings == 1 && study.counts.contains(&ENDLESS);
    let met = [
        (study.readings == ENDLESS, "endlessly many readings"),
        (is_beside_loop, "one reading beside a loop"),
        (roots.is_empty(), "no line at the root"),
        (roots.len() == count, "every line at the root"),
        (given.roots.len() < count, "fewer entries than lines"),
        (given.roots.iter().skip(MOST_LINES).any(|&byte| byte != 0), "bytes behind the entries"),
        (flat.lines.iter().flatten().any(|set| !set.contains(&true)), "an empty class"),
        (flat.lines.iter().any(|arguments| arguments.is_empty()), "no argument"),
        ((1..count).any(|line| flat.lines[..line].contains(&flat.lines[line])), "equal lines"),
        (count == MOST_LINES, "64 lines"),
        (given.text.is_empty(), "an empty text"),
        (given.text.len() == 200, "200 bytes"),
    ];
    tally.add_met("read_flat with", &met);
}

/// Which refusals would hold of a reading besides the one that comes. A chart without a byte is too short for every text.
pub fn note_order(given: Given, refused: &Refusal, chart: usize, tally: &mut Tally) {
    let others = given.text.len() > 200 && chart == 0;
    let names_last = given.roots.get(MOST_LINES - 1).is_some_and(|&byte| byte != 0);
    let by_text = given.flat.lines().is_err_and(|found| found.number == ABSENT);
    let root_absent = |flat: &Flat| allowed(given.roots).last().is_some_and(|&line| line >= flat.lines.len());
    let by_root = given.flat.written().is_ok_and(root_absent);
    let met = [
        (refused.number == NOT_WRITTEN && names_last && others, "27, with 28, 10 and 20"),
        (by_text && by_root && others, "28 twice, with 10 and 20"),
        (by_text && by_root, "28 by text and root"),
        (!by_text && by_root && others, "28 by root, with 10 and 20"),
        (!by_text && by_root, "28 by root"),
        (refused.number == 10 && chart == 0, "10, with 20"),
    ];
    tally.add_met("flat order", &met);
}
