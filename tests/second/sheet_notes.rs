//! Which kinds of sheets, lines and steps random sheets have.

use crate::others::refused_name;
use crate::sheet_calls::Asked;
use crate::sheets::{lines, Step, FEED, LINE_REFUSED, MOST_LINE};
use crate::tally::Tally;

/// More lines than a byte can count.
const MANY: usize = 255;

/// A line of an accepted sheet: its byte in the summary, its length, and whether it is read.
struct Line {
    byte: u8,
    length: usize,
    is_read: bool,
}

impl Line {
    /// What the line is counted under.
    fn name(&self) -> &'static str {
        match self.byte {
            0 => "line none",
            1 => "line one",
            2 => "line several",
            _ if self.length > MOST_LINE => "line refused 10",
            _ => "line refused 20",
        }
    }
}

/// Is there a line, and behind it, next to it or not, another, such that the two are so?
fn some_pair(lines: &[Line], good: fn(&Line, &Line) -> bool) -> bool {
    lines.iter().enumerate().any(|(k, first)| lines[k + 1..].iter().any(|second| good(first, second)))
}

/// What of an accepted sheet is easily got wrong.
fn note_shape(asked: &Asked, lines: &[Line], tally: &mut Tally) {
    let sheet = &asked.sheet;
    let short = |line: &Line| !line.is_read && line.length <= MOST_LINE;
    let met = [
        (lines.is_empty(), "no line"),
        (lines.len() > MANY, "over 255 lines"),
        (sheet.bytes.last() == Some(&FEED), "a last feed"),
        (sheet.bytes.last().is_some_and(|&byte| byte != FEED), "no last feed"),
        (lines.iter().any(|line| line.length == 0), "an empty line"),
        (lines.len() > 1 && asked.reader.has_feed_in_class(), "a feed in a class"),
        (lines.iter().any(short) && lines.iter().any(|line| line.is_read), "a chart for some lines"),
        (some_pair(lines, |a, b| !a.is_read && b.is_read), "read behind refused"),
        (some_pair(lines, |a, b| a.is_read && !b.is_read), "refused behind read"),
        (some_pair(lines, |a, b| a.is_read && b.is_read && a.length > b.length), "shorter behind longer"),
        (some_pair(lines, |a, b| a.is_read && b.is_read && a.length < b.length), "longer behind shorter"),
        (sheet.summary.len() == lines.len(), "an exact summary"),
        (sheet.summary.len() > lines.len(), "a longer summary"),
    ];
    for (_, name) in met.iter().filter(|m| m.0) {
        tally.add("sheet with", *name);
    }
}

/// How a sheet is answered, and which lines it has.
pub fn note(asked: &Asked, tally: &mut Tally) {
    let sheet = &asked.sheet;
    if let Err(refused) = &asked.after.answer {
        tally.add("sheet", refused_name(refused));
        return;
    }
    tally.add("sheet", "accepted");
    let texts = lines(sheet.bytes).into_iter().map(|line| &sheet.bytes[line]);
    let lines: Vec<Line> = texts
        .zip(&asked.after.summary)
        .map(|(text, &byte)| Line { byte, length: text.len(), is_read: byte != LINE_REFUSED })
        .collect();
    for line in &lines {
        tally.add("sheet", line.name());
    }
    note_shape(asked, &lines, tally);
}

/// Where a start is in a sheet.
fn place_name(sheet: &[u8], start: usize) -> &'static str {
    let begins = start == 0 || sheet.get(start - 1) == Some(&FEED);
    match sheet.get(start) {
        None if start == sheet.len() => "at the end",
        None => "past the end",
        Some(&FEED) if begins => "an empty line",
        Some(&FEED) => "on a feed",
        Some(_) if begins => "a line's start",
        Some(_) => "inside a line",
    }
}

/// Where a step starts, if book and sheet are accepted, and what it gives.
pub fn note_step(sheet: &[u8], start: usize, step: Step, tally: &mut Tally) {
    let name = match step {
        Step::Refused(refused) => refused_name(&refused),
        Step::NoLine => "no line left".into(),
        Step::Line { byte, .. } => format!("a line, byte {byte}"),
    };
    tally.add("sheet_step", name);
    if !matches!(step, Step::Refused(_)) {
        tally.add("sheet_step", place_name(sheet, start));
    }
}
