//! Random sheets for a book: lines that fit it, empty and overlong ones among them, joined with feeds; and lengths for the
//! lent chart and summary, and starts for a walker.

use crate::book::{Book, Refusal};
use crate::counter::Layout;
use crate::others::odd_number;
use crate::prng::Dice;
use crate::sheets::{line_from, lines, FEED, MOST_LINE, MOST_SHEET};
use crate::texts::some_text;
use std::ops::RangeInclusive;

/// An overlong line up to this long now and then gets a chart that would do for it.
const MOST_CHARTED: usize = 256;
/// No chart is longer than this, to save time.
const MOST_CHART: usize = 170_000;
/// A line of 200 bytes is read by a book with so many rows of the chart or fewer, to save time.
const FEW_ROWS: usize = 6;
/// The chart for a sheet of which no line is read is shorter than this.
const ANY_CHART: usize = 300;
/// What long lines and sheets are filled with if no text of the book is.
const LETTER: u8 = b'8';
/// Lengths for which reading takes long.
const LONG_REST: RangeInclusive<usize> = 41..=MOST_LINE;
/// Bytes that another splitting might take for a feed.
const LIKE_FEED: [u8; 6] = [9, 11, 13, 0, FEED + 128, 255];

/// A line within or over the limit of 200 bytes, all of one letter.
fn long_line(dice: &mut Dice, letter: u8, rows: usize) -> Vec<u8> {
    if rows <= FEW_ROWS && dice.chance(6) {
        return vec![letter; MOST_LINE];
    }
    let over = dice.pick(&[1, 1, 1, 2, 55, 56, 57, 256]);
    vec![letter; MOST_LINE + over]
}

/// A line that fits the book: mostly short, now and then empty, seldom long.
fn some_line(dice: &mut Dice, book: &Book) -> Vec<u8> {
    let rows = Layout::new(book, 0).all_rows;
    let longest = match rows {
        0..=20 if dice.chance(1) => 40,
        0..=60 => dice.pick(&[1, 2, 3, 4, 5, 6, 8]),
        _ => dice.below(4),
    };
    match dice.below(60) {
        0..=6 => vec![],
        7 => long_line(dice, LETTER, rows),
        8 => {
            let letter = some_text(dice, book, 1).text.first().copied().unwrap_or(LETTER);
            long_line(dice, letter, rows)
        }
        _ => some_text(dice, book, longest).text,
    }
}

/// Lines for a book, or any bytes for one that is refused.
fn some_lines(dice: &mut Dice, book: &Result<Book, Refusal>) -> Vec<Vec<u8>> {
    let count = dice.pick(&[0, 1, 1, 2, 2, 3, 3, 4, 5, 6, 7, 8]);
    match book {
        // More lines than a byte can count, of few kinds.
        Ok(good) if dice.below(100) == 0 => {
            let kinds = [vec![], some_text(dice, good, 2).text, some_text(dice, good, 2).text];
            (0..dice.between(250, 300)).map(|_| kinds[dice.below(kinds.len())].clone()).collect()
        }
        Ok(good) => (0..count).map(|_| some_line(dice, good)).collect(),
        Err(_) => (0..count).map(|_| (0..dice.below(6)).map(|_| dice.byte()).collect()).collect(),
    }
}

/// A sheet for a book. A text with a feed in it makes two lines here.
pub fn some_sheet(dice: &mut Dice, book: &Result<Book, Refusal>) -> Vec<u8> {
    let mut sheet = some_lines(dice, book).join(&FEED);
    if dice.chance(50) {
        sheet.push(FEED);
    }
    let at = dice.below(sheet.len());
    match dice.below(100) {
        0..=4 => sheet.insert(at, FEED),
        5..=14 if at < sheet.len() => sheet[at] = dice.pick(&LIKE_FEED),
        15 => {
            let more = dice.pick(&[0, 1, 1, 1, 2, 200, MOST_SHEET + 1]);
            // The longest sheet that is read ends in one long line, to save time.
            let filling = if more > 0 { dice.pick(&[FEED, LETTER, 0]) } else { LETTER };
            sheet.resize(MOST_SHEET + more, filling);
        }
        _ => {}
    }
    sheet
}

/// The bytes that each line of at most `most` bytes needs of a chart.
fn needs(book: &Book, sheet: &[u8], most: usize) -> Vec<usize> {
    let lengths = lines(sheet).into_iter().map(|line| line.len()).filter(|&length| length <= most);
    lengths.map(|length| Layout::new(book, length).need()).collect()
}

/// A chart long enough for each line, for some lines only, or for none; now and then for an overlong line too.
pub fn chart_length(dice: &mut Dice, book: &Result<Book, Refusal>, sheet: &[u8]) -> usize {
    let good = match book {
        Ok(good) if sheet.len() <= MOST_SHEET => good,
        _ => return dice.below(ANY_CHART),
    };
    let most_length = if dice.chance(25) { MOST_CHARTED } else { MOST_LINE };
    let needs = needs(good, sheet, most_length);
    let most = needs.iter().copied().max().unwrap_or(0);
    let some = if needs.is_empty() { 0 } else { dice.pick(&needs) };
    let length = match dice.below(14) {
        0 => 0,
        1 => most.saturating_sub(1),
        2 | 3 => some.saturating_sub(1),
        4..=6 => some,
        7 => dice.below(most + 1),
        8 | 9 => most + dice.between(1, 50),
        _ => most,
    };
    length.min(MOST_CHART)
}

/// A summary exactly long enough, one too short, longer, empty, or of any length that is too short.
pub fn summary_length(dice: &mut Dice, sheet: &[u8]) -> usize {
    let count = lines(sheet).len();
    match dice.below(20) {
        0 | 1 => count.saturating_sub(1),
        2 => 0,
        3 => dice.below(count),
        4..=9 => count + dice.between(1, 40),
        _ => count,
    }
}

/// Starts for a walker: two anywhere, a feed if there is one, the end, and one that is past it, or would not be if its high
/// bits were lost. Few of them leave a long rest of a line that could be read, to save time.
pub fn some_starts(dice: &mut Dice, sheet: &[u8]) -> Vec<usize> {
    let length = sheet.len();
    let mut starts = vec![dice.below(length), dice.below(length), length];
    let feeds: Vec<usize> = (0..length).filter(|&k| sheet[k] == FEED).collect();
    if !feeds.is_empty() {
        starts.push(dice.pick(&feeds));
    }
    let good = dice.below(length) as u64;
    starts.push(odd_number(dice, good, length as u64) as usize);
    let is_long = |start: usize| line_from(sheet, start).is_some_and(|(rest, _)| LONG_REST.contains(&rest.len()));
    starts.retain(|&start| !is_long(start) || dice.chance(2));
    starts
}
