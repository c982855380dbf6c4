//! What request [4] of 02 says of a sheet: its lines, its summary, the walker's steps, the refusals, and every byte of the
//! lent chart and summary afterwards.
//!
//! A whole sheet is cut at the places of all its feeds at once; a step looks for one feed from its own start. The chart goes
//! from line to line; what it holds at the end is also told without that, byte by byte.

use crate::book::{read_book, Book, Refusal};
use crate::counter::Layout;
use crate::reading::{Answer, Study};
use std::collections::HashMap;
use std::ops::Range;

/// The byte that ends a line.
pub const FEED: u8 = 10;
/// A sheet has at most so many bytes, and a line that is read so many.
pub const MOST_SHEET: usize = 65_535;
pub const MOST_LINE: usize = 200;
/// The byte of a line that is refused.
pub const LINE_REFUSED: u8 = 3;
/// The refusals of a sheet that is too long and of a summary that is too short.
const SHEET_LONG: u64 = 25;
const SUMMARY_SHORT: u64 = 26;
/// The refusal of a listing that doesn't fit.
const LISTING_SHORT: u64 = 22;

/// A sheet and what is lent with it. Book and sheet are only read.
#[derive(Clone, Copy)]
pub struct Sheet<'a> {
    pub book: &'a [u8],
    pub bytes: &'a [u8],
    pub chart: &'a [u8],
    pub summary: &'a [u8],
}

/// The answer for a whole sheet (how many lines), and what chart and summary hold afterwards.
pub struct Summed {
    pub answer: Result<u64, Refusal>,
    pub chart: Vec<u8>,
    pub summary: Vec<u8>,
}

impl Summed {
    /// The viewer's number, 4 times the value, plus the kind; and the place.
    pub fn packed(&self) -> (u64, u64) {
        match self.answer {
            Ok(count) => (4 * count + 1, 0),
            Err(refused) => (4 * refused.number + 3, refused.place),
        }
    }
}

/// What a walker's step gives.
#[derive(Clone, Copy, PartialEq, Eq, Debug)]
pub enum Step {
    NoLine,
    Line { next: usize, byte: u8 },
    Refused(Refusal),
}

impl Step {
    /// The viewer's number and the place. A refused line is a line, and has no place.
    pub fn packed(&self) -> (u64, u64) {
        match self {
            Step::NoLine => (0, 0),
            Step::Line { next, byte } => (4 * (4 * *next as u64 + *byte as u64) + 1, 0),
            Step::Refused(refused) => (4 * refused.number + 3, refused.place),
        }
    }
}

/// Where the lines are: a piece from the sheet's start and from behind each feed, up to the next feed or the sheet's end. The
/// last piece has no feed behind it, so it is a line only if it isn't empty.
pub fn lines(sheet: &[u8]) -> Vec<Range<usize>> {
    let feeds: Vec<usize> = (0..sheet.len()).filter(|&k| sheet[k] == FEED).collect();
    let starts = [0].into_iter().chain(feeds.iter().map(|feed| feed + 1));
    let ends = feeds.iter().copied().chain([sheet.len()]);
    let mut pieces: Vec<Range<usize>> = starts.zip(ends).map(|(start, end)| start..end).collect();
    if pieces.last().is_some_and(|last| last.is_empty()) {
        pieces.pop();
    }
    pieces
}

/// The byte that an answer has in a summary. No listing is written for a sheet, so one whose listing doesn't fit is one.
fn byte_of(answer: Answer) -> u8 {
    match answer {
        Answer::None => 0,
        Answer::One(_) => 1,
        Answer::Several => 2,
        Answer::Refused(r) if r.number == LISTING_SHORT => 1,
        Answer::Refused(_) => LINE_REFUSED,
    }
}

/// A book, and the lines that were studied with it already, as many lines are equal.
pub struct Reader<'a> {
    bytes: &'a [u8],
    book: Result<Book, Refusal>,
    known: HashMap<Vec<u8>, Study>,
}

impl<'a> Reader<'a> {
    /// With no line studied yet.
    pub fn new(bytes: &'a [u8]) -> Reader<'a> {
        Reader { bytes, book: read_book(bytes), known: HashMap::new() }
    }

    /// A line as a text of its own.
    fn study(&mut self, line: &[u8]) -> &Study {
        if !self.known.contains_key(line) {
            self.known.insert(line.to_vec(), Study::new(self.bytes, line));
        }
        &self.known[line]
    }

    /// Is the line within the limit, and a chart of this length long enough for it? If not, nobody need study it.
    pub fn is_read(&self, line: &[u8], chart_length: usize) -> bool {
        let enough = |book: &Book| Layout::new(book, line.len()).need() <= chart_length;
        line.len() <= MOST_LINE && self.book.as_ref().is_ok_and(enough)
    }

    /// Reads a line over the chart, which is then as this line leaves it; the line's byte comes back.
    pub fn read(&mut self, line: &[u8], chart: &mut Vec<u8>) -> u8 {
        if !self.is_read(line, chart.len()) {
            return LINE_REFUSED;
        }
        let after = self.study(line).outcome(chart, &[]);
        *chart = after.chart;
        byte_of(after.answer)
    }

    /// Has some class the byte that no line has?
    pub fn has_feed_in_class(&self) -> bool {
        self.book.as_ref().is_ok_and(|book| book.classes.iter().any(|class| class[FEED as usize]))
    }

    /// What is judged before any line, of a sheet and of a step: the book, then the sheet's length.
    pub fn refusal(&self, sheet: &[u8]) -> Option<Refusal> {
        let long = || (sheet.len() > MOST_SHEET).then_some(Refusal { number: SHEET_LONG, place: sheet.len() as u64 });
        self.book.as_ref().err().copied().or_else(long)
    }
}

/// The whole sheet, line by line.
pub fn whole(sheet: &Sheet, reader: &mut Reader) -> Summed {
    let mut after = Summed { answer: Ok(0), chart: sheet.chart.to_vec(), summary: sheet.summary.to_vec() };
    let lines = lines(sheet.bytes);
    let count = lines.len() as u64;
    let short = || (sheet.summary.len() < lines.len()).then_some(Refusal { number: SUMMARY_SHORT, place: count });
    if let Some(refused) = reader.refusal(sheet.bytes).or_else(short) {
        after.answer = Err(refused);
        return after;
    }
    for (line, byte) in lines.into_iter().zip(&mut after.summary) {
        *byte = reader.read(&sheet.bytes[line], &mut after.chart);
    }
    after.answer = Ok(count);
    after
}

/// The line from `start` to the next feed, or to the sheet's end, and where the next line starts; none if nothing is left.
pub fn line_from(sheet: &[u8], start: usize) -> Option<(&[u8], usize)> {
    let rest = sheet.get(start..).filter(|rest| !rest.is_empty())?;
    let line = rest.split(|&byte| byte == FEED).next()?;
    let behind = start + line.len();
    Some((line, if behind < sheet.len() { behind + 1 } else { behind }))
}

/// A walker's step from `start` over the chart, which is then as the step leaves it.
pub fn step(sheet: &[u8], start: usize, reader: &mut Reader, chart: &mut Vec<u8>) -> Step {
    if let Some(refused) = reader.refusal(sheet) {
        return Step::Refused(refused);
    }
    match line_from(sheet, start) {
        Some((line, next)) => Step::Line { next, byte: reader.read(line, chart) },
        None => Step::NoLine,
    }
}

/// The chart after a sheet that is accepted: each byte comes from the last line that is read and needs it, or stayed.
pub fn last_entries(sheet: &Sheet, reader: &mut Reader) -> Vec<u8> {
    let mut out: Vec<Option<u8>> = vec![None; sheet.chart.len()];
    for line in lines(sheet.bytes).into_iter().rev() {
        let text = &sheet.bytes[line];
        if reader.is_read(text, sheet.chart.len()) {
            for (byte, count) in out.iter_mut().zip(&reader.study(text).counts) {
                byte.get_or_insert((*count).min(2) as u8);
            }
        }
    }
    out.iter().zip(sheet.chart).map(|(byte, before)| byte.unwrap_or(*before)).collect()
}
