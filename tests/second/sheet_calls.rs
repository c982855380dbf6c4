//! Comparing the library's calls for sheets with what request [4] says: the whole sheet, the walker from line to line and from
//! any start, and each line read alone. Of each call the number, the place and every byte of the lent areas.

use crate::compare::{difference, same_bytes, same_number, Mismatch};
use crate::library::{self, Lent, Make};
use crate::others::Outcome;
use crate::prng::Dice;
use crate::sheets::{self, Reader, Sheet, Step, Summed, FEED, LINE_REFUSED};

/// A walker that has no line left, or is refused, is asked once more.
const TIMES_AT_END: usize = 2;
/// Bytes of a listing buffer for a line that is read alone.
const ROOMS: [usize; 6] = [0, 1, 2, 4, 100, 65_536];
const ITSELF: &str = "(this program against itself)";
const MAKES: [Make; 2] = [Make::Number, Make::Place];

/// A sheet, and what request [4] makes of it.
pub struct Asked<'a> {
    pub sheet: Sheet<'a>,
    pub reader: Reader<'a>,
    pub after: Summed,
}

/// Two byte strings that must be the same.
fn same(call: &str, what: &str, expected: &[u8], found: &[u8]) -> Outcome {
    match difference(what, expected, found) {
        Some((expected, found)) => Err(Mismatch { call: call.into(), expected, found, lent: vec![] }),
        None => Ok(()),
    }
}

/// The byte of a line for which the reading has given this number; none if a line can't have it.
fn byte_of_number(number: u64) -> Option<u8> {
    match (number % 4, number / 4) {
        (3, 22) => Some(1),
        (3, 10 | 20) => Some(LINE_REFUSED),
        (3, _) => None,
        (kind, _) => Some(kind as u8),
    }
}

/// What a walker is lent, and the chart as this program has it.
struct Walker {
    make: Make,
    book: Lent,
    bytes: Lent,
    chart: Lent,
    own: Vec<u8>,
}

impl Walker {
    /// With the chart as it is before the sheet.
    fn new(make: Make, sheet: &Sheet, dice: &mut Dice) -> Walker {
        let [book, bytes, chart] = [sheet.book, sheet.bytes, sheet.chart].map(|area| Lent::new(area, dice));
        Walker { make, book, bytes, chart, own: sheet.chart.to_vec() }
    }

    /// One step: its number or its place, and the chart.
    fn step(&mut self, sheet: &Sheet, start: usize, reader: &mut Reader) -> Result<Step, Mismatch> {
        let step = sheets::step(sheet.bytes, start, reader, &mut self.own);
        let (number, place) = step.packed();
        let (name, expected) = match self.make {
            Make::Number => ("meadowsink_sheet_step", number),
            Make::Place => ("meadowsink_sheet_step_place", place),
        };
        let call = format!("{name}, start = {start}, {step:?} by this program");
        let found = library::sheet_step(self.make, &mut self.book, &mut self.bytes, start, &mut self.chart);
        same_number(&call, expected, found)?;
        same_bytes(&call, "chart", &self.own, &self.chart)?;
        Ok(step)
    }

    /// Book and sheet must be as they were.
    fn stayed(&self, sheet: &Sheet) -> Outcome {
        let call = "a walker's step";
        same_bytes(call, "book", sheet.book, &self.book)?;
        same_bytes(call, "sheet", sheet.bytes, &self.bytes)
    }
}

impl<'a> Asked<'a> {
    /// With this program's answer for the whole sheet.
    pub fn new(sheet: Sheet<'a>) -> Asked<'a> {
        let mut reader = Reader::new(sheet.book);
        let after = sheets::whole(&sheet, &mut reader);
        Asked { sheet, reader, after }
    }

    /// A mismatch, with what is needed to meet it again.
    pub fn tell(&self, mut wrong: Mismatch) -> Mismatch {
        let areas = [("sheet", self.sheet.bytes), ("chart before", self.sheet.chart), ("summary before", self.sheet.summary)];
        wrong.lent.extend(areas.map(|(name, bytes)| (name, bytes.to_vec())));
        wrong
    }

    /// This program against itself: the lines and feeds are the sheet, the steps from 0 meet the lines, and the chart is what
    /// the last lines leave.
    pub fn own(&mut self) -> Outcome {
        let bytes = self.sheet.bytes;
        let lines: Vec<&[u8]> = sheets::lines(bytes).into_iter().map(|line| &bytes[line]).collect();
        let mut joined = lines.join(&FEED);
        if bytes.last() == Some(&FEED) {
            joined.push(FEED);
        }
        same(&format!("lines and feeds {ITSELF}"), "sheet", bytes, &joined)?;
        let first = sheets::line_from(bytes, 0);
        let met: Vec<&[u8]> = std::iter::successors(first, |l| sheets::line_from(bytes, l.1)).map(|l| l.0).collect();
        if met != lines {
            let call = format!("the lines of a sheet {ITSELF}");
            return Err(Mismatch { call, expected: format!("{lines:?}"), found: format!("{met:?}"), lent: vec![] });
        }
        if self.after.answer.is_err() {
            return Ok(());
        }
        let last = sheets::last_entries(&self.sheet, &mut self.reader);
        same(&format!("the chart of a sheet {ITSELF}"), "last entries: chart", &last, &self.after.chart)
    }

    /// The whole sheet, in both makes.
    pub fn whole(&self, dice: &mut Dice) -> Outcome {
        let Sheet { book, bytes, chart, summary } = self.sheet;
        let (number, place) = self.after.packed();
        let calls = [(Make::Number, "meadowsink_sheet", number), (Make::Place, "meadowsink_sheet_place", place)];
        for (make, call, expected) in calls {
            let mut lent = [book, bytes, chart, summary].map(|area| Lent::new(area, dice));
            let [b, s, c, m] = &mut lent;
            same_number(call, expected, library::sheet(make, b, s, c, m))?;
            same_bytes(call, "book", book, b)?;
            same_bytes(call, "sheet", bytes, s)?;
            same_bytes(call, "chart", &self.after.chart, c)?;
            same_bytes(call, "summary", &self.after.summary, m)?;
        }
        Ok(())
    }

    /// Lines that were read one by one have given these bytes and left this chart: all as the whole sheet has, if it is
    /// accepted. (The library's whole sheet is as this program's, once `whole` has passed.)
    fn as_whole(&self, call: &str, met: &[u8], chart: &[u8]) -> Outcome {
        let Ok(count) = self.after.answer else {
            return Ok(());
        };
        same(call, "the sheet's summary:", &self.after.summary[..count as usize], met)?;
        same(call, "the sheet's chart:", &self.after.chart, chart)
    }

    /// The walker from 0 to the end, and again there, in both makes, each over a chart of its own.
    pub fn walk(&mut self, dice: &mut Dice) -> Outcome {
        for make in MAKES {
            let mut walker = Walker::new(make, &self.sheet, dice);
            let (mut start, mut met, mut at_end) = (0, vec![], 0);
            while at_end < TIMES_AT_END {
                match walker.step(&self.sheet, start, &mut self.reader)? {
                    Step::Line { next, byte } => {
                        met.push(byte);
                        start = next;
                    }
                    _ => at_end += 1,
                }
            }
            walker.stayed(&self.sheet)?;
            self.as_whole("walking down a sheet", &met, walker.chart.contents())?;
        }
        Ok(())
    }

    /// A step from this start, in both makes.
    pub fn step(&mut self, start: usize, dice: &mut Dice) -> Result<Step, Mismatch> {
        let mut found = Step::NoLine;
        for make in MAKES {
            let mut walker = Walker::new(make, &self.sheet, dice);
            found = walker.step(&self.sheet, start, &mut self.reader)?;
            walker.stayed(&self.sheet)?;
        }
        Ok(found)
    }

    /// Each line read alone in turn, over one chart, with some listing buffer; none if nothing of the sheet is read.
    pub fn alone(&mut self, dice: &mut Dice) -> Outcome {
        if self.reader.refusal(self.sheet.bytes).is_some() {
            return Ok(());
        }
        let call = "meadowsink_read of a line alone";
        let Sheet { book, bytes, chart, .. } = self.sheet;
        let [mut lent_book, mut lent_chart] = [book, chart].map(|area| Lent::new(area, dice));
        let (mut own, mut met) = (chart.to_vec(), vec![]);
        for line in sheets::lines(bytes) {
            let text = &bytes[line];
            let room = dice.pick(&ROOMS);
            let byte = self.reader.read(text, &mut own);
            let (mut lent_text, mut listing) = (Lent::new(text, dice), Lent::new(&dice.garbage(room), dice));
            let number = library::read(Make::Number, &mut lent_book, &mut lent_text, &mut lent_chart, &mut listing);
            if byte_of_number(number) != Some(byte) {
                let (expected, found) = (format!("byte {byte} of the summary"), format!("{number} of the reading"));
                return Err(Mismatch { call: call.into(), expected, found, lent: vec![("line", text.to_vec())] });
            }
            same_bytes(call, "chart", &own, &lent_chart)?;
            met.push(byte);
        }
        self.as_whole(call, &met, lent_chart.contents())
    }
}
