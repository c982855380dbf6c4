//! What 01 says of reading a text, by a book or (request [7] of 02) by a flat text: the answer, and every byte of the lent
//! chart and listing buffer afterwards.

use crate::book::{read_book, Book, Refusal};
use crate::counter::{Counter, Layout};
use crate::flat::Rooted;
use crate::unfold::{unfold, Listing};

/// The viewer's call uses at most this many bytes of the listing buffer.
pub const MOST_LISTING: usize = 65_536;

#[derive(Clone, Copy, PartialEq, Eq, Debug)]
pub enum Answer {
    None,
    One(u64),
    Several,
    Refused(Refusal),
}

impl Answer {
    /// The viewer's number: 4 times the value, plus the kind.
    pub fn packed(&self) -> u64 {
        match self {
            Answer::None => 0,
            Answer::One(length) => 4 * length + 1,
            Answer::Several => 2,
            Answer::Refused(r) => 4 * r.number + 3,
        }
    }

    pub fn place(&self) -> u64 {
        match self {
            Answer::Refused(r) => r.place,
            _ => 0,
        }
    }

    pub fn name(&self) -> String {
        match self {
            Answer::None => "none".into(),
            Answer::One(_) => "one".into(),
            Answer::Several => "several".into(),
            Answer::Refused(r) => format!("refused {}", r.number),
        }
    }
}

/// A book and a text, worked through once; the lent buffers come later. The lines of a flat text may stand for the book.
pub struct Study<B = Book> {
    pub book: Result<B, Refusal>,
    pub text: Vec<u8>,
    /// Bytes that the chart needs (0 if the book is refused).
    pub need: usize,
    /// The exact count of every chart entry, if book and text are within the limits.
    pub counts: Vec<u64>,
    pub readings: u64,
    /// The listing of the only reading, up to what the viewer's call can hold.
    pub listing: Option<Listing>,
}

pub struct Outcome {
    pub answer: Answer,
    pub chart: Vec<u8>,
    pub listing: Vec<u8>,
}

impl Study {
    pub fn new(bytes: &[u8], text: &[u8]) -> Study {
        let book = read_book(bytes);
        let lines = book.as_ref().ok().map(Rooted::of);
        let mut study = Study::begun(book, text);
        if let Some(lines) = lines {
            study.work(&lines);
        }
        study
    }
}

impl Study<Rooted> {
    /// By the lines of a flat text.
    pub fn by_flat(lines: Result<Rooted, Refusal>, text: &[u8]) -> Study<Rooted> {
        let mut study = Study::begun(lines.clone(), text);
        if let Ok(lines) = &lines {
            study.work(lines);
        }
        study
    }
}

impl<B> Study<B> {
    fn begun(book: Result<B, Refusal>, text: &[u8]) -> Study<B> {
        Study { book, text: text.to_vec(), need: 0, counts: vec![], readings: 0, listing: None }
    }

    fn work(&mut self, lines: &Rooted) {
        self.need = Layout::of_lines(lines, self.text.len()).need();
        if self.text.len() > 200 {
            return;
        }
        let counter = Counter::new(lines, &self.text);
        self.readings = counter.readings();
        if self.readings == 1 {
            self.listing = Some(unfold(&counter, MOST_LISTING / 2));
        }
        self.counts = counter.counts;
    }

    fn refusal(&self, chart_length: usize) -> Option<Refusal> {
        if let Err(refused) = &self.book {
            return Some(*refused);
        }
        if self.text.len() > 200 {
            return Some(Refusal { number: 10, place: self.text.len() as u64 });
        }
        if chart_length < self.need {
            return Some(Refusal { number: 20, place: self.need as u64 });
        }
        None
    }

    /// The answer for these lent buffers, and what they hold afterwards.
    pub fn outcome(&self, chart: &[u8], listing: &[u8]) -> Outcome {
        let mut after = Outcome { answer: Answer::None, chart: chart.to_vec(), listing: listing.to_vec() };
        if let Some(refused) = self.refusal(chart.len()) {
            after.answer = Answer::Refused(refused);
            return after;
        }
        for (byte, count) in after.chart.iter_mut().zip(&self.counts) {
            *byte = (*count).min(2) as u8;
        }
        let Some(only) = &self.listing else {
            after.answer = if self.readings == 0 { Answer::None } else { Answer::Several };
            return after;
        };
        let room = listing.len().min(MOST_LISTING) / 2;
        let fits = only.whole && only.numbers.len() <= room;
        for (pair, number) in after.listing.chunks_exact_mut(2).zip(only.numbers.iter().take(room)) {
            pair.copy_from_slice(&number.to_le_bytes());
        }
        after.answer = match fits {
            true => Answer::One(only.numbers.len() as u64),
            false => Answer::Refused(Refusal { number: 22, place: room as u64 }),
        };
        after
    }
}
