//! Comparing the library's reason of a clash with what request [8] says: the number, the place, every byte of the lent areas,
//! with a chain judged, and yes and no as the plain question has them.

use crate::book::Refusal;
use crate::compare::{same_bytes, same_number, Mismatch};
use crate::library::{self, Lent, Make};
use crate::others::{packed, Outcome};
use crate::prng::Dice;
use crate::reasons::{Answer, Question, Reason, Ways};

/// A question about a book, and the buffer for the chain before it is asked.
#[derive(Clone, Copy)]
pub struct Asked<'a> {
    pub bytes: &'a [u8],
    pub ways: &'a Result<Ways<'a>, Refusal>,
    pub ask: Question,
    pub before: &'a [u8],
}

/// The viewer's number, and the place.
pub fn numbers(answer: Answer) -> (u64, u64) {
    packed(answer.map(|found| found.map_or(0, |reason| 4 * reason.value() + 1)))
}

impl Asked<'_> {
    pub fn answer(&self) -> Answer {
        self.ways.as_ref().map_err(|refused| *refused)?.answer(self.ask)
    }

    /// A mismatch, with what is needed to meet it again.
    pub fn tell(&self, mut wrong: Mismatch) -> Mismatch {
        let (p, i, q) = self.ask;
        wrong.call = format!("{}, p i q = {p} {i} {q}", wrong.call);
        wrong.expected += &format!("; the answer by [8] is {:?}", self.answer());
        wrong.lent.extend([("book asked", self.bytes.to_vec()), ("chain before", self.before.to_vec())]);
        wrong
    }

    /// How many bytes of the buffer are written.
    pub fn written(&self) -> usize {
        match self.answer() {
            Ok(Some(Reason::Chain(length))) => length.min(self.before.len()),
            _ => 0,
        }
    }

    /// This program against itself: there is a reason exactly if the plain question has the answer yes.
    fn own(&self) -> Outcome {
        let (p, i, q) = self.ask;
        let plain = self.ways.as_ref().map_err(|refused| *refused).and_then(|ways| ways.book.conflict(p, i, q));
        let found = self.answer().map(|reason| reason.is_some());
        if found == plain {
            return Ok(());
        }
        let call = "the reason and the plain question (this program against itself)".into();
        Err(Mismatch { call, expected: format!("{plain:?}"), found: format!("{found:?}"), lent: vec![] })
    }

    /// Of a chain the bytes that are written are judged; all others must be as they were.
    fn judge(&self, call: &str, chain: &Lent) -> Outcome {
        let start = &chain.contents()[..self.written()];
        if let (Ok(ways), Ok(Some(Reason::Chain(length)))) = (self.ways, self.answer()) {
            let (p, _, q) = self.ask;
            let judged = ways.judge((p as usize, q as usize), length, start);
            let expected = "a shortest chain, or its start".into();
            judged.map_err(|found| Mismatch { call: call.into(), expected, found, lent: vec![] })?;
        }
        same_bytes(call, "chain", &[start, &self.before[start.len()..]].concat(), chain)
    }

    /// One make; the buffer comes back.
    fn once(&self, make: Make, call: &str, expected: u64, dice: &mut Dice) -> Result<Lent, Mismatch> {
        let [mut book, mut chain] = [self.bytes, self.before].map(|area| Lent::new(area, dice));
        same_number(call, expected, library::reason(make, &mut book, self.ask, &mut chain))?;
        self.judge(call, &chain)?;
        same_bytes(call, "book", self.bytes, &book)?;
        Ok(chain)
    }

    /// The plain question is answered alike, but without a reason.
    fn plain(&self, number: u64, dice: &mut Dice) -> Outcome {
        let found = library::conflict(Make::Number, &mut Lent::new(self.bytes, dice), self.ask);
        same_number("meadowsink_conflict, beside meadowsink_reason", if number % 4 == 1 { 1 } else { number }, found)
    }

    fn all(&self, dice: &mut Dice) -> Result<Vec<u8>, Mismatch> {
        self.own()?;
        let (number, place) = numbers(self.answer());
        let chain = self.once(Make::Number, "meadowsink_reason", number, dice)?;
        let other = self.once(Make::Place, "meadowsink_reason_place", place, dice)?;
        same_bytes("meadowsink_reason_place, beside meadowsink_reason", "chain", chain.contents(), &other)?;
        self.plain(number, dice)?;
        Ok(chain.contents().to_vec())
    }

    /// Both makes, which must write the same chain, and the plain question. The buffer comes back.
    pub fn compare(&self, dice: &mut Dice) -> Result<Vec<u8>, Mismatch> {
        self.all(dice).map_err(|wrong| self.tell(wrong))
    }
}
