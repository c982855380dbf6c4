//! One book written in two ways. Both are given to the library with the same questions, buffers, text and listings, and must
//! be answered as this program says of the first.

use crate::book::{Book, Refusal};
use crate::cases::{chart_length, listing_length, Case};
use crate::compare::read_with;
use crate::flat;
use crate::listing::{judge, Judgement};
use crate::others::{self, refused_name, Outcome};
use crate::prng::Dice;
use crate::reading::Study;
use crate::tally::Tally;
use crate::tries::{self, Try};

/// The two books, and how they are compared.
pub struct Pair<'a> {
    pub case: &'a Case,
    /// The book of the case, written in the other way.
    pub other: &'a [u8],
    /// Of a book with more clash questions than this, only about so many are asked, to save time.
    pub most_questions: usize,
    /// What the pair is counted under.
    pub name: &'static str,
}

/// All clash questions of a book that name something, or about `most` of them.
pub fn questions(book: &Book, most: usize, dice: &mut Dice) -> Vec<(u64, u64, u64)> {
    let rules = book.rules.len();
    let arguments = (0..rules).flat_map(|p| (0..book.count(p)).map(move |i| (p as u64, i as u64)));
    let all: Vec<_> = arguments.flat_map(|(p, i)| (0..rules as u64).map(move |q| (p, i, q))).collect();
    let step = 1 + all.len() / most;
    all.into_iter().skip(dice.below(step)).step_by(step).collect()
}

/// What both books are asked and lent; for a refused book one clash question will do.
struct Asks {
    clashes: Vec<(u64, u64, u64)>,
    text: Result<Vec<u8>, Refusal>,
    out: Vec<u8>,
    chart: Vec<u8>,
    listing: Vec<u8>,
    tries: Vec<Try>,
}

impl Asks {
    fn new(pair: &Pair, study: &Study, dice: &mut Dice) -> Asks {
        let text = study.book.as_ref().map(flat::text).map_err(|r| *r);
        let (chart_size, listing_size) = (chart_length(dice, study), listing_length(dice, study));
        Asks {
            clashes: study.book.as_ref().map_or(vec![(0, 0, 0)], |book| questions(book, pair.most_questions, dice)),
            out: dice.garbage(text.as_ref().map_or(40, |t| t.len() + 9)),
            text,
            chart: dice.garbage(chart_size),
            listing: dice.garbage(listing_size),
            tries: tries::some_tries(pair.case, study, dice),
        }
    }

    fn ask(&self, bytes: &[u8], study: &Study, dice: &mut Dice, tally: &mut Tally) -> Outcome {
        others::check(bytes, &study.book, dice, tally)?;
        for &ask in &self.clashes {
            others::conflict(bytes, &study.book, ask, dice, tally)?;
        }
        others::flat_with(bytes, self.text.as_deref().map_err(|r| *r), &self.out, dice, tally)?;
        read_with(bytes, study, &self.chart, &self.listing, dice, tally)?;
        tries::ask(bytes, &self.tries, &study.book, dice, tally)
    }

    fn note(&self, study: &Study, book: &Book, name: &'static str, tally: &mut Tally) {
        for &(p, i, q) in &self.clashes {
            let clash = book.clashes(p as usize, i as usize, q as usize);
            tally.add(name, if clash { "clash yes" } else { "clash no" });
        }
        tally.add(name, "flat");
        tally.add(name, format!("read {}", study.outcome(&self.chart, &self.listing).answer.name()));
        if self.tries.iter().any(|(text, listing)| judge(&study.book, text, listing) == Ok(Judgement::Right)) {
            tally.add(name, "a right listing");
        }
    }
}

/// Every call with both books.
pub fn both(pair: &Pair, study: &Study, dice: &mut Dice, tally: &mut Tally) -> Outcome {
    let asks = Asks::new(pair, study, dice);
    for bytes in [&pair.case.book[..], pair.other] {
        asks.ask(bytes, study, dice, tally)?;
    }
    match &study.book {
        Ok(book) => asks.note(study, book, pair.name, tally),
        Err(refused) => tally.add(pair.name, refused_name(refused)),
    }
    Ok(())
}
