//! Comparing the library's page for the binder, and the text under a number, with what request [1] says.

use crate::book::{Book, Refusal};
use crate::compare::{same_bytes, same_number, Given, Mismatch};
use crate::library::{self, Lent, Make};
use crate::numerals::Meant;
use crate::others::{odd_number, packed, refused_name, some_room, written, Outcome};
use crate::pages::{self, Line, Lines, LINE_LENGTH, NOT_RIGHT, PAGE_SHORT, SHOWN};
use crate::prng::Dice;
use crate::tally::Tally;

/// Most listings here are not right, so only so many in a hundred of these are asked for a page, to save time.
const WRONG_PERCENT: usize = 10;
/// A listing that has no page gets a buffer for no more lines than this, to save time.
const MOST_LINES: usize = 100;
/// The text under each number of a right listing is asked for if it has no more than `FEW`, else under `SOME`.
const FEW: usize = 40;
const SOME: usize = 10;

/// A listing, lent, and what request [1] makes of it.
pub struct Asked<'a> {
    given: Given<'a>,
    lent: [Lent; 3],
    lines: Lines,
}

/// What of a page is easily got wrong.
fn note_lines(lines: &[Line], tally: &mut Tally) {
    let length = lines[0].end();
    let met = [
        (lines.iter().any(|l| l.spelled.is_empty() && 0 < l.start && l.start < length), "an empty text in the middle"),
        (length > SHOWN, "a text over 54 bytes"),
        (lines.iter().any(Line::has_full_stop), "a byte as a full stop"),
        (lines.iter().any(|l| l.depth >= 100), "a depth of 100 or more"),
    ];
    for (_, name) in met.iter().filter(|m| m.0) {
        tally.add("page with", *name);
    }
}

fn part_name(lines: &Lines, index: usize) -> String {
    match lines {
        Ok(all) if index >= all.len() => "beyond the listing".into(),
        Ok(all) if all[index].spelled.is_empty() => "empty".into(),
        Ok(_) => "some bytes".into(),
        Err(refused) => refused_name(refused),
    }
}

impl<'a> Asked<'a> {
    pub fn new(given: Given<'a>, lines: Lines, dice: &mut Dice) -> Asked<'a> {
        Asked { given, lent: given.lend(dice), lines }
    }

    /// How many numbers the listing has, right or not.
    fn count(&self) -> usize {
        self.given.listing.len() / 2
    }

    /// The answer over a page buffer, and what it holds afterwards.
    pub fn written(&self, before: &[u8]) -> (Result<u64, Refusal>, Vec<u8>) {
        let page = self.lines.as_deref().map(pages::page).map_err(|r| *r);
        written(page.as_deref().map_err(|r| *r), before, PAGE_SHORT)
    }

    /// Both makes of the page, over this buffer.
    pub fn page_over(&mut self, before: &[u8], dice: &mut Dice, tally: &mut Tally) -> Outcome {
        let (answer, after) = self.written(before);
        tally.add("page", answer.as_ref().map_or_else(refused_name, |_| "written".into()));
        let mut meant = None;
        if let (Ok(lines), Ok(_)) = (&self.lines, &answer) {
            note_lines(lines, tally);
            meant = Some(Meant::in_page(lines));
        }
        let (number, place) = packed(answer);
        for (make, call, expected) in [(Make::Number, "meadowsink_page", number), (Make::Place, "meadowsink_page_place", place)] {
            let mut page = Lent::new(before, dice);
            let [b, t, l] = &mut self.lent;
            let found = library::page(make, b, t, l, &mut page);
            same_number(call, expected, found)
                .and_then(|_| meant.as_ref().map_or(Ok(()), |numerals| numerals.read(call, number / 4, &page, tally)))
                .and_then(|_| same_bytes(call, "page buffer", &after, &page))
                .and_then(|_| self.given.stayed(call, &self.lent))
                .map_err(|mut wrong| {
                    wrong.lent.push(("page buffer before", before.to_vec()));
                    self.given.tell(wrong)
                })?;
        }
        Ok(())
    }

    /// The text under the numbers at these indexes. No page buffer is lent, so 24 never comes up.
    pub fn texts_under(&mut self, indexes: &[usize], tally: &mut Tally) -> Outcome {
        for &index in indexes {
            tally.add("text_under", part_name(&self.lines, index));
            let (start, end) = pages::part(&self.lines, index);
            let expected = 256 * start as u64 + end as u64;
            let [b, t, l] = &mut self.lent;
            let found = library::text_under(b, t, l, index);
            if found != expected {
                let show = |n: u64| format!("{n} (as 256 * start + end: start {}, end {})", n / 256, n % 256);
                let call = format!("meadowsink_text_under, index = {index}");
                return Err(self.given.tell(Mismatch { call, expected: show(expected), found: show(found), lent: vec![] }));
            }
        }
        self.given.stayed("meadowsink_text_under", &self.lent).map_err(|wrong| self.given.tell(wrong))
    }

    /// Indexes that the listing doesn't have, or that it would have if their high bits were lost.
    pub fn beyond(&self, dice: &mut Dice) -> [usize; 3] {
        let good = dice.below(self.count()) as u64;
        [self.count(), odd_number(dice, good, self.count() as u64) as usize, usize::MAX]
    }

    /// Every index of a short listing that has a page, some of a longer one, and one beyond; mostly one index of another
    /// listing, since nothing is under any of its numbers.
    fn some_indexes(&self, dice: &mut Dice) -> Vec<usize> {
        let count = self.count();
        let all_beyond = self.beyond(dice);
        let beyond = dice.pick(&all_beyond);
        if self.lines.is_err() && dice.chance(90) {
            return vec![if dice.chance(70) { dice.below(count) } else { beyond }];
        }
        let within: Vec<usize> = match count <= FEW {
            true => (0..count).collect(),
            false => (1..SOME).map(|_| dice.below(count)).chain([count - 1]).collect(),
        };
        within.into_iter().chain([beyond]).collect()
    }
}

/// The page over some buffer, and the text under some numbers; of most listings that are not right nothing.
pub fn all(given: Given, book: &Result<Book, Refusal>, dice: &mut Dice, tally: &mut Tally) -> Outcome {
    let lines = pages::lines(book, given.text, given.listing);
    if lines.as_ref().is_err_and(|refused| refused.number == NOT_RIGHT) && !dice.chance(WRONG_PERCENT) {
        return Ok(());
    }
    let mut asked = Asked::new(given, lines, dice);
    let most = if asked.lines.is_ok() { asked.count() } else { MOST_LINES };
    let room = some_room(dice, LINE_LENGTH * asked.count().min(most));
    let before = dice.garbage(room);
    asked.page_over(&before, dice, tally)?;
    let indexes = asked.some_indexes(dice);
    asked.texts_under(&indexes, tally)
}
