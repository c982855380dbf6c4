//! Random sheets through every call that is about them.

use crate::cases::Case;
use crate::others::Outcome;
use crate::prng::Dice;
use crate::reading::Study;
use crate::sheet_calls::Asked;
use crate::sheet_notes::{note, note_step};
use crate::sheet_plans::{chart_length, some_sheet, some_starts, summary_length};
use crate::sheets::Sheet;
use crate::tally::Tally;

/// One accepted book in so many gets a sheet, to save time.
const ONE_IN: usize = 4;

/// The whole sheet, the walker down it, steps from some starts, and each line alone.
fn all(asked: &mut Asked, starts: &[usize], dice: &mut Dice, tally: &mut Tally) -> Outcome {
    asked.own()?;
    asked.whole(dice)?;
    asked.walk(dice)?;
    for &start in starts {
        let step = asked.step(start, dice)?;
        note_step(asked.sheet.bytes, start, step, tally);
    }
    asked.alone(dice)
}

/// A sheet for the book of the case: for each book that is refused, since that takes no time, and for some others.
pub fn perhaps(case: &Case, study: &Study, dice: &mut Dice, tally: &mut Tally) -> Outcome {
    if study.book.is_ok() && dice.below(ONE_IN) > 0 {
        return Ok(());
    }
    let bytes = some_sheet(dice, &study.book);
    let chart_size = chart_length(dice, &study.book, &bytes);
    let summary_size = summary_length(dice, &bytes);
    let (chart, summary) = (dice.garbage(chart_size), dice.garbage(summary_size));
    let starts = some_starts(dice, &bytes);
    let mut asked = Asked::new(Sheet { book: &case.book, bytes: &bytes, chart: &chart, summary: &summary });
    note(&asked, tally);
    all(&mut asked, &starts, dice, tally).map_err(|wrong| asked.tell(wrong))
}
