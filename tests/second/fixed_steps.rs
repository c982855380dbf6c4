//! A walker's steps worked by hand from request [4] of 02: from each place of a sheet, past its end, and what is refused.

use crate::book::Refusal;
use crate::compare::Mismatch;
use crate::fixed_pages::row;
use crate::fixed_sheets::{by_hand, circle, feeds, letter, nothing, tell, xs};
use crate::prng::Dice;
use crate::sheet_calls::Asked;
use crate::sheets::{Sheet, Step};
use crate::tally::Tally;

/// A book, a sheet, the chart's length, and steps by hand: the start, and what comes.
struct Walked {
    name: &'static str,
    book: Vec<u8>,
    sheet: Vec<u8>,
    chart: usize,
    steps: Vec<(usize, Step)>,
}

/// The start that has only its highest bit.
const HIGHEST: usize = 1 << 63;

/// A sheet with a chart of this length, and its steps.
fn walked(name: &'static str, book: Vec<u8>, sheet: &[u8], chart: usize, steps: &[(usize, Step)]) -> Walked {
    Walked { name, book, sheet: sheet.to_vec(), chart, steps: steps.to_vec() }
}

/// A line with this byte, and the next line's start.
fn line(next: usize, byte: u8) -> Step {
    Step::Line { next, byte }
}

/// A refusal of the step.
fn refused(number: u64, place: u64) -> Step {
    Step::Refused(Refusal { number, place })
}

/// Every start of short sheets, by the book of one `a`.
fn short() -> Vec<Walked> {
    let of = |name, sheet: &[u8], chart, steps: &[(usize, Step)]| walked(name, letter(), sheet, chart, steps);
    let none = Step::NoLine;
    let far = [HIGHEST, HIGHEST + 1, usize::MAX - 1, usize::MAX, 1 << 32, (1 << 32) + 1, 65_536].map(|start| (start, none));
    vec![
        of("empty", b"", 20, &[(0, none), (1, none), (2, none), (usize::MAX, none)]),
        of("a feed", b"\n", 20, &[(0, line(1, 0)), (1, none), (2, none)]),
        of("a", b"a", 20, &[(0, line(1, 1)), (1, none), (2, none)]),
        of("a, feed", b"a\n", 20, &[(0, line(2, 1)), (1, line(2, 0)), (2, none), (3, none)]),
        of("two feeds", b"\n\n", 20, &[(0, line(1, 0)), (1, line(2, 0)), (2, none), (3, none)]),
        of("feed, a", b"\na", 20, &[(0, line(1, 0)), (1, line(2, 1)), (2, none), (3, none)]),
        // Inside `aa` the rest is one `a`, and on the feed behind it an empty line.
        of("aa, feed, a", b"aa\na", 20, &[(0, line(3, 0)), (1, line(3, 1)), (2, line(3, 0)), (3, line(4, 1)), (4, none)]),
        of("aa, feed", b"aa\n", 20, &[(0, line(3, 0)), (1, line(3, 1)), (2, line(3, 0)), (3, none), (4, none)]),
        of("aa", b"aa", 20, &[(0, line(2, 0)), (1, line(2, 1)), (2, none), (3, none)]),
        of("aa, with 11", b"aa\n", 11, &[(0, line(3, 3)), (1, line(3, 1)), (2, line(3, 0)), (3, none)]),
        of("aa, no chart", b"aa\n", 0, &[(0, line(3, 3)), (1, line(3, 3)), (2, line(3, 3)), (3, none)]),
        of("aaa, with 12", b"aaa", 12, &[(0, line(3, 3)), (1, line(3, 0)), (2, line(3, 1)), (3, none)]),
        of("starts far away", b"aa\na", 20, &far),
    ]
}

/// Starts in lines of 200 bytes and more, by a row: the chart for 200 bytes has 81,204, for 201 bytes 82,012.
fn long() -> Vec<Walked> {
    let of = |name, sheet: &[u8], chart, steps: &[(usize, Step)]| walked(name, row(), sheet, chart, steps);
    let two = [xs(202), xs(1)].join(&b'\n');
    vec![
        of("201 bytes", &xs(201), 82_012, &[(0, line(201, 3)), (1, line(201, 1)), (2, line(201, 1)), (201, Step::NoLine)]),
        of("201 bytes, one short", &xs(201), 81_203, &[(0, line(201, 3)), (1, line(201, 3)), (2, line(201, 1))]),
        of("202 bytes, feed, one", &two, 81_204, &[(0, line(203, 3)), (1, line(203, 3)), (2, line(203, 1)), (202, line(203, 1))]),
        of("behind 202 bytes", &two, 12, &[(201, line(203, 1)), (200, line(203, 3)), (203, line(204, 1)), (204, Step::NoLine)]),
    ]
}

/// The longest sheets, and those that are longer.
fn large() -> Vec<Walked> {
    let of = |name, sheet: &[u8], steps: &[(usize, Step)]| walked(name, nothing(), sheet, 3, steps);
    let none = Step::NoLine;
    let long = refused(25, 65_536);
    let bytes = [(0, line(65_535, 3)), (65_334, line(65_535, 3)), (65_534, line(65_535, 0)), (65_535, none), (65_536, none)];
    let too_long = [0, 1, 65_534, 65_535, 65_536, 65_537, HIGHEST, usize::MAX].map(|start| (start, long));
    vec![
        of("65,535 feeds", &feeds(65_535), &[(0, line(1, 1)), (32_767, line(32_768, 1)), (65_534, line(65_535, 1))]),
        of("behind 65,535 feeds", &feeds(65_535), &[(65_535, none), (65_536, none), (HIGHEST, none), (usize::MAX, none)]),
        of("65,535 bytes", &xs(65_535), &bytes),
        of("65,536 feeds", &feeds(65_536), &too_long),
        of("65,536 bytes", &xs(65_536), &too_long),
    ]
}

/// Bad books, with all else wrong too.
fn bad_books() -> Vec<Walked> {
    let of = |name, book, length, step: Step| {
        let steps = [0, 1, length, length + 1, HIGHEST, usize::MAX].map(|start| (start, step));
        walked(name, book, &xs(length), 0, &steps)
    };
    vec![
        of("a circle", circle(), 5, refused(9, 1)),
        of("a circle and an empty sheet", circle(), 0, refused(9, 1)),
        of("a circle and 65,536 bytes", circle(), 65_536, refused(9, 1)),
        of("no book", vec![], 5, refused(1, 0)),
        of("no book and 65,536 bytes", vec![], 65_536, refused(1, 0)),
        of("a byte too many", [letter(), vec![0]].concat(), 5, refused(4, 12)),
    ]
}

/// Charts after a step by the book of one `a`, of nines before: the sheet, the start, and the chart by hand.
fn charts() -> Vec<(&'static [u8], usize, &'static [u8])> {
    vec![
        (b"aa\na", 0, &[1, 0, 0, 1, 0, 1, 0, 1, 0, 0, 1, 0, 9]),
        (b"aa\na", 1, &[1, 0, 1, 0, 1, 0, 9, 9, 9, 9, 9, 9, 9]),
        (b"aa\na", 2, &[1, 0, 9, 9, 9, 9, 9, 9, 9, 9, 9, 9, 9]),
        (b"ab\na", 1, &[1, 0, 1, 0, 0, 0, 9, 9, 9, 9, 9, 9, 9]),
        (b"aa\na", 3, &[1, 0, 1, 0, 1, 0, 9, 9, 9, 9, 9, 9, 9]),
        (b"aa\na", 4, &[9, 9, 9, 9, 9, 9, 9, 9, 9, 9, 9, 9, 9]),
        (b"aa\na", HIGHEST, &[9, 9, 9, 9, 9, 9, 9, 9, 9, 9, 9, 9, 9]),
        // Too short for `aa`, long enough for its rest.
        (b"aa\na", 0, &[9, 9, 9, 9, 9, 9, 9, 9, 9, 9, 9]),
        (b"aa\na", 1, &[1, 0, 1, 0, 1, 0, 9, 9, 9, 9, 9]),
    ]
}

/// Steps, with the viewer's number and the place by hand.
fn numbers() -> Vec<(Step, (u64, u64))> {
    vec![
        (Step::NoLine, (0, 0)),
        (line(1, 0), (17, 0)),
        (line(3, 1), (53, 0)),
        (line(3, 2), (57, 0)),
        (line(201, 3), (3229, 0)),
        (line(65_535, 3), (1_048_573, 0)),
        (refused(9, 1), (39, 1)),
        (refused(25, 65_536), (103, 65_536)),
    ]
}

/// The steps of this program against those by hand, and the library's against them.
fn same_steps(case: &Walked, dice: &mut Dice, tally: &mut Tally) -> Result<(), Mismatch> {
    let chart = dice.garbage(case.chart);
    let mut asked = Asked::new(Sheet { book: &case.book, bytes: &case.sheet, chart: &chart, summary: &[] });
    for &(start, hand) in &case.steps {
        let own = crate::sheets::step(&case.sheet, start, &mut asked.reader, &mut chart.clone());
        by_hand("step", hand, own, tally)
            .and_then(|_| asked.step(start, dice))
            .map_err(|wrong| tell(&asked, &format!("{}, start {start}", case.name), wrong))?;
    }
    Ok(())
}

/// The chart after a step by hand.
fn same_chart(sheet: &[u8], start: usize, hand: &[u8], dice: &mut Dice, tally: &mut Tally) -> Result<(), Mismatch> {
    let (book, mut chart) = (letter(), vec![9; hand.len()]);
    let before = chart.clone();
    let mut asked = Asked::new(Sheet { book: &book, bytes: sheet, chart: &before, summary: &[] });
    crate::sheets::step(sheet, start, &mut asked.reader, &mut chart);
    by_hand("chart of a step", hand, &chart[..], tally)
        .and_then(|_| asked.step(start, dice))
        .map_err(|wrong| tell(&asked, &format!("a step from {start}"), wrong))?;
    Ok(())
}

/// All of these steps.
pub fn run(dice: &mut Dice, tally: &mut Tally) -> Result<(), Mismatch> {
    for case in [short(), long(), large(), bad_books()].iter().flatten() {
        same_steps(case, dice, tally)?;
    }
    for (step, hand) in numbers() {
        by_hand("number of a step", hand, step.packed(), tally)?;
    }
    for (sheet, start, hand) in charts() {
        same_chart(sheet, start, hand, dice, tally)?;
    }
    Ok(())
}
