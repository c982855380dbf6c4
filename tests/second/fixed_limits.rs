//! Sheets at their limits, worked by hand from request [4] of 02: what is refused, in which order, and each limit from both
//! sides; and the viewer's numbers.

use crate::compare::Mismatch;
use crate::fixed_pages::row;
use crate::fixed_sheets::{all_calls, by_hand, circle, feeds, letter, nothing, same_sheet, tell, worked, xs, Hand, Worked};
use crate::prng::Dice;
use crate::sheet_calls::Asked;
use crate::sheets::Sheet;
use crate::tally::Tally;

/// Summaries of other lengths than the lines call for.
fn summaries() -> Vec<Worked> {
    let of = |name, sheet: &[u8], chart, summary, hand: Hand| worked(name, letter(), sheet, chart, summary, hand);
    vec![
        of("no line, a longer summary", b"", 20, 3, Ok(&[])),
        of("one line, one byte more", b"a", 20, 2, Ok(&[1])),
        of("two lines, many bytes more", b"a\n\n", 20, 50, Ok(&[1, 0])),
        of("one line, no summary", b"a", 20, 0, Err((26, 1))),
        of("one empty line, no summary", b"\n", 20, 0, Err((26, 1))),
        of("two lines, one byte", b"a\na", 20, 1, Err((26, 2))),
        of("two lines and a feed, one byte", b"a\na\n", 20, 1, Err((26, 2))),
        of("two feeds, one byte", b"\n\n", 20, 1, Err((26, 2))),
        of("three lines, two bytes", b"a\n\na", 20, 2, Err((26, 3))),
        of("three lines, no summary", b"a\n\na", 20, 0, Err((26, 3))),
        // No line is read, so none is refused.
        of("a short summary and no chart", b"a\na", 0, 1, Err((26, 2))),
        of("a short summary and a line of 201", &[&xs(201)[..], b"\na"].concat(), 0, 1, Err((26, 2))),
    ]
}

/// Sheets of 65,535 bytes and of more.
fn large() -> Vec<Worked> {
    let of_feeds = |name, count, chart, summary, hand: Hand| worked(name, nothing(), &feeds(count), chart, summary, hand);
    let of_xs = |name, count, chart, summary, hand: Hand| worked(name, row(), &xs(count), chart, summary, hand);
    let last_line = [feeds(65_534), xs(1)].concat();
    vec![
        of_feeds("65,535 feeds", 65_535, 1, 65_535, Ok(&[1; 65_535])),
        of_feeds("65,535 feeds, one byte short", 65_535, 9, 65_534, Err((26, 65_535))),
        worked("65,534 feeds and a line, one byte short", letter(), &last_line, 9, 65_534, Err((26, 65_535))),
        of_feeds("65,536 feeds", 65_536, 9, 65_536, Err((25, 65_536))),
        of_feeds("65,536 feeds, one byte short", 65_536, 9, 65_535, Err((25, 65_536))),
        of_feeds("65,536 feeds, nothing lent", 65_536, 0, 0, Err((25, 65_536))),
        of_feeds("131,072 feeds", 131_072, 9, 10, Err((25, 131_072))),
        of_xs("a line of 65,535 bytes", 65_535, 40, 1, Ok(&[3])),
        of_xs("a line of 65,535 bytes, no summary", 65_535, 40, 0, Err((26, 1))),
        of_xs("a line of 65,536 bytes", 65_536, 40, 1, Err((25, 65_536))),
    ]
}

/// Bad books, with all else wrong too.
fn bad_books() -> Vec<Worked> {
    let of = |name, book, sheet: &[u8], chart, summary, hand| worked(name, book, sheet, chart, summary, Err(hand));
    let equal = vec![1, 2, 0, 0, 0, 0, 0, 0, 0, 0];
    vec![
        of("a circle", circle(), b"8", 30, 1, (9, 1)),
        of("a circle and no line", circle(), b"", 30, 0, (9, 1)),
        of("a circle and no summary", circle(), b"8", 30, 0, (9, 1)),
        of("a circle and no chart", circle(), b"8", 0, 1, (9, 1)),
        of("a circle and all else", circle(), &feeds(65_536), 0, 0, (9, 1)),
        of("equal rules and all else", equal, &feeds(70_000), 0, 0, (8, 9)),
        of("no book and all else", vec![], &feeds(65_536), 0, 0, (1, 0)),
        of("no sort and all else", vec![0, 1, 0, 0, 0, 0], &xs(65_536), 0, 0, (2, 0)),
        of("a byte too many and no summary", [letter(), vec![0]].concat(), b"a", 20, 0, (4, 12)),
    ]
}

/// A sheet for the book of one `a`, a summary's length, and the viewer's number and the place by hand.
fn numbers() -> Vec<(Vec<u8>, usize, (u64, u64))> {
    vec![
        (vec![], 0, (1, 0)),
        (b"a".to_vec(), 1, (5, 0)),
        (b"a\n\n".to_vec(), 2, (9, 0)),
        // A line that is refused refuses nothing else.
        (xs(201), 1, (5, 0)),
        (b"a".to_vec(), 0, (107, 1)),
        (b"a\n\na".to_vec(), 2, (107, 3)),
        (xs(65_535), 1, (5, 0)),
        (xs(65_536), 1, (103, 65_536)),
    ]
}

/// The viewer's number and the place by hand.
fn same_numbers(dice: &mut Dice, tally: &mut Tally) -> Result<(), Mismatch> {
    let book = letter();
    for (sheet, summary, hand) in numbers() {
        let (chart, summary) = (dice.garbage(20), dice.garbage(summary));
        let mut asked = Asked::new(Sheet { book: &book, bytes: &sheet, chart: &chart, summary: &summary });
        by_hand("number", hand, asked.after.packed(), tally)
            .and_then(|_| all_calls(&mut asked, dice))
            .map_err(|wrong| tell(&asked, "its number", wrong))?;
    }
    Ok(())
}

/// All of these sheets.
pub fn run(dice: &mut Dice, tally: &mut Tally) -> Result<(), Mismatch> {
    for case in [summaries(), large(), bad_books()].iter().flatten() {
        same_sheet(case, dice, tally)?;
    }
    same_numbers(dice, tally)
}
