//! Sheets worked by hand from request [4] of 02: where lines begin and end, their bytes in the summary, and the chart from line
//! to line.

use crate::book::Refusal;
use crate::compare::Mismatch;
use crate::fixed::{book_t, huge, T};
use crate::fixed_pages::row;
use crate::prng::Dice;
use crate::sheet_calls::Asked;
use crate::sheets::{lines, Sheet};
use crate::tally::Tally;

/// An answer by hand: a byte for each line, or a refusal's number and place.
pub type Hand<'a> = Result<&'a [u8], (u64, u64)>;

/// A sheet, the lengths of the lent chart and summary, and the answer by hand.
pub struct Worked {
    name: &'static str,
    book: Vec<u8>,
    sheet: Vec<u8>,
    chart: usize,
    summary: usize,
    hand: Result<Vec<u8>, (u64, u64)>,
}

/// No walk goes down more lines than this, to save time.
const MOST_WALKED: usize = 1000;
/// A step is taken from every place of a sheet that has no more bytes than this.
const SHORT: usize = 20;

/// One `a`, and nothing else: a line of n bytes needs (n + 1) * (n + 2) bytes of the chart, so 2, 6, 12, 20.
pub fn letter() -> Vec<u8> {
    vec![1, 1, 1, 0, 0, 0, 1, 1, 0, 64, 97, 97]
}

/// One rule without arguments: an empty line is one, any other none. A chart of n bytes' line has (n + 1) * (n + 2) / 2 bytes.
pub fn nothing() -> Vec<u8> {
    vec![1, 1, 0, 0, 0, 0, 0, 0]
}

/// (j) of 01: an 8, round and round.
fn round_8() -> Vec<u8> {
    vec![1, 2, 1, 0, 0, 0, 1, 1, 1, 0, 64, 0, 0, 56, 56]
}

/// (h) of 01: a circle, refused by 9 with place 1.
pub fn circle() -> Vec<u8> {
    book_t(&[[1, 1, 2], [1, 2, 1]])
}

/// So many feeds.
pub fn feeds(count: usize) -> Vec<u8> {
    vec![b'\n'; count]
}

/// So many times `x`, which a row reads in one way.
pub fn xs(length: usize) -> Vec<u8> {
    vec![b'x'; length]
}

/// A sheet with these lengths and this answer.
pub fn worked(name: &'static str, book: Vec<u8>, sheet: &[u8], chart: usize, summary: usize, hand: Hand) -> Worked {
    Worked { name, book, sheet: sheet.to_vec(), chart, summary, hand: hand.map(|bytes| bytes.to_vec()) }
}

/// A sheet with a byte for each line by hand, and a summary just long enough.
fn read(name: &'static str, book: Vec<u8>, sheet: &[u8], chart: usize, bytes: &[u8]) -> Worked {
    worked(name, book, sheet, chart, bytes.len(), Ok(bytes))
}

/// Where lines begin and end, in the book of one `a` with a chart that is long enough for three bytes.
fn ends() -> Vec<Worked> {
    let of = |name, sheet: &[u8], bytes: &[u8]| read(name, letter(), sheet, 20, bytes);
    vec![
        of("empty", b"", &[]),
        of("a feed", b"\n", &[0]),
        of("a", b"a", &[1]),
        of("a, feed", b"a\n", &[1]),
        of("two feeds", b"\n\n", &[0, 0]),
        of("feed, a", b"\na", &[0, 1]),
        of("feed, a, feed", b"\na\n", &[0, 1]),
        of("a, two feeds", b"a\n\n", &[1, 0]),
        of("a, feed, a", b"a\na", &[1, 1]),
        of("a, feed, a, feed", b"a\na\n", &[1, 1]),
        of("a, two feeds, a", b"a\n\na", &[1, 0, 1]),
        of("three feeds", b"\n\n\n", &[0, 0, 0]),
        of("two lines that are none, then one", b"b\naa\na", &[0, 0, 1]),
        of("no feed but 10", b"a\r\na\x0b\na\x09\na\0\n\x8aa", &[0, 0, 0, 0, 0]),
        of("a return alone", b"a\ra", &[0]),
    ]
}

/// Each byte of a summary, by several books.
fn verdicts() -> Vec<Worked> {
    vec![
        read("T", book_t(&T), b"8/4*2\n8\n\n8/\n2*4", 210, &[1, 1, 0, 0, 1]),
        read("T without ranks", book_t(&[]), b"8/4*2\n8\n\n8/\n2*4\n", 210, &[2, 1, 0, 0, 1]),
        read("round and round", round_8(), b"8\n\n88\n8", 24, &[2, 0, 0, 2]),
        read("nothing", nothing(), b"\n\na\n\n", 3, &[1, 1, 0, 1]),
        read("255 lines", letter(), &b"a\n".repeat(255), 20, &[1; 255]),
        read("256 lines", letter(), &b"a\n".repeat(256), 20, &[1; 256]),
        read("256 lines, then one", letter(), &[&feeds(256)[..], b"a"].concat(), 20, &[&[0; 256][..], &[1]].concat()),
        // The class has byte 10 too, and the text of three bytes is one.
        read("a row over a feed", row(), b"x\ny", 40, &[1, 1]),
        read("a row, empty lines", row(), b"\n\nx\n", 40, &[1, 1, 1]),
        // 1 + 31 * 9 entries for an empty line, three times as many for one byte; the listing has over 8 to the 31 numbers.
        read("the longest listing", huge().bytes(), b"\nx\n\n", 840, &[1, 0, 1]),
        read("the longest listing, a short chart", huge().bytes(), b"\nx\n\n", 280, &[1, 3, 1]),
        read("the longest listing, a shorter chart", huge().bytes(), b"\nx\n\n", 279, &[3, 3, 3]),
    ]
}

/// Lines of 200 and 201 bytes: a row needs 2 * (n + 1) * (n + 2) bytes, so 81,204 and 82,012.
fn long_lines() -> Vec<Worked> {
    let of = |name, lines: &[Vec<u8>], chart, bytes: &[u8]| read(name, row(), &lines.join(&b'\n'), chart, bytes);
    vec![
        of("200 bytes", &[xs(200)], 81_204, &[1]),
        of("200 bytes, feed", &[xs(200), vec![]], 81_204, &[1]),
        of("200 bytes, chart one short", &[xs(200)], 81_203, &[3]),
        of("201 bytes, chart for 200", &[xs(201)], 81_204, &[3]),
        of("201 bytes, chart for 201", &[xs(201)], 82_012, &[3]),
        of("201 bytes, feed, chart for 201", &[xs(201), vec![]], 82_012, &[3]),
        of("200, 201, 1", &[xs(200), xs(201), xs(1)], 90_000, &[1, 3, 1]),
        of("201, 200, 201", &[xs(201), xs(200), xs(201)], 90_000, &[3, 1, 3]),
        of("1, 456, 0, 1, small chart", &[xs(1), xs(456), vec![], xs(1)], 12, &[1, 3, 1, 1]),
        of("199, 200, chart for 199", &[xs(199), xs(200)], 80_400, &[1, 3]),
    ]
}

/// Charts that are long enough for some lines only, before and behind a longer line.
fn short_charts() -> Vec<Worked> {
    let of = |name, sheet: &[u8], chart, bytes: &[u8]| read(name, letter(), sheet, chart, bytes);
    vec![
        of("aa with 11", b"aa\na", 11, &[3, 1]),
        of("aa with 12", b"aa\na", 12, &[0, 1]),
        of("aa behind, with 11", b"a\naa", 11, &[1, 3]),
        of("aa behind, with 12", b"a\naa\n", 12, &[1, 0]),
        of("aa in the middle, with 11", b"a\naa\na\n", 11, &[1, 3, 1]),
        of("a with 5", b"a\n\na", 5, &[3, 0, 3]),
        of("a with 6", b"a\n\na", 6, &[1, 0, 1]),
        of("empty with 1", b"\na\n", 1, &[3, 3]),
        of("empty with 2", b"\na\n", 2, &[0, 3]),
        of("no chart", b"a\n\naa", 0, &[3, 3, 3]),
        of("no chart and no line", b"", 0, &[]),
        // Case (k) of 01.
        read("T with 209", book_t(&T), b"8\n8/4*2\n8", 209, &[1, 3, 1]),
        read("T with 210", book_t(&T), b"8\n8/4*2\n8", 210, &[1, 1, 1]),
        read("T with 29", book_t(&T), b"8\n\n8/4*2\n", 29, &[3, 0, 3]),
    ]
}

/// A book, a sheet, a summary's length, and the chart by hand, of nines before.
type Charted = (Vec<u8>, &'static [u8], usize, &'static [u8]);

/// Charts after a sheet, over several lines, and where a line or the sheet is refused.
fn charts() -> Vec<Charted> {
    vec![
        (letter(), b"", 0, &[9, 9, 9]),
        (letter(), b"a", 1, &[1, 0, 1, 0, 1, 0, 9]),
        (letter(), b"b\n", 1, &[1, 0, 1, 0, 0, 0, 9]),
        (letter(), b"aa", 1, &[1, 0, 0, 1, 0, 1, 0, 1, 0, 0, 1, 0, 9, 9]),
        // The first six are those of `a`, the next six are left from `aa`.
        (letter(), b"aa\na", 2, &[1, 0, 1, 0, 1, 0, 0, 1, 0, 0, 1, 0, 9, 9]),
        (letter(), b"a\naa", 2, &[1, 0, 0, 1, 0, 1, 0, 1, 0, 0, 1, 0, 9, 9]),
        // Too short for `aa`, which leaves it as it was.
        (letter(), b"aa\na", 2, &[1, 0, 1, 0, 1, 0, 9, 9, 9, 9, 9]),
        (letter(), b"a\naa\n", 2, &[1, 0, 1, 0, 1, 0, 9, 9, 9, 9, 9]),
        (letter(), b"aa\naa\n", 2, &[9, 9, 9, 9, 9, 9, 9, 9, 9, 9, 9]),
        (letter(), b"aa\n\nab", 3, &[1, 0, 9, 9, 9, 9, 9, 9, 9, 9, 9]),
        // Refused by 26.
        (letter(), b"a\na", 1, &[9, 9, 9, 9, 9, 9, 9]),
        (letter(), b"a", 0, &[9, 9, 9, 9, 9, 9]),
        (row(), b"x", 1, &[1, 0, 1, 0, 1, 0, 0, 1, 0, 1, 0, 1]),
        (row(), b"\nx", 2, &[1, 0, 1, 0, 1, 0, 0, 1, 0, 1, 0, 1]),
        // The first four are those of the empty line.
        (row(), b"x\n\n", 2, &[1, 0, 0, 1, 1, 0, 0, 1, 0, 1, 0, 1]),
        (round_8(), b"8", 1, &[1, 0, 1, 0, 1, 0, 1, 0, 1, 0, 2, 0]),
        (round_8(), b"8\n9", 2, &[1, 0, 1, 0, 0, 0, 1, 0, 1, 0, 0, 0]),
        (circle(), b"8", 1, &[9; 30]),
    ]
}

/// This program's answer against the one by hand.
pub fn by_hand<A: PartialEq + std::fmt::Debug>(what: &str, hand: A, own: A, tally: &mut Tally) -> Result<(), Mismatch> {
    if own != hand {
        let call = format!("worked {what} (this program against the hand)");
        return Err(Mismatch { call, expected: format!("{hand:?}"), found: format!("{own:?}"), lent: vec![] });
    }
    tally.add("fixed", "worked by hand");
    Ok(())
}

/// A mismatch with the name of its case, its book and what is lent.
pub fn tell(asked: &Asked, name: &str, mut wrong: Mismatch) -> Mismatch {
    wrong.call = format!("worked sheet, {name}: {}", wrong.call);
    wrong.lent.push(("book", asked.sheet.book.to_vec()));
    asked.tell(wrong)
}

/// Every call with a sheet; no walk down one of very many lines, and steps from every place of a short one.
pub fn all_calls(asked: &mut Asked, dice: &mut Dice) -> Result<(), Mismatch> {
    asked.own()?;
    asked.whole(dice)?;
    if lines(asked.sheet.bytes).len() > MOST_WALKED {
        return Ok(());
    }
    asked.walk(dice)?;
    asked.alone(dice)?;
    let length = asked.sheet.bytes.len();
    for start in (0..length + 3).filter(|_| length <= SHORT) {
        asked.step(start, dice)?;
    }
    Ok(())
}

/// The bytes of a summary by hand are its first; those beyond stay, and all of them by a refusal.
pub fn same_sheet(case: &Worked, dice: &mut Dice, tally: &mut Tally) -> Result<(), Mismatch> {
    let (chart, summary) = (dice.garbage(case.chart), dice.garbage(case.summary));
    let mut asked = Asked::new(Sheet { book: &case.book, bytes: &case.sheet, chart: &chart, summary: &summary });
    let hand = case.hand.as_ref().map(|bytes| bytes.len() as u64).map_err(|&(number, place)| Refusal { number, place });
    let first = case.hand.as_ref().map_or(&[][..], |bytes| &bytes[..]);
    let hand_summary = [first, &summary[first.len()..]].concat();
    by_hand("answer", hand, asked.after.answer, tally)
        .and_then(|_| by_hand("summary", &hand_summary, &asked.after.summary, tally))
        .and_then(|_| all_calls(&mut asked, dice))
        .map_err(|wrong| tell(&asked, case.name, wrong))
}

/// The chart by hand.
fn same_chart((book, sheet, summary, hand): Charted, dice: &mut Dice, tally: &mut Tally) -> Result<(), Mismatch> {
    let (chart, summary) = (vec![9; hand.len()], dice.garbage(summary));
    let mut asked = Asked::new(Sheet { book: &book, bytes: sheet, chart: &chart, summary: &summary });
    by_hand("chart", hand, &asked.after.chart[..], tally)
        .and_then(|_| all_calls(&mut asked, dice))
        .map_err(|wrong| tell(&asked, "its chart", wrong))
}

/// All of these sheets.
pub fn run(dice: &mut Dice, tally: &mut Tally) -> Result<(), Mismatch> {
    for case in [ends(), verdicts(), long_lines(), short_charts()].iter().flatten() {
        same_sheet(case, dice, tally)?;
    }
    for case in charts() {
        same_chart(case, dice, tally)?;
    }
    Ok(())
}
