//! Pages worked by hand, and the ends of what a page can show: every byte, every length of a text, the deepest tree.

use crate::book::{read_book, Refusal};
use crate::compare::{Given, Mismatch};
use crate::fixed::{book_t, deep, T};
use crate::listing::to_bytes;
use crate::page_calls::Asked;
use crate::pages::{self, Lines, LINE_LENGTH};
use crate::plans::Plan;
use crate::prng::Dice;
use crate::reading::Study;
use crate::tally::Tally;

/// A book, a text, the numbers of a reading, and its page without the spaces at the ends of lines.
struct Worked {
    name: &'static str,
    book: Vec<u8>,
    text: &'static [u8],
    numbers: &'static [u16],
    lines: &'static [&'static str],
}

/// A book with the class of all bytes, and nothing ranked.
fn book_of(sorts: usize, rules: Vec<(u8, Vec<u8>)>) -> Vec<u8> {
    Plan { sorts, start: 0, rules, classes: vec![vec![(0, 255)]], declarations: vec![] }.bytes()
}

/// A byte and a row, or nothing.
pub fn row() -> Vec<u8> {
    book_of(1, vec![(0, vec![64, 0]), (0, vec![])])
}

/// The numbers of a text as a row.
fn numbers_of_row(text: &[u8]) -> Vec<u16> {
    text.iter().flat_map(|&byte| [258, byte as u16]).chain([259]).collect()
}

/// Round and round, or nothing.
pub fn round() -> Vec<u8> {
    book_of(1, vec![(0, vec![0]), (0, vec![])])
}

fn worked() -> Vec<Worked> {
    vec![
        Worked {
            name: "book T",
            book: book_t(&T),
            text: b"8/4*2",
            numbers: &[259, 260, 258, 56, 47, 258, 52, 42, 258, 50],
            lines: &[
                "   0  259   0   5 8/4*2",
                "   1  260   0   3 8/4",
                "   2  258   0   1 8",
                "   3   56   0   1 8",
                "   2   47   1   2 /",
                "   2  258   2   3 4",
                "   3   52   2   3 4",
                "   1   42   3   4 *",
                "   1  258   4   5 2",
                "   2   50   4   5 2",
            ],
        },
        Worked {
            name: "empty at the start, in the middle and at the end",
            book: book_of(2, vec![(0, vec![1, 64, 1, 64, 1]), (1, vec![])]),
            text: b"ab",
            numbers: &[258, 259, 97, 259, 98, 259],
            lines: &[
                "   0  258   0   2 ab",
                "   1  259   0   0",
                "   1   97   0   1 a",
                "   1  259   1   1",
                "   1   98   1   2 b",
                "   1  259   2   2",
            ],
        },
        Worked {
            name: "the last bytes that print, and their neighbours",
            book: book_of(1, vec![(0, vec![64, 64, 64, 64])]),
            text: &[31, 32, 126, 127],
            numbers: &[258, 31, 32, 126, 127],
            lines: &[
                "   0  258   0   4 . ~.",
                "   1   31   0   1 .",
                "   1   32   1   2",
                "   1  126   2   3 ~",
                "   1  127   3   4 .",
            ],
        },
        Worked {
            name: "no byte at all",
            book: round(),
            text: b"",
            numbers: &[258, 258, 259],
            lines: &["   0  258   0   0", "   1  258   0   0", "   2  259   0   0"],
        },
    ]
}

/// Listings for book T and `8/4*2`, the length of the page buffer, and the answer by hand: the page's bytes, or a refusal's
/// number and place.
fn answers() -> Vec<(&'static [u16], usize, Result<u64, (u64, u64)>)> {
    let short = Err((24, 730));
    vec![
        (&[259, 260, 258, 56, 47, 258, 52, 42, 258, 50], 730, Ok(730)),
        (&[259, 260, 258, 56, 47, 258, 52, 42, 258, 50], 729, short),
        (&[259, 260, 258, 56, 47, 258, 52, 42, 258, 50], 0, short),
        (&[259, 260, 258, 57, 47, 258, 52, 42, 258, 50], 0, Err((23, 3))),
        (&[259, 260, 258, 56, 47, 258, 52, 42, 258], 730, Err((23, 9))),
        (&[260, 258, 56, 47, 258, 52], 730, Err((23, 6))),
        (&[260, 258, 56, 47, 258, 52, 42], 0, Err((23, 6))),
        (&[], 0, Err((23, 0))),
    ]
}

pub fn own_lines(given: Given) -> Lines {
    pages::lines(&read_book(given.book), given.text, given.listing)
}

/// The answers of this program against those by hand, and the library's against them.
fn same_answers(dice: &mut Dice, tally: &mut Tally) -> Result<(), Mismatch> {
    let book = book_t(&T);
    for (numbers, room, hand) in answers() {
        let listing = to_bytes(numbers);
        let given = Given { book: &book, text: b"8/4*2", listing: &listing };
        let mut asked = Asked::new(given, own_lines(given), dice);
        let before = dice.garbage(room);
        let answer = asked.written(&before).0;
        let hand = hand.map(|bytes| 4 * bytes + 1).map_err(|(number, place)| Refusal { number, place });
        if answer != hand {
            let call = "worked answer of a page (this program against the hand)".into();
            let wrong = Mismatch { call, expected: format!("{hand:?}"), found: format!("{answer:?}"), lent: vec![] };
            return Err(given.tell(wrong));
        }
        tally.add("fixed", "worked by hand");
        asked.page_over(&before, dice, tally)?;
    }
    Ok(())
}

/// The page over buffers about as long as needed, and the text under each number, or under some hundred of them.
fn rooms_and_parts(asked: &mut Asked, count: usize, dice: &mut Dice, tally: &mut Tally) -> Result<(), Mismatch> {
    let need = LINE_LENGTH * count;
    for room in [0, 1, LINE_LENGTH - 1, LINE_LENGTH, need - LINE_LENGTH, need - 1, need, need + 1, need + LINE_LENGTH] {
        asked.page_over(&dice.garbage(room), dice, tally)?;
    }
    let step = if count > 500 { count / 100 } else { 1 };
    let within: Vec<usize> = (0..count).step_by(step).chain([count - 1]).collect();
    asked.texts_under(&within, tally)?;
    asked.texts_under(&asked.beyond(dice), tally)
}

pub fn page_of(book: &[u8], text: &[u8], numbers: &[u16], dice: &mut Dice, tally: &mut Tally) -> Result<(), Mismatch> {
    let listing = to_bytes(numbers);
    let given = Given { book, text, listing: &listing };
    let mut asked = Asked::new(given, own_lines(given), dice);
    rooms_and_parts(&mut asked, numbers.len(), dice, tally).map_err(|mut wrong| {
        wrong.lent.push(("book", book.to_vec()));
        wrong
    })
}

fn by_hand(case: &Worked, dice: &mut Dice, tally: &mut Tally) -> Result<(), Mismatch> {
    let hand: String = case.lines.iter().map(|line| format!("{line:<72}\n")).collect();
    let given = Given { book: &case.book, text: case.text, listing: &to_bytes(case.numbers) };
    let own = own_lines(given).map(|lines| String::from_utf8_lossy(&pages::page(&lines)).into_owned());
    if own.as_ref() != Ok(&hand) {
        let call = format!("worked page, {} (this program against the hand)", case.name);
        return Err(Mismatch { call, expected: format!("{hand:?}"), found: format!("{own:?}"), lent: vec![] });
    }
    tally.add("fixed", "worked by hand");
    page_of(&case.book, case.text, case.numbers, dice, tally)
}

/// Rows, with texts of every length from 0 to 200 and every byte among them, and one that is too long.
fn rows(dice: &mut Dice, tally: &mut Tally) -> Result<(), Mismatch> {
    let low: Vec<u8> = (0..200).collect();
    let high: Vec<u8> = (56..=255).collect();
    for text in [&low[..], &high, &high[..55], &high[..54], &high[..53], &[b'8'; 201]] {
        page_of(&row(), text, &numbers_of_row(text), dice, tally)?;
    }
    Ok(())
}

/// The deepest listings: 4,096 numbers one below another, one number more than may be checked, and thousands of levels
/// over a text.
fn depths(dice: &mut Dice, tally: &mut Tally) -> Result<(), Mismatch> {
    for count in [4095, 4096, 4097] {
        let numbers: Vec<u16> = (1..count).map(|_| 258).chain([259]).collect();
        page_of(&round(), b"", &numbers, dice, tally)?;
    }
    let (book, text) = deep(5);
    let numbers = Study::new(&book, &text).listing.map_or(vec![], |only| only.numbers);
    if numbers.len() != 199 * (2 + 5 * 3) + 2 {
        let found = format!("{} numbers", numbers.len());
        return Err(Mismatch { call: "a deep tree".into(), expected: "3385 numbers".into(), found, lent: vec![] });
    }
    page_of(&book, &text, &numbers, dice, tally)
}

pub fn run(dice: &mut Dice, tally: &mut Tally) -> Result<(), Mismatch> {
    for case in &worked() {
        by_hand(case, dice, tally)?;
    }
    same_answers(dice, tally)?;
    rows(dice, tally)?;
    depths(dice, tally)
}
