// Makes every call of the library in a thread with a small stack; tests/stack.sh runs it.
//
//     stack_thread BOOKS OTHER-BOOKS KILOBYTES    BOOKS is books/, OTHER-BOOKS has `loop`, `letter`, `last` and `steps`, which tests/stack.sh makes
#[path = "second/library.rs"]
mod library;
#[path = "second/prng.rs"]
#[allow(dead_code)]
mod prng;

use library::{check, check_flat, check_listing, compare, compare_itself, conflict, flat, page, read, read_flat, reason, sheet, sheet_step, text_under};
use library::{Lent, Make};
use prng::Dice;
use std::path::{Path, PathBuf};
use std::{env, fs, process, thread};

const LISTING_BYTES: usize = 65_536;
const CHECKED_NUMBERS: usize = 4_096;
const LINE_BYTES: usize = 73;
const LINES: usize = 64;
const CHAIN: u64 = 63;
const EQUAL_COUNTS: u64 = 1; // of a comparison
const ABOVE: u64 = 2;
const FIRST_LINE: usize = 258;
// Room for the chart of 64 rules of 8 arguments and 200 characters.
const CHART_BYTES: usize = 64 * 9 * 201 * 202 / 2;

// The answers, as 4 * value + kind.
const ONE: u64 = 1;
const WRITTEN: u64 = 1;
const ACCEPTED: u64 = 1; // of a flat text
const CONFLICT: u64 = 1;
const COMPARED: u64 = 1;
const REFUSED: u64 = 3;

struct Areas {
    dice: Dice,
    failures: usize,
}

impl Areas {
    fn lend(&mut self, contents: &[u8]) -> Lent {
        Lent::new(contents, &mut self.dice)
    }

    fn book(&mut self, path: PathBuf) -> Lent {
        let bytes = fs::read(&path).unwrap_or_else(|error| panic!("{}: {}", path.display(), error));
        self.lend(&bytes)
    }

    fn expect(&mut self, what: &str, expected: u64, answer: u64) {
        if answer != expected {
            println!("failed in a thread: {}: expected {}, answered {}", what, expected, answer);
            self.failures += 1;
        }
    }

    // The text is `length` times a.
    fn expect_reading(&mut self, path: PathBuf, length: usize, expected: u64, place: u64) {
        let name = path.display().to_string();
        let mut book = self.book(path);
        let mut text = self.lend(&vec![b'a'; length]);
        let mut chart = self.lend(&vec![0; CHART_BYTES]);
        let mut listing = self.lend(&vec![0; LISTING_BYTES]);
        for (make, expected) in [(Make::Number, expected), (Make::Place, place)] {
            let answer = read(make, &mut book, &mut text, &mut chart, &mut listing);
            self.expect(&format!("read {}", name), expected, answer);
        }
        self.expect_written(&chart, &listing, if expected % 4 == ONE { expected / 4 } else { place });
    }

    // Numbers are behind one another, and a 0 is none.
    fn expect_written(&mut self, chart: &Lent, listing: &Lent, numbers: u64) {
        let stayed = chart.sides_stayed() && listing.sides_stayed();
        self.expect("the bytes beside what read was lent", 1, stayed as u64);
        let written = listing.contents().chunks(2).take_while(|number| number != &[0, 0]).count() as u64;
        self.expect("the numbers that read wrote", numbers, written);
    }

    fn flat_text(&mut self, path: PathBuf) -> Lent {
        let mut book = self.book(path);
        let mut out = self.lend(&vec![0; LISTING_BYTES]);
        let length = flat(Make::Number, &mut book, &mut out) / 4;
        self.lend(&out.contents()[..length as usize])
    }

    // The same by the flat text of the book, which has so many lines and one of them at the root.
    fn expect_flat_reading(&mut self, path: PathBuf, (lines, root): (u64, usize), length: usize, expected: u64, place: u64) {
        let name = path.display().to_string();
        let mut roots = [0; LINES];
        roots[root - FIRST_LINE] = 1;
        let (flat_text, roots, text) = (self.flat_text(path), self.lend(&roots), self.lend(&vec![b'a'; length]));
        let mut areas = [flat_text, roots, text, self.lend(&vec![0; CHART_BYTES]), self.lend(&vec![0; LISTING_BYTES])];
        for (make, lines, expected) in [(Make::Number, 4 * lines + ACCEPTED, expected), (Make::Place, 0, place)] {
            self.expect(&format!("check_flat {}", name), lines, check_flat(make, &mut areas[0]));
            self.expect(&format!("read_flat {}", name), expected, read_flat(make, &mut areas));
        }
        let [_, _, _, chart, listing] = &areas;
        self.expect_written(chart, listing, if expected % 4 == ONE { expected / 4 } else { place });
    }

    // Two lines, each `length` times a, that have one reading each; and a step, behind whose line the second starts.
    fn expect_sheet(&mut self, path: PathBuf, length: usize) {
        let line = [vec![b'a'; length], vec![b'\n']].concat();
        let (mut book, mut lent) = (self.book(path), self.lend(&line.repeat(2)));
        let (mut chart, mut summary) = (self.lend(&vec![0; CHART_BYTES]), self.lend(&[0, 0]));
        let behind = 4 * line.len() as u64 + ONE;
        for (make, lines, step) in [(Make::Number, 4 * 2 + WRITTEN, 4 * behind + ONE), (Make::Place, 0, 0)] {
            self.expect("sheet", lines, sheet(make, &mut book, &mut lent, &mut chart, &mut summary));
            self.expect("sheet_step", step, sheet_step(make, &mut book, &mut lent, 0, &mut chart));
        }
        self.expect("the bytes beside what sheet was lent", 1, (chart.sides_stayed() && summary.sides_stayed()) as u64);
        self.expect("the summary", 1, (summary.contents() == [1, 1]) as u64);
    }

    // Numbers that go down, so often, and those that end the tree.
    fn listing(&mut self, down: &[u16], times: usize, end: &[u16]) -> Lent {
        let numbers = [down.repeat(times), end.to_vec()].concat();
        let bytes: Vec<u8> = numbers.iter().flat_map(|number| number.to_le_bytes()).collect();
        self.lend(&bytes)
    }

    // As often as they fit: the last has the whole text.
    fn expect_listing(&mut self, path: PathBuf, text: &[u8], down: &[u16], end: &[u16]) {
        let (mut book, mut lent, mut listing) = (self.book(path), self.lend(text), self.listing(down, most(down, end), end));
        let numbers = listing.contents().len() / 2;
        let room = LINE_BYTES * numbers;
        let mut lines = self.lend(&vec![0; room]);
        for (make, written) in [(Make::Number, 4 * room as u64 + WRITTEN), (Make::Place, 0)] {
            self.expect("check_listing", 0, check_listing(make, &mut book, &mut lent, &mut listing));
            self.expect("page", written, page(make, &mut book, &mut lent, &mut listing, &mut lines));
        }
        self.expect("the bytes beside the page", 1, lines.sides_stayed() as u64);
        self.expect("the last byte of the page", b'\n' as u64, lines.contents()[room - 1] as u64);
        self.expect("text_under", text.len() as u64, text_under(&mut book, &mut lent, &mut listing, numbers - 1));
    }

    // As often as they fit, and once less, which the first is above.
    fn expect_comparison(&mut self, path: PathBuf, text: &[u8], down: &[u16], end: &[u16]) {
        let times = most(down, end);
        let mut areas = [self.book(path), self.lend(text), self.listing(down, times, end), self.listing(down, times - 1, end)];
        for (make, is_number) in [(Make::Number, 1), (Make::Place, 0)] {
            self.expect("compare", (4 * ABOVE + COMPARED) * is_number, compare(make, &mut areas));
            let [book, text, first, _] = &mut areas;
            self.expect("compare_itself", (4 * EQUAL_COUNTS + COMPARED) * is_number, compare_itself(make, [book, text, first]));
        }
    }

    // Rule 0 is higher than rule 63 by a chain of all the declarations before the groups, of which the first covers rules 63 and 0.
    fn expect_reasons(&mut self, path: PathBuf) {
        let (mut book, mut chain) = (self.book(path), self.lend(&[255; CHAIN as usize]));
        for (make, is_number) in [(Make::Number, 1), (Make::Place, 0)] {
            self.expect("reason, line 1", (4 * (4 * CHAIN + 1) + CONFLICT) * is_number, reason(make, &mut book, (0, 0, 63), &mut chain));
            self.expect("reason, line 2", (4 * (4 * CHAIN + 2) + CONFLICT) * is_number, reason(make, &mut book, (63, 0, 0), &mut chain));
        }
        self.expect("the bytes beside the chain", 1, chain.sides_stayed() as u64);
        self.expect("the chain", 1, chain.contents().iter().map(|&declaration| u64::from(declaration)).eq(0..CHAIN) as u64);
    }

    fn expect_others(&mut self, path: PathBuf) {
        let mut book = self.book(path);
        let mut out = self.lend(&vec![0; LISTING_BYTES]);
        for (make, is_number) in [(Make::Number, 1), (Make::Place, 0)] {
            self.expect("check", 0, check(make, &mut book));
            self.expect("conflict", CONFLICT * is_number, conflict(make, &mut book, (2, 1, 2)));
            self.expect("flat", (4 * 1309 + WRITTEN) * is_number, flat(make, &mut book, &mut out));
        }
    }
}

// How often these numbers fit a listing with those that end it.
fn most(down: &[u16], end: &[u16]) -> usize {
    (CHECKED_NUMBERS - end.len()) / down.len()
}

// How many answers were not the expected ones.
fn make_calls(books: &Path, others: &Path) -> usize {
    let mut areas = Areas { dice: Dice::new(1), failures: 0 };
    areas.expect_reading(books.join("ladder.book"), 200, 4 * 18_204 + ONE, 0);
    areas.expect_reading(books.join("deepest.book"), 200, 4 * 19_094 + ONE, 0);
    areas.expect_reading(books.join("power.book"), 0, 4 * 22 + REFUSED, LISTING_BYTES as u64 / 2);
    areas.expect_flat_reading(books.join("ladder.book"), (63, 320), 200, 4 * 18_204 + ONE, 0);
    areas.expect_flat_reading(books.join("deepest.book"), (64, 258), 200, 4 * 19_094 + ONE, 0);
    areas.expect_flat_reading(books.join("power.book"), (32, 289), 0, 4 * 22 + REFUSED, LISTING_BYTES as u64 / 2);
    areas.expect_sheet(books.join("deepest.book"), 200);
    areas.expect_sheet(books.join("power.book"), 0);
    let listings: [(&str, &[u8], &[u16], &[u16]); 3] = [
        ("loop.book", b"", &[258], &[259]),
        ("letter.book", b"a", &[258], &[259, 97]),
        ("last.book", b"a", &[258, 260, 260, 260, 260, 260, 260, 260], &[259, 97]),
    ];
    for (name, text, down, end) in listings {
        areas.expect_listing(others.join(name), text, down, end);
        areas.expect_comparison(others.join(name), text, down, end);
    }
    areas.expect_reasons(others.join("steps.book"));
    areas.expect_others(books.join("deepest.book"));
    areas.failures
}

fn main() {
    let words: Vec<String> = env::args().collect();
    let [_, books, others, kilobytes] = &words[..] else {
        eprintln!("usage: stack_thread BOOKS OTHER-BOOKS KILOBYTES");
        process::exit(2)
    };
    let (books, others) = (PathBuf::from(books), PathBuf::from(others));
    let size = kilobytes.parse::<usize>().expect("a number of kilobytes") * 1024;
    let calls = thread::Builder::new().stack_size(size).spawn(move || make_calls(&books, &others)).expect("a thread");
    process::exit(if calls.join().expect("the calls end") == 0 { 0 } else { 1 })
}
