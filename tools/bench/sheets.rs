// How long a sheet takes: at once, its lines read one by one, and going down it step by step.
use crate::{best, book, rival, texts, GARBAGE};
use std::process;

extern "C" {
    fn meadowsink_read(book: *const u8, n: usize, text: *const u8, t: usize, chart: *mut u8, c: usize, listing: *mut u8, l: usize) -> u64;
    fn meadowsink_sheet(book: *const u8, n: usize, sheet: *const u8, s: usize, chart: *mut u8, c: usize, summary: *mut u8, m: usize) -> u64;
    fn meadowsink_sheet_step(book: *const u8, n: usize, sheet: *const u8, s: usize, start: usize, chart: *mut u8, c: usize) -> u64;
}

// Most bytes of a sheet, and the lines that are measured: how many, and how long each is. 326 lines of 200 characters are the most that a sheet has.
const SHEET_BYTES: usize = 65_535;
const SHAPES: [(usize, usize); 3] = [(SHEET_BYTES, 0), (1_000, 64), (326, 200)];
const BOOKS: [&str; 4] = ["pairs", "arithmetic", "statements", "limits"];

struct Sheet {
    book: Vec<u8>,
    line: Vec<u8>,
    lines: usize,
    bytes: Vec<u8>,
    chart: Vec<u8>,
    summary: Vec<u8>,
}

impl Sheet {
    fn new(book: Vec<u8>, line: Vec<u8>, lines: usize) -> Sheet {
        let bytes = [line.clone(), vec![b'\n']].concat().repeat(lines);
        let chart = vec![GARBAGE; rival::tables(&book).rows * rival::spans(line.len())];
        Sheet { book, line, lines, bytes, chart, summary: vec![GARBAGE; lines] }
    }

    // Whether each line has this byte.
    fn all(&self, byte: u8) -> bool {
        self.summary.iter().all(|&other| other == byte)
    }

    fn at_once(&mut self) -> u64 {
        let (b, s) = (&self.book, &self.bytes);
        let (c, m) = (&mut self.chart, &mut self.summary);
        unsafe { meadowsink_sheet(b.as_ptr(), b.len(), s.as_ptr(), s.len(), c.as_mut_ptr(), c.len(), m.as_mut_ptr(), m.len()) }
    }

    // Without a listing; the last answer.
    fn one_by_one(&mut self) -> u64 {
        let (b, t, c) = (&self.book, &self.line, &mut self.chart);
        let none = [0u8; 0].as_mut_ptr();
        let read = |_| unsafe { meadowsink_read(b.as_ptr(), b.len(), t.as_ptr(), t.len(), c.as_mut_ptr(), c.len(), none, 0) };
        (0..self.lines).map(read).last().unwrap_or_default()
    }

    // How many steps are taken.
    fn step_by_step(&mut self) -> usize {
        let (b, s, c) = (&self.book, &self.bytes, &mut self.chart);
        let (mut at, mut steps) = (0, 0);
        loop {
            let answer = unsafe { meadowsink_sheet_step(b.as_ptr(), b.len(), s.as_ptr(), s.len(), at, c.as_mut_ptr(), c.len()) };
            if answer % 4 != 1 {
                return steps;
            }
            at = (answer / 16) as usize;
            steps += 1;
        }
    }
}

// The byte of a line by what reading it alone answers: 22 is one.
fn byte_of(answer: u64) -> u8 {
    if answer == 4 * 22 + 3 {
        1
    } else {
        (answer % 4) as u8
    }
}

fn measure(name: &str, mut sheet: Sheet) {
    let (mut count, mut answer, mut steps) = (0, 0, 0);
    let alone = best(|| answer = sheet.one_by_one());
    let walked = best(|| steps = sheet.step_by_step());
    let whole = best(|| count = sheet.at_once());
    if count != 4 * sheet.lines as u64 + 1 || steps != sheet.lines || !sheet.all(byte_of(answer)) {
        eprintln!("bench: {name}: not the sheet's answer");
        process::exit(1);
    }
    let shape = format!("{} of {}", sheet.lines, sheet.line.len());
    println!("{name:<12} {shape:>12} {whole:>10.1} {alone:>10.1} {walked:>10.1}");
}

pub fn sheets(folder: &str) {
    println!("\nsheets: milliseconds at once, its lines one by one, and step by step");
    println!("{:<12} {:>12} {:>10} {:>10} {:>10}", "book", "lines", "at once", "alone", "steps");
    for (lines, length) in SHAPES {
        for name in BOOKS {
            let line = if length == 0 { Vec::new() } else { texts::text(name, length) };
            measure(name, Sheet::new(book(folder, name), line, lines));
        }
    }
}
