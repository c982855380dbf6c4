//! The proved library's calls, and the lent areas they work on.

use crate::prng::Dice;

extern "C" {
    fn meadowsink_read(b: *const u8, bn: usize, t: *const u8, tn: usize, c: *mut u8, cn: usize, l: *mut u8, ln: usize) -> u64;
    fn meadowsink_read_place(b: *const u8, bn: usize, t: *const u8, tn: usize, c: *mut u8, cn: usize, l: *mut u8, ln: usize) -> u64;
    fn meadowsink_check(b: *const u8, bn: usize) -> u64;
    fn meadowsink_check_place(b: *const u8, bn: usize) -> u64;
    fn meadowsink_conflict(b: *const u8, bn: usize, p: u64, i: u64, q: u64) -> u64;
    fn meadowsink_conflict_place(b: *const u8, bn: usize, p: u64, i: u64, q: u64) -> u64;
    fn meadowsink_reason(b: *const u8, bn: usize, p: u64, i: u64, q: u64, c: *mut u8, cn: usize) -> u64;
    fn meadowsink_reason_place(b: *const u8, bn: usize, p: u64, i: u64, q: u64, c: *mut u8, cn: usize) -> u64;
    fn meadowsink_flat(b: *const u8, bn: usize, o: *mut u8, on: usize) -> u64;
    fn meadowsink_flat_place(b: *const u8, bn: usize, o: *mut u8, on: usize) -> u64;
    fn meadowsink_check_listing(b: *const u8, bn: usize, t: *const u8, tn: usize, l: *const u8, ln: usize) -> u64;
    fn meadowsink_check_listing_place(b: *const u8, bn: usize, t: *const u8, tn: usize, l: *const u8, ln: usize) -> u64;
    fn meadowsink_page(b: *const u8, bn: usize, t: *const u8, tn: usize, l: *const u8, ln: usize, p: *mut u8, pn: usize) -> u64;
    fn meadowsink_page_place(b: *const u8, bn: usize, t: *const u8, tn: usize, l: *const u8, ln: usize, p: *mut u8, pn: usize) -> u64;
    fn meadowsink_text_under(b: *const u8, bn: usize, t: *const u8, tn: usize, l: *const u8, ln: usize, index: usize) -> u64;
    fn meadowsink_compare(b: *const u8, bn: usize, t: *const u8, tn: usize, x: *const u8, xn: usize, y: *const u8, yn: usize) -> u64;
    fn meadowsink_compare_place(
        b: *const u8, bn: usize, t: *const u8, tn: usize, x: *const u8, xn: usize, y: *const u8, yn: usize,
    ) -> u64;
    fn meadowsink_sheet(b: *const u8, bn: usize, s: *const u8, sn: usize, c: *mut u8, cn: usize, m: *mut u8, mn: usize) -> u64;
    fn meadowsink_sheet_place(b: *const u8, bn: usize, s: *const u8, sn: usize, c: *mut u8, cn: usize, m: *mut u8, mn: usize) -> u64;
    fn meadowsink_sheet_step(b: *const u8, bn: usize, s: *const u8, sn: usize, start: usize, c: *mut u8, cn: usize) -> u64;
    fn meadowsink_sheet_step_place(b: *const u8, bn: usize, s: *const u8, sn: usize, start: usize, c: *mut u8, cn: usize) -> u64;
    fn meadowsink_check_flat(f: *const u8, fl: usize) -> u64;
    fn meadowsink_check_flat_place(f: *const u8, fl: usize) -> u64;
    fn meadowsink_read_flat(
        f: *const u8, fl: usize, r: *const u8, rn: usize, t: *const u8, tn: usize, c: *mut u8, cn: usize, l: *mut u8, ln: usize,
    ) -> u64;
    fn meadowsink_read_flat_place(
        f: *const u8, fl: usize, r: *const u8, rn: usize, t: *const u8, tn: usize, c: *mut u8, cn: usize, l: *mut u8, ln: usize,
    ) -> u64;
}

/// Each call but the text under a number comes in two makes: one gives the number, the other the place.
#[derive(Clone, Copy, PartialEq, Eq)]
pub enum Make {
    Number,
    Place,
}

/// With `--cfg bare` an area has no noise around it, so that valgrind sees a read or write past its ends.
const GUARD: usize = if cfg!(bare) { 0 } else { 40 };

/// Bytes lent to a call, with noise on both sides that must stay.
pub struct Lent {
    bytes: Vec<u8>,
    noise: Vec<u8>,
    length: usize,
}

impl Lent {
    pub fn new(contents: &[u8], dice: &mut Dice) -> Lent {
        let noise: Vec<u8> = (0..2 * GUARD).map(|_| dice.byte()).collect();
        let bytes = [&noise[..GUARD], contents, &noise[GUARD..]].concat();
        Lent { bytes, noise, length: contents.len() }
    }

    pub fn contents(&self) -> &[u8] {
        &self.bytes[GUARD..GUARD + self.length]
    }

    fn lent(&mut self) -> *mut u8 {
        self.bytes[GUARD..].as_mut_ptr()
    }

    /// Did the noise on both sides stay?
    pub fn sides_stayed(&self) -> bool {
        self.bytes[..GUARD] == self.noise[..GUARD] && self.bytes[GUARD + self.length..] == self.noise[GUARD..]
    }
}

pub fn read(make: Make, book: &mut Lent, text: &mut Lent, chart: &mut Lent, listing: &mut Lent) -> u64 {
    let (bn, tn, cn, ln) = (book.length, text.length, chart.length, listing.length);
    let (b, t, c, l) = (book.lent(), text.lent(), chart.lent(), listing.lent());
    match make {
        Make::Number => unsafe { meadowsink_read(b, bn, t, tn, c, cn, l, ln) },
        Make::Place => unsafe { meadowsink_read_place(b, bn, t, tn, c, cn, l, ln) },
    }
}

pub fn check(make: Make, book: &mut Lent) -> u64 {
    let length = book.length;
    match make {
        Make::Number => unsafe { meadowsink_check(book.lent(), length) },
        Make::Place => unsafe { meadowsink_check_place(book.lent(), length) },
    }
}

pub fn conflict(make: Make, book: &mut Lent, (p, i, q): (u64, u64, u64)) -> u64 {
    let length = book.length;
    match make {
        Make::Number => unsafe { meadowsink_conflict(book.lent(), length, p, i, q) },
        Make::Place => unsafe { meadowsink_conflict_place(book.lent(), length, p, i, q) },
    }
}

/// The same question, where the reason's chain is written.
pub fn reason(make: Make, book: &mut Lent, (p, i, q): (u64, u64, u64), chain: &mut Lent) -> u64 {
    let (bn, cn) = (book.length, chain.length);
    match make {
        Make::Number => unsafe { meadowsink_reason(book.lent(), bn, p, i, q, chain.lent(), cn) },
        Make::Place => unsafe { meadowsink_reason_place(book.lent(), bn, p, i, q, chain.lent(), cn) },
    }
}

pub fn flat(make: Make, book: &mut Lent, out: &mut Lent) -> u64 {
    let (bn, on) = (book.length, out.length);
    match make {
        Make::Number => unsafe { meadowsink_flat(book.lent(), bn, out.lent(), on) },
        Make::Place => unsafe { meadowsink_flat_place(book.lent(), bn, out.lent(), on) },
    }
}

pub fn check_listing(make: Make, book: &mut Lent, text: &mut Lent, listing: &mut Lent) -> u64 {
    let (bn, tn, ln) = (book.length, text.length, listing.length);
    let (b, t, l) = (book.lent(), text.lent(), listing.lent());
    match make {
        Make::Number => unsafe { meadowsink_check_listing(b, bn, t, tn, l, ln) },
        Make::Place => unsafe { meadowsink_check_listing_place(b, bn, t, tn, l, ln) },
    }
}

pub fn page(make: Make, book: &mut Lent, text: &mut Lent, listing: &mut Lent, page: &mut Lent) -> u64 {
    let (bn, tn, ln, pn) = (book.length, text.length, listing.length, page.length);
    let (b, t, l, p) = (book.lent(), text.lent(), listing.lent(), page.lent());
    match make {
        Make::Number => unsafe { meadowsink_page(b, bn, t, tn, l, ln, p, pn) },
        Make::Place => unsafe { meadowsink_page_place(b, bn, t, tn, l, ln, p, pn) },
    }
}

pub fn text_under(book: &mut Lent, text: &mut Lent, listing: &mut Lent, index: usize) -> u64 {
    let (bn, tn, ln) = (book.length, text.length, listing.length);
    unsafe { meadowsink_text_under(book.lent(), bn, text.lent(), tn, listing.lent(), ln, index) }
}

/// Two listings. What it is lent: book, text, the first listing and the second; none of them is written.
pub fn compare(make: Make, [book, text, first, second]: &mut [Lent; 4]) -> u64 {
    let (bn, tn, xn, yn) = (book.length, text.length, first.length, second.length);
    let (b, t, x, y) = (book.lent(), text.lent(), first.lent(), second.lent());
    match make {
        Make::Number => unsafe { meadowsink_compare(b, bn, t, tn, x, xn, y, yn) },
        Make::Place => unsafe { meadowsink_compare_place(b, bn, t, tn, x, xn, y, yn) },
    }
}

/// A listing with itself, one area lent as both, which is allowed since neither is written.
pub fn compare_itself(make: Make, [book, text, listing]: [&mut Lent; 3]) -> u64 {
    let (bn, tn, n) = (book.length, text.length, listing.length);
    let (b, t, l) = (book.lent(), text.lent(), listing.lent());
    match make {
        Make::Number => unsafe { meadowsink_compare(b, bn, t, tn, l, n, l, n) },
        Make::Place => unsafe { meadowsink_compare_place(b, bn, t, tn, l, n, l, n) },
    }
}

/// A whole sheet: chart and summary are written.
pub fn sheet(make: Make, book: &mut Lent, sheet: &mut Lent, chart: &mut Lent, summary: &mut Lent) -> u64 {
    let (bn, sn, cn, mn) = (book.length, sheet.length, chart.length, summary.length);
    let (b, s, c, m) = (book.lent(), sheet.lent(), chart.lent(), summary.lent());
    match make {
        Make::Number => unsafe { meadowsink_sheet(b, bn, s, sn, c, cn, m, mn) },
        Make::Place => unsafe { meadowsink_sheet_place(b, bn, s, sn, c, cn, m, mn) },
    }
}

/// One step of a walker: the chart is written.
pub fn sheet_step(make: Make, book: &mut Lent, sheet: &mut Lent, start: usize, chart: &mut Lent) -> u64 {
    let (bn, sn, cn) = (book.length, sheet.length, chart.length);
    let (b, s, c) = (book.lent(), sheet.lent(), chart.lent());
    match make {
        Make::Number => unsafe { meadowsink_sheet_step(b, bn, s, sn, start, c, cn) },
        Make::Place => unsafe { meadowsink_sheet_step_place(b, bn, s, sn, start, c, cn) },
    }
}

pub fn check_flat(make: Make, flat: &mut Lent) -> u64 {
    let length = flat.length;
    match make {
        Make::Number => unsafe { meadowsink_check_flat(flat.lent(), length) },
        Make::Place => unsafe { meadowsink_check_flat_place(flat.lent(), length) },
    }
}

/// The reading by a flat text. What it is lent: flat text, roots, text, chart and listing, of which the last two are written.
pub fn read_flat(make: Make, [flat, roots, text, chart, listing]: &mut [Lent; 5]) -> u64 {
    let (fl, rn, tn, cn, ln) = (flat.length, roots.length, text.length, chart.length, listing.length);
    let (f, r, t, c, l) = (flat.lent(), roots.lent(), text.lent(), chart.lent(), listing.lent());
    match make {
        Make::Number => unsafe { meadowsink_read_flat(f, fl, r, rn, t, tn, c, cn, l, ln) },
        Make::Place => unsafe { meadowsink_read_flat_place(f, fl, r, rn, t, tn, c, cn, l, ln) },
    }
}
