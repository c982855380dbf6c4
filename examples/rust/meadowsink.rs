// The library's calls for safe Rust: copy this file into a program and link it with crates/meadowsink/out/libmeadowsink.a.
//
// The functions are safe for whatever the slices hold. The library wants areas that don't overlap, and pointers that are not null: shared and exclusive
// slices don't overlap, and the pointer of an empty slice is not null. Refusals have the numbers and places of include/meadowsink.h.

/// Whether a book is accepted.
#[derive(Debug, PartialEq)]
pub enum Verdict {
    Accepted,
    Refused { number: u64, place: u64 },
}

/// Whether the ranks of a book keep a rule from standing somewhere.
#[derive(Debug, PartialEq)]
pub enum Conflict {
    No,
    Yes,
    Refused { number: u64, place: u64 },
}

/// What is behind a conflict: that the outer rule is higher, by a chain of declarations, or one declaration of the pair at the first or the last argument.
/// Declarations are counted from 0.
#[derive(Debug, PartialEq)]
pub enum Reason {
    Free,
    Higher(Vec<usize>),
    AtFirst(usize),
    AtLast(usize),
    Refused { number: u64, place: u64 },
}

/// What is written as text: the character class grammar of a book, or the page of a parse.
#[derive(Debug, PartialEq)]
pub enum Written {
    Text(String),
    Refused { number: u64, place: u64 },
}

/// Whether a flat text is in the written form, and how many lines it has.
#[derive(Debug, PartialEq)]
pub enum FlatVerdict {
    Lines(u64),
    Refused { number: u64, place: u64 },
}

/// How many parses a text has, and the numbers of the only one.
#[derive(Debug, PartialEq)]
pub enum Answer {
    None,
    One(Vec<u16>),
    Several,
    Refused { number: u64, place: u64 },
}

/// How many parses a line of a sheet has. Refused are lines of more than 200 bytes.
#[derive(Clone, Copy, Debug, PartialEq)]
pub enum LineAnswer {
    None,
    One,
    Several,
    Refused,
}

/// What the lines of a sheet have, each.
#[derive(Debug, PartialEq)]
pub enum Summary {
    Lines(Vec<LineAnswer>),
    Refused { number: u64, place: u64 },
}

/// A step down a sheet: a line, which is a part of the sheet that was lent, and its answer; or that the book or the sheet is refused.
#[derive(Debug, PartialEq)]
pub enum Step<'a> {
    Line { line: &'a [u8], answer: LineAnswer },
    Refused { number: u64, place: u64 },
}

/// Whether numbers are the listing of a parse, or which is the first that is wrong.
#[derive(Debug, PartialEq)]
pub enum Judgement {
    Right,
    Wrong { index: u64 },
    Refused { number: u64, place: u64 },
}

/// How the first of two parses stands to the second: below it, and so the lower of the two, or above it; or they use each rule equally often, be they the same
/// parse or not; or it is none of these.
#[derive(Debug, PartialEq)]
pub enum Comparison {
    Below,
    EqualCounts,
    Above,
    Neither,
    Refused { number: u64, place: u64 },
}

const CHART_SHORT: u64 = 20;
const FLAT_SHORT: u64 = 21;
const PAGE_SHORT: u64 = 24;
const LISTING_BYTES: usize = 65_536; // the library writes no longer listing
const TEXT_LIMIT: usize = 200; // nor does it read a longer text
const CHAIN_LIMIT: usize = 63; // and no longer chain of declarations makes one rule higher than another
const BELOW: u64 = 0; // the values of a comparison
const EQUAL_COUNTS: u64 = 1;
const ABOVE: u64 = 2;

/// Lines of the longest flat text.
pub const LINE_LIMIT: usize = 64;

// ---- the calls in C, each by the slices it takes

type OfBook = unsafe extern "C" fn(*const u8, usize) -> u64;
type OfRules = unsafe extern "C" fn(*const u8, usize, usize, usize, usize) -> u64;
type OfFlat = unsafe extern "C" fn(*const u8, usize, *mut u8, usize) -> u64;
type OfFlatText = unsafe extern "C" fn(*const u8, usize, *const u8, usize, *const u8, usize, *mut u8, usize, *mut u8, usize) -> u64;
type OfListing = unsafe extern "C" fn(*const u8, usize, *const u8, usize, *const u8, usize) -> u64;
type OfPage = unsafe extern "C" fn(*const u8, usize, *const u8, usize, *const u8, usize, *mut u8, usize) -> u64;
type OfReason = unsafe extern "C" fn(*const u8, usize, usize, usize, usize, *mut u8, usize) -> u64;
type OfStep = unsafe extern "C" fn(*const u8, usize, *const u8, usize, usize, *mut u8, usize) -> u64;
type OfText = unsafe extern "C" fn(*const u8, usize, *const u8, usize, *mut u8, usize, *mut u8, usize) -> u64;
type OfTwo = unsafe extern "C" fn(*const u8, usize, *const u8, usize, *const u8, usize, *const u8, usize) -> u64;

extern "C" {
    fn meadowsink_check(book: *const u8, n: usize) -> u64;
    fn meadowsink_check_place(book: *const u8, n: usize) -> u64;
    fn meadowsink_conflict(book: *const u8, n: usize, p: usize, i: usize, q: usize) -> u64;
    fn meadowsink_conflict_place(book: *const u8, n: usize, p: usize, i: usize, q: usize) -> u64;
    fn meadowsink_reason(book: *const u8, n: usize, p: usize, i: usize, q: usize, chain: *mut u8, c: usize) -> u64;
    fn meadowsink_reason_place(book: *const u8, n: usize, p: usize, i: usize, q: usize, chain: *mut u8, c: usize) -> u64;
    fn meadowsink_flat(book: *const u8, n: usize, out: *mut u8, o: usize) -> u64;
    fn meadowsink_flat_place(book: *const u8, n: usize, out: *mut u8, o: usize) -> u64;
    fn meadowsink_read(book: *const u8, n: usize, text: *const u8, t: usize, chart: *mut u8, c: usize, listing: *mut u8, l: usize) -> u64;
    fn meadowsink_read_place(book: *const u8, n: usize, text: *const u8, t: usize, chart: *mut u8, c: usize, listing: *mut u8, l: usize) -> u64;
    fn meadowsink_check_listing(book: *const u8, n: usize, text: *const u8, t: usize, listing: *const u8, l: usize) -> u64;
    fn meadowsink_check_listing_place(book: *const u8, n: usize, text: *const u8, t: usize, listing: *const u8, l: usize) -> u64;
    fn meadowsink_page(book: *const u8, n: usize, text: *const u8, t: usize, listing: *const u8, l: usize, page: *mut u8, p: usize) -> u64;
    fn meadowsink_page_place(book: *const u8, n: usize, text: *const u8, t: usize, listing: *const u8, l: usize, page: *mut u8, p: usize) -> u64;
    fn meadowsink_compare(book: *const u8, n: usize, text: *const u8, t: usize, first: *const u8, f: usize, second: *const u8, s: usize) -> u64;
    fn meadowsink_compare_place(book: *const u8, n: usize, text: *const u8, t: usize, first: *const u8, f: usize, second: *const u8, s: usize) -> u64;
    fn meadowsink_sheet(book: *const u8, n: usize, sheet: *const u8, s: usize, chart: *mut u8, c: usize, summary: *mut u8, m: usize) -> u64;
    fn meadowsink_sheet_place(book: *const u8, n: usize, sheet: *const u8, s: usize, chart: *mut u8, c: usize, summary: *mut u8, m: usize) -> u64;
    fn meadowsink_sheet_step(book: *const u8, n: usize, sheet: *const u8, s: usize, start: usize, chart: *mut u8, c: usize) -> u64;
    fn meadowsink_sheet_step_place(book: *const u8, n: usize, sheet: *const u8, s: usize, start: usize, chart: *mut u8, c: usize) -> u64;
    fn meadowsink_check_flat(flat: *const u8, n: usize) -> u64;
    fn meadowsink_check_flat_place(flat: *const u8, n: usize) -> u64;
    fn meadowsink_read_flat(
        flat: *const u8, n: usize, roots: *const u8, r: usize, text: *const u8, t: usize, chart: *mut u8, c: usize, listing: *mut u8, l: usize,
    ) -> u64;
    fn meadowsink_read_flat_place(
        flat: *const u8, n: usize, roots: *const u8, r: usize, text: *const u8, t: usize, chart: *mut u8, c: usize, listing: *mut u8, l: usize,
    ) -> u64;
    fn meadowsink_text_under(book: *const u8, n: usize, text: *const u8, t: usize, listing: *const u8, l: usize, index: usize) -> u64;
}

// In each of these the pointers and lengths are those of slices that live during the call; those that are written are borrowed exclusively.

// A book, or a flat text.
fn call_book(operation: OfBook, book: &[u8]) -> u64 {
    unsafe { operation(book.as_ptr(), book.len()) }
}

fn call_rules(operation: OfRules, book: &[u8], [p, i, q]: [usize; 3]) -> u64 {
    unsafe { operation(book.as_ptr(), book.len(), p, i, q) }
}

fn call_reason(operation: OfReason, book: &[u8], [p, i, q]: [usize; 3], chain: &mut [u8]) -> u64 {
    unsafe { operation(book.as_ptr(), book.len(), p, i, q, chain.as_mut_ptr(), chain.len()) }
}

fn call_flat(operation: OfFlat, book: &[u8], out: &mut [u8]) -> u64 {
    unsafe { operation(book.as_ptr(), book.len(), out.as_mut_ptr(), out.len()) }
}

fn call_listing(operation: OfListing, book: &[u8], text: &[u8], listing: &[u8]) -> u64 {
    unsafe { operation(book.as_ptr(), book.len(), text.as_ptr(), text.len(), listing.as_ptr(), listing.len()) }
}

fn call_page(operation: OfPage, book: &[u8], text: &[u8], listing: &[u8], page: &mut [u8]) -> u64 {
    unsafe { operation(book.as_ptr(), book.len(), text.as_ptr(), text.len(), listing.as_ptr(), listing.len(), page.as_mut_ptr(), page.len()) }
}

fn call_two(operation: OfTwo, book: &[u8], text: &[u8], first: &[u8], second: &[u8]) -> u64 {
    unsafe { operation(book.as_ptr(), book.len(), text.as_ptr(), text.len(), first.as_ptr(), first.len(), second.as_ptr(), second.len()) }
}

fn call_number(book: &[u8], text: &[u8], listing: &[u8], index: usize) -> u64 {
    unsafe { meadowsink_text_under(book.as_ptr(), book.len(), text.as_ptr(), text.len(), listing.as_ptr(), listing.len(), index) }
}

fn call_step(operation: OfStep, book: &[u8], sheet: &[u8], start: usize, chart: &mut [u8]) -> u64 {
    unsafe { operation(book.as_ptr(), book.len(), sheet.as_ptr(), sheet.len(), start, chart.as_mut_ptr(), chart.len()) }
}

// A text with its listing, or a sheet with its summary.
fn call_text(operation: OfText, book: &[u8], text: &[u8], chart: &mut [u8], listing: &mut [u8]) -> u64 {
    unsafe { operation(book.as_ptr(), book.len(), text.as_ptr(), text.len(), chart.as_mut_ptr(), chart.len(), listing.as_mut_ptr(), listing.len()) }
}

fn call_flat_text(operation: OfFlatText, [flat, roots, text]: [&[u8]; 3], chart: &mut [u8], listing: &mut [u8]) -> u64 {
    let ((f, r, t), (c, l)) = ((flat.as_ptr(), roots.as_ptr(), text.as_ptr()), (chart.as_mut_ptr(), listing.as_mut_ptr()));
    unsafe { operation(f, flat.len(), r, roots.len(), t, text.len(), c, chart.len(), l, listing.len()) }
}

// ---- the operations

/// Checks a book.
pub fn check(book: &[u8]) -> Verdict {
    match split(call_book(meadowsink_check, book)) {
        (0, _) => Verdict::Accepted,
        (_, number) => Verdict::Refused { number, place: call_book(meadowsink_check_place, book) },
    }
}

/// May rule `q` stand as argument `i` of rule `p`? All are counted from 0.
pub fn conflict(book: &[u8], p: usize, i: usize, q: usize) -> Conflict {
    match split(call_rules(meadowsink_conflict, book, [p, i, q])) {
        (0, _) => Conflict::No,
        (1, _) => Conflict::Yes,
        (_, number) => Conflict::Refused { number, place: call_rules(meadowsink_conflict_place, book, [p, i, q]) },
    }
}

/// Why may rule `q` not stand as argument `i` of rule `p`? All are counted from 0.
pub fn reason(book: &[u8], p: usize, i: usize, q: usize) -> Reason {
    let mut chain = [0; CHAIN_LIMIT];
    let (kind, value) = split(call_reason(meadowsink_reason, book, [p, i, q], &mut chain));
    let n = (value / 4) as usize;
    match (kind, value % 4) {
        (0, _) => Reason::Free,
        (1, 1) => Reason::Higher(chain[..n].iter().map(|&declaration| declaration.into()).collect()),
        (1, 2) => Reason::AtFirst(n),
        (1, _) => Reason::AtLast(n),
        _ => Reason::Refused { number: value, place: call_reason(meadowsink_reason_place, book, [p, i, q], &mut chain) },
    }
}

/// Writes the character class grammar of a book.
pub fn flat(book: &[u8]) -> Written {
    write(FLAT_SHORT, |out| call_flat(meadowsink_flat, book, out), |out| call_flat(meadowsink_flat_place, book, out))
}

/// Parses a text. The chart is room to work in: it may be empty at first, grows as needed, and may be lent again.
pub fn read(book: &[u8], text: &[u8], chart: &mut Vec<u8>) -> Answer {
    let answer = |chart: &mut [u8], listing: &mut [u8]| call_text(meadowsink_read, book, text, chart, listing);
    parse(chart, answer, |chart, listing| call_text(meadowsink_read_place, book, text, chart, listing))
}

/// Checks whether numbers are the listing of a parse of a text.
pub fn check_listing(book: &[u8], text: &[u8], listing: &[u16]) -> Judgement {
    let bytes = to_bytes(listing);
    match split(call_listing(meadowsink_check_listing, book, text, &bytes)) {
        (0, _) => Judgement::Right,
        (1, index) => Judgement::Wrong { index },
        (_, number) => Judgement::Refused { number, place: call_listing(meadowsink_check_listing_place, book, text, &bytes) },
    }
}

/// Writes the page of a parse of a text: a line of 73 bytes for each number of its listing.
pub fn page(book: &[u8], text: &[u8], listing: &[u16]) -> Written {
    let bytes = to_bytes(listing);
    write(PAGE_SHORT, |out| call_page(meadowsink_page, book, text, &bytes, out), |out| call_page(meadowsink_page_place, book, text, &bytes, out))
}

/// The part of the text under a number of a listing, counted from 0. It is a slice of the text that was lent, not a copy. Without such a number, or if the
/// listing is not right, it is the empty part at the text's start.
pub fn text_under<'a>(book: &[u8], text: &'a [u8], listing: &[u16], index: usize) -> &'a [u8] {
    let places = call_number(book, text, &to_bytes(listing), index) as usize;
    &text[places / 256..places % 256]
}

/// Tells which of two parses of a text is lower: the one that does with fewer uses of the highest rules.
pub fn compare(book: &[u8], text: &[u8], first: &[u16], second: &[u16]) -> Comparison {
    let (first, second) = (to_bytes(first), to_bytes(second));
    match split(call_two(meadowsink_compare, book, text, &first, &second)) {
        (1, BELOW) => Comparison::Below,
        (1, EQUAL_COUNTS) => Comparison::EqualCounts,
        (1, ABOVE) => Comparison::Above,
        (1, _) => Comparison::Neither,
        (_, number) => Comparison::Refused { number, place: call_two(meadowsink_compare_place, book, text, &first, &second) },
    }
}

// ---- flat texts

/// Checks a flat text: a character class grammar in the form in which `flat` writes it.
pub fn check_flat(flat: &[u8]) -> FlatVerdict {
    match split(call_book(meadowsink_check_flat, flat)) {
        (1, lines) => FlatVerdict::Lines(lines),
        (_, number) => FlatVerdict::Refused { number, place: call_book(meadowsink_check_flat_place, flat) },
    }
}

/// Parses a text by a flat text alone. The roots say of each of its lines whether it is allowed at the root. The chart is room to work in, as for `read`.
pub fn read_flat(flat: &[u8], roots: &[bool; LINE_LIMIT], text: &[u8], chart: &mut Vec<u8>) -> Answer {
    let bytes = roots.map(u8::from);
    let lent = [flat, &bytes, text];
    let answer = |chart: &mut [u8], listing: &mut [u8]| call_flat_text(meadowsink_read_flat, lent, chart, listing);
    parse(chart, answer, |chart, listing| call_flat_text(meadowsink_read_flat_place, lent, chart, listing))
}

// ---- sheets

/// Reads the lines of a sheet, each by itself. The chart is room to work in, as for `read`.
pub fn sheet(book: &[u8], sheet: &[u8], chart: &mut Vec<u8>) -> Summary {
    grow_chart(book, sheet, chart);
    let mut summary = vec![0; sheet.len()];
    match split(call_text(meadowsink_sheet, book, sheet, chart, &mut summary)) {
        (1, lines) => Summary::Lines(summary[..lines as usize].iter().map(|&byte| line_answer(byte.into())).collect()),
        (_, number) => Summary::Refused { number, place: call_text(meadowsink_sheet_place, book, sheet, chart, &mut summary) },
    }
}

/// Goes down a sheet from a start, a line at a step; a start inside a line takes its rest as the line.
pub fn walk<'a>(book: &'a [u8], sheet: &'a [u8], start: usize) -> Walker<'a> {
    let mut chart = Vec::new();
    grow_chart(book, sheet, &mut chart);
    Walker { book, sheet, next: start, chart, refused: false }
}

/// The book, the sheet and where its next line starts. A refusal ends it.
pub struct Walker<'a> {
    book: &'a [u8],
    sheet: &'a [u8],
    next: usize,
    chart: Vec<u8>,
    refused: bool,
}

impl<'a> Iterator for Walker<'a> {
    type Item = Step<'a>;

    fn next(&mut self) -> Option<Step<'a>> {
        if self.refused {
            return None;
        }
        let start = self.next;
        match split(call_step(meadowsink_sheet_step, self.book, self.sheet, start, &mut self.chart)) {
            (0, _) => None,
            (1, value) => {
                self.next = (value / 4) as usize;
                let line = self.sheet[start..].split(|&byte| byte == b'\n').next().unwrap_or_default();
                Some(Step::Line { line, answer: line_answer(value % 4) })
            }
            (_, number) => {
                self.refused = true;
                Some(Step::Refused { number, place: call_step(meadowsink_sheet_step_place, self.book, self.sheet, start, &mut self.chart) })
            }
        }
    }
}

// The longest line that is not over the limit needs most, and the library says how much.
fn grow_chart(book: &[u8], sheet: &[u8], chart: &mut Vec<u8>) {
    let lines = sheet.split(|&byte| byte == b'\n').filter(|line| line.len() <= TEXT_LIMIT);
    let longest = lines.max_by_key(|line| line.len()).unwrap_or_default();
    if split(call_text(meadowsink_read, book, longest, &mut [], &mut [])) == (3, CHART_SHORT) {
        let needed = call_text(meadowsink_read_place, book, longest, &mut [], &mut []) as usize;
        chart.resize(needed.max(chart.len()), 0);
    }
}

fn line_answer(byte: u64) -> LineAnswer {
    [LineAnswer::None, LineAnswer::One, LineAnswer::Several, LineAnswer::Refused][byte as usize]
}

// ---- bytes, and results

// Two bytes a number, low byte first.
fn to_bytes(listing: &[u16]) -> Vec<u8> {
    listing.iter().flat_map(|n| n.to_le_bytes()).collect()
}

// With no room at all the refusal that has the number `short` tells how many bytes are needed.
fn write(short: u64, answer: impl Fn(&mut [u8]) -> u64, place: impl Fn(&mut [u8]) -> u64) -> Written {
    let needed = place(&mut []);
    let (_, number) = split(answer(&mut []));
    if number != short {
        return Written::Refused { number, place: needed };
    }
    let mut out = vec![0; needed as usize];
    let (_, length) = split(answer(&mut out));
    out.truncate(length as usize);
    Written::Text(String::from_utf8_lossy(&out).into_owned())
}

// A chart that is too short is refused by a number of its own, whose place is how many bytes are needed.
fn parse(chart: &mut Vec<u8>, answer: impl Fn(&mut [u8], &mut [u8]) -> u64, place: impl Fn(&mut [u8], &mut [u8]) -> u64) -> Answer {
    let mut listing = vec![0; LISTING_BYTES];
    let mut result = split(answer(chart, &mut listing));
    if result == (3, CHART_SHORT) {
        let needed = place(chart, &mut listing);
        chart.resize(needed as usize, 0);
        result = split(answer(chart, &mut listing));
    }
    match result {
        (0, _) => Answer::None,
        (1, length) => Answer::One(listing.chunks_exact(2).take(length as usize).map(|n| u16::from_le_bytes([n[0], n[1]])).collect()),
        (2, _) => Answer::Several,
        (_, number) => Answer::Refused { number, place: place(chart, &mut listing) },
    }
}

// The kind and the value of a result.
fn split(result: u64) -> (u64, u64) {
    (result % 4, result / 4)
}
