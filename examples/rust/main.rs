// Each call of the wrapper: checks a book, writes its flat book, asks where a rule may not stand and why, reads a line, checks the listing, writes its page,
// takes parts of the line, reads it by the flat book alone, and reads it as a sheet, at once and step by step; and if two more books are given, compares the
// readings by them.
//
//     wrapper [BOOK [LINE [FIRST SECOND]]]    book T and the line 8/4*2 if nothing is said
mod meadowsink;

use meadowsink::{Answer, Comparison, Conflict, FlatVerdict, Judgement, Reason, Step, Summary, Verdict, Written, LINE_LIMIT};
use std::ffi::OsString;
use std::os::unix::ffi::OsStrExt;
use std::{env, fs, process};

const BOOK_T: &[u8] = include_bytes!("../../books/T.book");
const LINE: &str = "8/4*2";

fn print_book(book: &[u8]) {
    match meadowsink::check(book) {
        Verdict::Accepted => println!("book: accepted"),
        Verdict::Refused { number, place } => println!("book: refused {number} {place}"),
    }
    print_written("flat book", meadowsink::flat(book));
    print_conflict(book, 1, 2, 1);
    print_conflict(book, 1, 0, 2);
}

fn print_conflict(book: &[u8], p: usize, i: usize, q: usize) {
    let what = format!("rule {q} as argument {i} of rule {p}");
    match meadowsink::conflict(book, p, i, q) {
        Conflict::No => println!("{what}: no clash"),
        Conflict::Yes => println!("{what}: a clash"),
        Conflict::Refused { number, place } => println!("{what}: refused {number} {place}"),
    }
    match meadowsink::reason(book, p, i, q) {
        Reason::Free => println!("why: no rank forbids it"),
        Reason::Higher(chain) => println!("why: rule {p} is higher, by declarations {chain:?}"),
        Reason::AtFirst(declaration) => println!("why: at the first argument, by declaration {declaration}"),
        Reason::AtLast(declaration) => println!("why: at the last argument, by declaration {declaration}"),
        Reason::Refused { number, place } => println!("why: refused {number} {place}"),
    }
}

fn print_reading(book: &[u8], line: &[u8]) {
    let answer = meadowsink::read(book, line, &mut Vec::new());
    print_answer("readings", &answer);
    if let Answer::One(listing) = answer {
        print_judgement(meadowsink::check_listing(book, line, &listing));
        print_written("page", meadowsink::page(book, line, &listing));
        print_parts(book, line, &listing);
    }
}

fn print_answer(what: &str, answer: &Answer) {
    match answer {
        Answer::None => println!("{what}: none"),
        Answer::Several => println!("{what}: several"),
        Answer::Refused { number, place } => println!("{what}: refused {number} {place}"),
        Answer::One(listing) => {
            let words: Vec<String> = listing.iter().map(u16::to_string).collect();
            println!("{what}: one {}", words.join(" "));
        }
    }
}

// A book that is refused has no flat book. Without its last byte a flat book is cut short, and few have a line for each number that could be at the top.
fn print_flat_reading(book: &[u8], line: &[u8]) {
    let Written::Text(text) = meadowsink::flat(book) else { return };
    let flat = text.as_bytes();
    print_lines("lines of the flat book", meadowsink::check_flat(flat));
    print_lines("without its last byte", meadowsink::check_flat(&flat[..flat.len() - 1]));
    print_answer("readings by the flat book", &meadowsink::read_flat(flat, &roots(book), line, &mut Vec::new()));
    print_answer("with each number at the top", &meadowsink::read_flat(flat, &[true; LINE_LIMIT], line, &mut Vec::new()));
}

fn print_lines(what: &str, verdict: FlatVerdict) {
    match verdict {
        FlatVerdict::Lines(lines) => println!("{what}: {lines}"),
        FlatVerdict::Refused { number, place } => println!("{what}: refused {number} {place}"),
    }
}

// The rules of the start sort of an accepted book: behind the counts of rules and classes each rule has a byte for its result, and then its arguments.
fn roots(book: &[u8]) -> [bool; LINE_LIMIT] {
    let (rules, classes, start) = (book[1] as usize, book[2] as usize, book[4]);
    let mut roots = [false; LINE_LIMIT];
    let mut at = 6 + rules + classes;
    for rule in 0..rules {
        roots[rule] = book[at] == start;
        at += 1 + book[6 + rule] as usize;
    }
    roots
}

// Both parts are slices of the line, and are held at once.
fn print_parts(book: &[u8], line: &[u8], listing: &[u16]) {
    let last = listing.len() - 1;
    let parts = [0, last].map(|index| meadowsink::text_under(book, line, listing, index));
    println!("under number 0: \"{}\", under number {last}: \"{}\"", parts[0].escape_ascii(), parts[1].escape_ascii());
}

fn print_sheet(book: &[u8], sheet: &[u8]) {
    match meadowsink::sheet(book, sheet, &mut Vec::new()) {
        Summary::Lines(answers) => println!("sheet: {answers:?}"),
        Summary::Refused { number, place } => println!("sheet: refused {number} {place}"),
    }
    for step in meadowsink::walk(book, sheet, 0) {
        match step {
            Step::Line { line, answer } => println!("step: {answer:?} \"{}\"", line.escape_ascii()),
            Step::Refused { number, place } => println!("step: refused {number} {place}"),
        }
    }
}

// Two of the several readings that a line has by a book come by variants of it, with the same rules and other declarations.
fn print_comparison(book: &[u8], line: &[u8], variants: [&[u8]; 2]) {
    let answers = variants.map(|variant| meadowsink::read(variant, line, &mut Vec::new()));
    print_answer("readings by the first variant", &answers[0]);
    print_answer("by the second", &answers[1]);
    let [Answer::One(first), Answer::One(second)] = &answers else { return };
    match meadowsink::compare(book, line, first, second) {
        Comparison::Refused { number, place } => println!("compared: refused {number} {place}"),
        comparison => println!("compared: {comparison:?}"),
    }
}

fn print_written(what: &str, written: Written) {
    match written {
        Written::Text(text) => print!("{what}:\n{text}"),
        Written::Refused { number, place } => println!("{what}: refused {number} {place}"),
    }
}

fn print_judgement(judgement: Judgement) {
    match judgement {
        Judgement::Right => println!("listing: right"),
        Judgement::Wrong { index } => println!("listing: wrong {index}"),
        Judgement::Refused { number, place } => println!("listing: refused {number} {place}"),
    }
}

fn load(path: &OsString) -> Vec<u8> {
    fs::read(path).unwrap_or_else(|error| {
        eprintln!("wrapper: {} can't be read: {error}", path.to_string_lossy());
        process::exit(2)
    })
}

fn main() {
    // A line may hold any bytes, not only those of UTF-8.
    let words: Vec<OsString> = env::args_os().skip(1).collect();
    let book = words.first().map_or(BOOK_T.to_vec(), load);
    let line = words.get(1).map_or(LINE.as_bytes(), |line| line.as_bytes());
    print_book(&book);
    print_reading(&book, line);
    print_flat_reading(&book, line);
    print_sheet(&book, line);
    if let [_, _, first, second] = &words[..] {
        print_comparison(&book, line, [&load(first), &load(second)]);
    }
}
