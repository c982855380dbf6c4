// How long a flat text takes to be checked, and an empty text to be read by it, beside reading by the book that it is of.
use crate::{best, book};
use std::process;

extern "C" {
    fn meadowsink_flat(book: *const u8, n: usize, out: *mut u8, o: usize) -> u64;
    fn meadowsink_check_flat(flat: *const u8, f: usize) -> u64;
    fn meadowsink_read(book: *const u8, n: usize, text: *const u8, t: usize, chart: *mut u8, c: usize, listing: *mut u8, l: usize) -> u64;
    fn meadowsink_read_flat(flat: *const u8, f: usize, roots: *const u8, r: usize, text: *const u8, t: usize, chart: *mut u8, c: usize, listing: *mut u8, l: usize) -> u64;
}

const KIND_ONE: u64 = 1;
const LINES: usize = 64;
const ARGUMENTS: usize = 8;
const LAST_CHARACTER: usize = 255;
// More bytes than any flat text has.
const MOST: usize = 1 << 19;
const BOOKS: [&str; 5] = ["arithmetic", "words", "dense", "groups", "limits"];

fn written(book: &[u8]) -> Vec<u8> {
    let mut out = vec![0; MOST];
    let answer = unsafe { meadowsink_flat(book.as_ptr(), book.len(), out.as_mut_ptr(), out.len()) };
    if answer % 4 != KIND_ONE {
        eprintln!("bench: no flat text");
        process::exit(1);
    }
    out.truncate((answer / 4) as usize);
    out
}

fn range(low: usize, high: usize) -> String {
    if low == high {
        format!("\\{low}")
    } else {
        format!("\\{low}-\\{high}")
    }
}

// The longest class of numbers from `first` to `last`: its ranges, chosen from behind. No range of more than two numbers is longer than one of two.
fn longest_class(first: usize, last: usize) -> String {
    let mut from = vec![String::new(); last - first + 5];
    for at in (first..=last).rev() {
        let place = at - first;
        let one = range(at, at) + &from[place + 2];
        let two = if at < last { range(at, at + 1) + &from[place + 3] } else { String::new() };
        from[place] = [from[place + 1].clone(), one, two].into_iter().max_by_key(|t| t.len()).unwrap();
    }
    format!("[{}]", from[0])
}

// As many lines and arguments as there may be, each with the longest class.
fn longest() -> Vec<u8> {
    let arguments = (longest_class(0, LAST_CHARACTER) + " ").repeat(ARGUMENTS);
    (0..LINES).map(|r| format!("{arguments}-> [\\{}]\n", 258 + r)).collect::<String>().into_bytes()
}

// The longest that a text with numbers of lines can be.
fn longest_of_lines() -> Vec<u8> {
    let arguments = (longest_class(258, 257 + LINES) + " ").repeat(ARGUMENTS);
    (0..LINES).map(|r| format!("{arguments}-> [\\{}]\n", 258 + r)).collect::<String>().into_bytes()
}

fn check(flat: &[u8]) -> f64 {
    let mut answer = 0;
    let time = best(|| answer = unsafe { meadowsink_check_flat(flat.as_ptr(), flat.len()) });
    if answer % 4 != KIND_ONE {
        eprintln!("bench: a flat text is refused");
        process::exit(1);
    }
    time
}

// An empty text: all that is not the text's.
fn read(flat: &[u8]) -> f64 {
    let (roots, mut chart, mut listing) = ([1u8], vec![0u8; 1024], vec![0u8; 65536]);
    best(|| unsafe {
        meadowsink_read_flat(flat.as_ptr(), flat.len(), roots.as_ptr(), 1, flat.as_ptr(), 0, chart.as_mut_ptr(), chart.len(), listing.as_mut_ptr(), listing.len());
    })
}

fn read_book(book: &[u8]) -> f64 {
    let (mut chart, mut listing) = (vec![0u8; 1024], vec![0u8; 65536]);
    best(|| unsafe {
        meadowsink_read(book.as_ptr(), book.len(), book.as_ptr(), 0, chart.as_mut_ptr(), chart.len(), listing.as_mut_ptr(), listing.len());
    })
}

pub fn flats(folder: &str) {
    println!("\nflat texts: microseconds to check one, to read an empty text by it, and to read it by the book");
    println!("{:<16} {:>8} {:>10} {:>10} {:>10}", "flat text", "bytes", "check", "read", "by book");
    for name in BOOKS {
        let book = book(folder, name);
        let flat = written(&book);
        println!("{name:<16} {:>8} {:>10.1} {:>10.1} {:>10.1}", flat.len(), check(&flat) * 1e3, read(&flat) * 1e3, read_book(&book) * 1e3);
    }
    for (name, flat) in [("longest, lines", longest_of_lines()), ("longest", longest())] {
        println!("{name:<16} {:>8} {:>10.1} {:>10.1} {:>10}", flat.len(), check(&flat) * 1e3, read(&flat) * 1e3, "");
    }
}
