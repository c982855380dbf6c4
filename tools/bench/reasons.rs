// How long the question for the reason of a conflict takes, beside the plain question, on books of as many rules and declarations as there may be.
use crate::best;
use std::process;

extern "C" {
    fn meadowsink_conflict(book: *const u8, n: usize, p: usize, i: usize, q: usize) -> u64;
    fn meadowsink_reason(book: *const u8, n: usize, p: usize, i: usize, q: usize, chain: *mut u8, c: usize) -> u64;
}

const KIND_YES: u64 = 1;
const LINES: u64 = 4;
const RULES: usize = 64;
const DECLARATIONS: usize = 255;
const CLASS_0: u8 = 64;
const HIGHER: u8 = 1;
const LEFT: u8 = 2;
const RIGHT_GROUP: u8 = 6;
// A question takes microseconds, so that many are timed at once.
const QUESTIONS: usize = 100;

type Declaration = (u8, usize, usize);

// Each rule has the arguments sort, class, sort, and a class of its own.
fn book(declarations: &[Declaration]) -> Vec<u8> {
    let mut book = vec![1, RULES as u8, RULES as u8, declarations.len() as u8, 0, 0];
    book.extend([3; RULES]);
    book.extend([1; RULES]);
    (0..RULES as u8).for_each(|r| book.extend([0, 0, CLASS_0 + r, 0]));
    (0..RULES as u8).for_each(|r| book.extend([r, r]));
    declarations.iter().for_each(|&(kind, first, second)| book.extend([kind, first as u8, second as u8]));
    book
}

// As many declarations as there may be, over and over those that are given.
fn filled(own: Vec<Declaration>) -> Vec<Declaration> {
    own.into_iter().cycle().take(DECLARATIONS).collect()
}

// Rule 0 above rule 1 above rule 2, and so on.
fn ladder() -> Vec<Declaration> {
    (1..RULES).map(|r| (HIGHER, r - 1, r)).collect()
}

// Eight rules to a level, each above each of the next level.
fn levels() -> Vec<Declaration> {
    (8..RULES).flat_map(|r| (0..8).map(move |k| (HIGHER, r / 8 * 8 - 8 + k, r))).take(DECLARATIONS).collect()
}

// The name, the declarations, and the question; the last declaration alone covers the pair in the last two.
fn cases() -> Vec<(&'static str, Vec<Declaration>, (usize, usize, usize))> {
    let late = |kind, first, second, (f, s)| filled(vec![(kind, f, s)]).into_iter().skip(1).chain([(kind, first, second)]).collect();
    vec![
        ("line 1, chain of 63", filled(ladder()), (0, 0, 63)),
        ("the same from below", filled(ladder().into_iter().rev().collect()), (0, 0, 63)),
        ("line 1, chain of 1", filled(ladder()), (62, 0, 63)),
        ("line 1, by levels", levels(), (0, 0, 31)),
        ("line 2, group", late(RIGHT_GROUP, 0, 63, (1, 62)), (0, 0, 63)),
        ("line 3", late(LEFT, 0, 63, (1, 62)), (63, 2, 0)),
    ]
}

// Microseconds for one question.
fn one(mut ask: impl FnMut() -> u64) -> (f64, u64) {
    let mut answer = 0;
    let time = best(|| (0..QUESTIONS).for_each(|_| answer = ask()));
    (time * 1e3 / QUESTIONS as f64, answer)
}

pub fn reasons() {
    println!("\nreasons: microseconds for one question, 64 rules and 255 declarations, and for the plain question");
    println!("{:<22} {:>6} {:>6} {:>10} {:>10}", "conflict", "line", "n", "reason", "plain");
    for (name, declarations, (p, i, q)) in cases() {
        let (book, mut chain) = (book(&declarations), [0u8; RULES]);
        let (time, answer) = one(|| unsafe { meadowsink_reason(book.as_ptr(), book.len(), p, i, q, chain.as_mut_ptr(), chain.len()) });
        let (plain, _) = one(|| unsafe { meadowsink_conflict(book.as_ptr(), book.len(), p, i, q) });
        if answer % 4 != KIND_YES {
            eprintln!("bench: {name} is no conflict");
            process::exit(1);
        }
        println!("{name:<22} {:>6} {:>6} {time:>10.1} {plain:>10.1}", answer / 4 % LINES, answer / 4 / LINES);
    }
}
