//! A second parser, compared with the proved library.
//!
//! What is compared, for each case: the answer's kind and value, the refusal's number and place, every byte of the chart
//! and of the listing buffer (those that must be written and those that must stay), that book and text and the bytes
//! around every lent area are untouched; and so for the book check, clash questions, the flat
//! book with its buffer, and right, cut, changed and random listings: their check, their page for the binder with its
//! buffer, and the part of the text under a number. A book with groups is also compared with the book that has each pair
//! spelled out, if that has no more than 255 declarations. A book with ranges of two characters or more, accepted or refused,
//! is also compared with the same book with some of its ranges turned round, or all of them. Sheets are compared whole and
//! line by line: the count of lines, every byte of chart and summary, a walker's steps from line to line and from any start,
//! and each line read alone. Of every two readings of a small case it is seen where their listings part. Each numeral that the
//! library writes is read in base ten. Classes are tried with all 256 bytes, each alone as a text. Flat texts, whole and
//! damaged, are checked, and texts are read by them with some lines allowed at the root; the text of each accepted book is read
//! a second time by the flat text that the library writes for the book. Clashes are asked for their reasons, with every byte of
//! the chain's buffer, in the same books and in books with many ranks; a chain is judged, since any of the shortest will do.
//! Readings of one text are compared, by the same books and by books made for it: which is lower, of two, of two swapped and of
//! three in a row; and listings with faults, in each order of them.
//!
//! The proved parser fills a chart by columns with counts that stop at 2. This program has neither a column nor a chart
//! that is filled in order. It has two other methods, checked against each other on all small cases:
//!   trees.rs    keeps all trees as data, blind to priorities, and filters whole trees by the patterns of Definition 2.6;
//!   counter.rs  finds which items derive anything with an agenda, finds loops as strongly connected components
//!               (endlessly many), and counts the rest exactly.
//! Ranks are closed by depth-first search, and how short a chain of them can be is read from a table that is mended rule by
//! rule. Clashes and equal rules come in two forms, listings are checked with a stack, and pages are made from trees that are
//! put together from the last number to the first. The written form of a flat text is judged by all words that may come next,
//! numerals of every number among them, and again by writing its lines anew and by trying tails; readings by flat texts are
//! counted by counter.rs, and again by the heights of trees. Which of two readings is lower is seen from what their bags of rules
//! don't have in common, again from the highest rules used unequally often, and if they are small by a search of single steps.
//!
//! It was written from the papers alone, without reading the library's sources.
//!
//! Usage: second [cases] [seed] [trace]     (30000 cases from seed 1 if not given)
//! Case k has the seed `seed + k`, so `second 1 S` runs the one case of seed S after the fixed cases. With `trace` each
//! seed is printed before its case, for a case that crashes. Exit 1 at a mismatch, or if a run of 10,000 cases or more
//! never met some kind of answer.
//!
//! Build: rustc -O --edition 2021 main.rs -o second -L DIRECTORY -l static=meadowsink
#![allow(unexpected_cfgs)]

mod alike;
mod book;
mod cases;
mod compare;
mod counter;
mod crosscheck;
mod equal;
mod equal_notes;
mod equal_plans;
mod fixed;
mod fixed_clashes;
mod fixed_equal;
mod fixed_equal_calls;
mod fixed_flat_reads;
mod fixed_forms;
mod fixed_groups;
mod fixed_limits;
mod fixed_lower;
mod fixed_lower_counts;
mod fixed_lower_pairs;
mod fixed_lower_refusals;
mod fixed_numerals;
mod fixed_pages;
mod fixed_passing;
mod fixed_ranges;
mod fixed_reason_limits;
mod fixed_reason_pairs;
mod fixed_reason_refusals;
mod fixed_reasons;
mod fixed_sheets;
mod fixed_steps;
mod fixed_turned;
mod fixed_twins;
mod flat;
mod flat_calls;
mod flat_cases;
mod flat_damage;
mod flat_form;
mod flat_heights;
mod flat_lines;
mod flat_notes;
mod flat_plans;
mod flat_tails;
mod group_plans;
mod groups;
mod kinds;
mod library;
mod listing;
mod loops;
mod lower;
mod lower_books;
mod lower_calls;
mod lower_cases;
mod lower_laws;
mod lower_notes;
mod lower_plans;
mod lower_steps;
mod numerals;
mod others;
mod page_calls;
mod pages;
mod parting;
mod passing;
mod plans;
mod prng;
mod range_plans;
mod ranges;
mod ranks;
mod reading;
mod reason_calls;
mod reason_cases;
mod reason_notes;
mod reason_plans;
mod reasons;
mod sheet_calls;
mod sheet_cases;
mod sheet_notes;
mod sheet_plans;
mod sheets;
mod tally;
mod texts;
mod trees;
mod tries;
mod turned;
mod unfold;

use cases::Case;
use compare::Mismatch;
use prng::Dice;
use reading::Study;
use std::process::exit;
use tally::Tally;

/// One case through both methods and through every call that is linked.
pub fn all_calls(case: &Case, study: &Study, dice: &mut Dice, tally: &mut Tally) -> Result<(), Mismatch> {
    tally.note_sizes(case, study);
    equal::ways_agree(&case.book, &study.book)?;
    crosscheck::both_methods(case, study, dice, tally)?;
    compare::reading(&case.book, study, dice, tally)?;
    others::check(&case.book, &study.book, dice, tally)?;
    others::conflicts(&case.book, &study.book, dice, tally)?;
    others::flat(&case.book, &study.book, dice, tally)?;
    tries::listings(case, study, dice, tally)
}

/// One random case, its book with the groups spelled out, and with ranges turned round, a sheet, a class of the book, its own
/// flat text, the reason of a clash, and two listings compared; and a flat text to check, another to read by, a book with many
/// ranks, and one with many readings, which have nothing to do with the book.
/// Groups, downward ranges and equal or nearly equal rules are counted here alone, so that random books must have them whatever
/// the fixed ones have.
fn random_case(case: &Case, dice: &mut Dice, tally: &mut Tally) -> Result<(), Mismatch> {
    let study = Study::new(&case.book, &case.text);
    groups::note(&case.book, &study.book, tally);
    ranges::note(case, &study, tally);
    equal_notes::note(case, &study, tally);
    all_calls(case, &study, dice, tally)?;
    groups::same_answers(case, &study, "spelled out", dice, tally)?;
    turned::same_answers(case, &study, "turned", dice, tally)?;
    sheet_cases::perhaps(case, &study, dice, tally)?;
    passing::perhaps(case, &study, dice, tally)?;
    flat_cases::perhaps_of_book(case, &study, dice, tally)?;
    flat_cases::form(dice, tally)?;
    flat_cases::reading(dice, tally)?;
    reason_cases::perhaps_of_book(case, &study, dice, tally)?;
    reason_cases::ranked(dice, tally)?;
    lower_cases::perhaps_of_book(case, &study, dice, tally)?;
    lower_cases::perhaps_made(dice, tally)
}

fn decimals(bytes: &[u8]) -> String {
    if bytes.len() > 3000 {
        return format!("{} bytes, from the seed", bytes.len());
    }
    format!("{} bytes: {}", bytes.len(), bytes.iter().map(|b| b.to_string()).collect::<Vec<_>>().join(" "))
}

/// Prints what is needed to meet the mismatch again, and ends.
fn report(wrong: &Mismatch, seed: Option<u64>, case: Option<&Case>) -> ! {
    println!("MISMATCH in {}", wrong.call);
    match seed {
        Some(seed) => println!("  seed      {seed} (run: second 1 {seed})"),
        None => println!("  seed      a fixed case"),
    }
    if let Some(case) = case {
        println!("  book      {}", decimals(&case.book));
        println!("  text      {}", decimals(&case.text));
    }
    for (name, bytes) in &wrong.lent {
        println!("  {name:<9} {}", decimals(bytes));
    }
    let short = |words: &str| words.chars().take(2000).collect::<String>();
    println!("  expected  {}\n  found     {}", short(&wrong.expected), short(&wrong.found));
    exit(1)
}

fn main() {
    let words: Vec<String> = std::env::args().skip(1).collect();
    let number = |k: usize, other: u64| words.get(k).map_or(other, |w| w.parse().expect("a number"));
    let (cases, seed) = (number(0, 30_000), number(1, 1));
    let trace = words.len() > 2;
    let mut tally = Tally::new();
    if trace {
        println!("fixed cases");
    }
    if let Err(wrong) = fixed::run(&mut tally) {
        report(&wrong, None, None);
    }
    tally.is_random = true;
    for k in 0..cases {
        let own_seed = seed.wrapping_add(k);
        if trace {
            println!("seed {own_seed}");
        }
        let mut dice = Dice::new(own_seed);
        let case = cases::make(&mut dice);
        if let Err(wrong) = random_case(&case, &mut dice, &mut tally) {
            report(&wrong, Some(own_seed), Some(&case));
        }
    }
    tally.print();
    let short = cases >= 10_000 && !tally.missing().is_empty();
    println!("{cases} random cases from seed {seed}, no mismatch{}", if short { ", but a kind was never met" } else { "" });
    exit(short as i32)
}
