//! The two methods of this program against each other, on cases small enough to keep all trees: the verdict, the listing,
//! every chart entry; and on the way the patterns against the clash question, and the listing check and the page against the
//! trees, and where every two readings part. Some of the readings are then compared with each other.

use crate::book::Book;
use crate::cases::Case;
use crate::compare::Mismatch;
use crate::counter::{Item, Layout, ENDLESS};
use crate::listing::{check, to_bytes, Judgement};
use crate::lower_cases;
use crate::pages;
use crate::parting;
use crate::prng::Dice;
use crate::reading::Study;
use crate::tally::Tally;
use crate::trees::Forest;

fn wrong<T>(call: &str, expected: String, found: String) -> Result<T, Mismatch> {
    Err(Mismatch { call: format!("{call} (this program against itself)"), expected, found, lent: vec![] })
}

/// 01's three lines and Definition 2.6's patterns must say the same of every rule at every argument.
fn clashes_agree(book: &Book) -> Result<(), Mismatch> {
    let patterns = book.patterns();
    for p in 0..book.rules.len() {
        for i in 0..book.count(p) {
            for q in 0..book.rules.len() {
                let pattern = patterns.contains(&(p, i, q));
                if book.clashes(p, i, q) != pattern {
                    return wrong("clash", format!("pattern ({p}, {i}, {q}): {pattern}"), "the other".into());
                }
            }
        }
    }
    Ok(())
}

fn verdicts_agree(study: &Study, forest: &Forest, tally: &mut Tally) -> Result<(), Mismatch> {
    let found = forest.readings();
    let looped = if forest.looped { ", looped" } else { "" };
    let least = found.len() as u64;
    let agree = match (found.len(), forest.complete) {
        (0, true) => study.readings == 0,
        (1, true) => study.readings == 1,
        // Without loops nothing was left out, so even the number of readings must be the same.
        (_, true) if !forest.looped => study.readings == least,
        _ => study.readings >= least,
    };
    let name = match (found.len(), forest.complete) {
        (0, true) => format!("none{looped}"),
        (1, true) => format!("one{looped}"),
        (0 | 1, false) => format!("at least {least}"),
        _ => "several".into(),
    };
    if !agree {
        return wrong("verdict", format!("trees: {name}, {least} kept"), format!("counter: {}", study.readings));
    }
    tally.add("trees", name);
    if let (Some(only), [tree], true) = (&study.listing, &found[..], forest.complete) {
        // The counter unfolds no more than the viewer's call can hold; it must say so exactly when there is more.
        let spelled = forest.listing(*tree);
        let whole = spelled.len() == only.numbers.len();
        if !spelled.starts_with(&only.numbers) || whole != only.whole {
            return wrong("listing", format!("{spelled:?}"), format!("whole {}: {:?}", only.whole, only.numbers));
        }
    }
    Ok(())
}

fn charts_agree(book: &Book, study: &Study, forest: &Forest, tally: &mut Tally) -> Result<(), Mismatch> {
    let length = study.text.len();
    let layout = Layout::new(book, length);
    for rule in 0..book.rules.len() {
        for (dots, row) in forest.entries(rule).iter().enumerate() {
            for start in 0..=length {
                for end in start..=length {
                    let counted = study.counts[layout.place(Item { rule, dots, start, end })].min(2) as usize;
                    let listed = row[start * (length + 1) + end];
                    if counted != listed && (forest.complete || listed > counted) {
                        let item = format!("entry ({rule}, {dots}, {start}, {end})");
                        return wrong("chart", format!("trees: {item} is {listed}"), format!("counter: {counted}"));
                    }
                }
            }
        }
    }
    tally.add("trees", if forest.complete { "whole charts compared" } else { "charts compared from below" });
    Ok(())
}

/// Every kept tree of the start sort over the text is right if it is clash-free, else wrong. What a page says of the right
/// ones, from their numbers alone, is what the trees were grown with.
fn listings_agree(book: &Book, study: &Study, forest: &Forest) -> Result<(), Mismatch> {
    for (tree, clean) in forest.roots().into_iter().take(20) {
        let grown = forest.lines(tree);
        let numbers: Vec<u16> = grown.iter().map(|line| line.number).collect();
        let bytes = to_bytes(&numbers);
        if bytes.len() > 8192 {
            continue;
        }
        let judged = check(book, &study.text, &bytes);
        if (judged == Ok(Judgement::Right)) != clean {
            return wrong("listing check", format!("clash-free: {clean}, listing {bytes:?}"), format!("{judged:?}"));
        }
        if clean && pages::lines_of(book, &numbers) != grown {
            return wrong("page", format!("trees: {grown:?}"), format!("numbers: {:?}", pages::lines_of(book, &numbers)));
        }
    }
    Ok(())
}

/// The listing that the counter unfolds must be judged right, where it may be judged.
fn own_listing(book: &Book, study: &Study) -> Result<(), Mismatch> {
    let Some(only) = &study.listing else {
        return Ok(());
    };
    let bytes = to_bytes(&only.numbers);
    if !only.whole || bytes.len() > 8192 || check(book, &study.text, &bytes) == Ok(Judgement::Right) {
        return Ok(());
    }
    wrong("listing check", format!("right: {bytes:?}"), "wrong".into())
}

pub fn both_methods(case: &Case, study: &Study, dice: &mut Dice, tally: &mut Tally) -> Result<(), Mismatch> {
    let Ok(book) = &study.book else {
        return Ok(());
    };
    own_listing(book, study)?;
    if study.readings == ENDLESS {
        tally.add("counter", "endlessly many readings");
    }
    let rows: usize = book.rules.iter().map(|r| r.arguments.len() + 1).sum();
    if study.text.len() > 9 || rows > 50 {
        return Ok(());
    }
    clashes_agree(book)?;
    let forest = Forest::grow(book, &study.text, 1500);
    verdicts_agree(study, &forest, tally)?;
    charts_agree(book, study, &forest, tally)?;
    listings_agree(book, study, &forest)?;
    parting::check(&case.book, book, &forest, tally)?;
    lower_cases::perhaps_of_forest(case, book, &forest, dice, tally)
}
