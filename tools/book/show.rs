//! A grammar as text, with names of its own making.

use crate::grammar::{Grammar, Range, Reach, DECLARATION, FIRST_CLASS, FIRST_RULE, KINDS};
use crate::tokens::{character, DOTS};
use std::fmt::Write as _;

// Its ends as they stand: a range written downwards is shown so.
fn show_range((first, last): &Range) -> String {
    if first == last {
        return character(*first);
    }
    format!("{}-{}", character(*first), character(*last))
}

// A class of one character is shown as that character, unless an earlier class is the same.
fn show_argument(grammar: &Grammar, argument: u8) -> String {
    let Some(class) = (argument as usize).checked_sub(FIRST_CLASS) else {
        return format!("s{argument}");
    };
    match grammar.classes[class][..] {
        [(first, last)] if first == last && grammar.class_of(first) == Some(class) => character(first),
        _ => format!("c{class}"),
    }
}

fn show_priority([kind, first, second]: &[u8; DECLARATION]) -> String {
    let (word, reach) = KINDS[*kind as usize - 1];
    match reach {
        Reach::Pair => format!("{word} r{first} r{second}"),
        Reach::Group => format!("{word} r{first}{DOTS}r{second}"),
    }
}

pub fn show(grammar: &Grammar) -> String {
    let row = |words: &mut dyn Iterator<Item = String>| words.map(|word| format!(" {word}")).collect::<String>();
    let mut out = String::from("# Rule rN has the number 258 + N, class cN is 64 + N in an argument, and sort sN is N.\n");
    let starts = grammar.productions.iter().enumerate().filter(|(_, (result, _))| *result == grammar.start);
    // Writing to a string doesn't fail.
    let _ = writeln!(out, "# Allowed at the top:{}", row(&mut starts.map(|(n, _)| (FIRST_RULE + n).to_string())));
    let _ = writeln!(out, "sorts{}", row(&mut (0..grammar.sorts).map(|n| format!("s{n}"))));
    let _ = writeln!(out, "start s{}", grammar.start);
    for (n, ranges) in grammar.classes.iter().enumerate() {
        let _ = writeln!(out, "class c{n}{}", row(&mut ranges.iter().map(show_range)));
    }
    for (n, (result, arguments)) in grammar.productions.iter().enumerate() {
        let _ = writeln!(out, "r{n}: s{result} ={}", row(&mut arguments.iter().map(|a| show_argument(grammar, *a))));
    }
    for priority in &grammar.priorities {
        let _ = writeln!(out, "{}", show_priority(priority));
    }
    out
}
