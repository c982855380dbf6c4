//! Rules that are equal: the results are, and each argument is the same sort or the same set of characters.

use crate::grammar::{Grammar, Range, BYTE_MOST, FIRST_CLASS};

type Set = [bool; BYTE_MOST + 1];

fn set(ranges: &[Range]) -> Set {
    let mut set = [false; BYTE_MOST + 1];
    for (first, last) in ranges {
        set[*first.min(last) as usize..=*first.max(last) as usize].fill(true);
    }
    set
}

// A rule that is equal to an earlier one, and the classes that are one set under two names: the rule's, and the earlier one's.
pub struct Repeat {
    pub rule: usize,
    pub earlier: usize,
    pub classes: Vec<(usize, usize)>,
}

// The rules that are equal to an earlier one, each with the first such.
pub fn repeats(grammar: &Grammar) -> Vec<Repeat> {
    let sets: Vec<Set> = grammar.classes.iter().map(|ranges| set(ranges)).collect();
    let lowest = |class: usize| sets.iter().position(|set| *set == sets[class]).unwrap_or(class);
    let meaning = |argument: &u8| match (*argument as usize).checked_sub(FIRST_CLASS) {
        Some(class) => FIRST_CLASS + lowest(class),
        None => *argument as usize,
    };
    let meanings: Vec<(u8, Vec<usize>)> = grammar.productions.iter().map(|(result, arguments)| (*result, arguments.iter().map(meaning).collect())).collect();
    let earlier = |rule: usize| meanings[..rule].iter().position(|other| *other == meanings[rule]);
    let found = (0..meanings.len()).filter_map(|rule| earlier(rule).map(|first| (rule, first)));
    found.map(|(rule, earlier)| Repeat { rule, earlier, classes: names(grammar, rule, earlier) }).collect()
}

// Where the two rules name one set by two classes.
fn names(grammar: &Grammar, rule: usize, earlier: usize) -> Vec<(usize, usize)> {
    let (own, other) = (&grammar.productions[rule].1, &grammar.productions[earlier].1);
    let mut names = Vec::new();
    for (x, y) in own.iter().zip(other).filter(|(x, y)| x != y) {
        let pair = (*x as usize - FIRST_CLASS, *y as usize - FIRST_CLASS);
        if !names.contains(&pair) {
            names.push(pair);
        }
    }
    names
}
