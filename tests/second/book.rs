//! Reading a book's bytes by document 01 and requests [2], [3] and [5] of 02, with the number and place of the first refusal
//! in 01's order. No refusal has the number 6 any more.

use crate::ranks::Ranks;
use std::ops::Range;

/// Rule r has the number 258 + r.
pub const FIRST_RULE: u16 = 258;

#[derive(Clone, Copy, PartialEq, Eq, Debug)]
pub struct Refusal {
    pub number: u64,
    pub place: u64,
}

#[derive(Clone, Copy, PartialEq, Eq, Debug)]
pub enum Argument {
    Sort(usize),
    Class(usize),
}

pub struct Rule {
    pub result: usize,
    pub arguments: Vec<Argument>,
}

/// Kinds 1 to 4 are of two rules, kinds 5 to 7 of all rules from the first to the second.
#[derive(Clone, Copy, PartialEq, Eq, Debug)]
pub struct Declaration {
    pub kind: u8,
    pub first: usize,
    pub second: usize,
}

impl Declaration {
    pub fn is_group(&self) -> bool {
        (5..=7).contains(&self.kind)
    }
}

/// What a book's bytes hold if none of refusals 1 to 7 is met.
pub struct Bodies {
    start: usize,
    pub rules: Vec<Rule>,
    /// Where the result of each rule stands.
    pub places: Vec<usize>,
    classes: Vec<[bool; 256]>,
    pub declarations: Vec<Declaration>,
}

pub struct Book {
    pub start: usize,
    pub rules: Vec<Rule>,
    /// For each class, which bytes are in it.
    pub classes: Vec<[bool; 256]>,
    /// As they stand in the bytes, groups and all.
    pub declarations: Vec<Declaration>,
    pub ranks: Ranks,
}

fn refuse<T>(number: u64, place: usize) -> Result<T, Refusal> {
    Err(Refusal { number, place: place as u64 })
}

/// The four sizes and the start sort, from the first six bytes.
struct Header {
    sorts: usize,
    rules: usize,
    classes: usize,
    declarations: usize,
    start: usize,
}

fn header(bytes: &[u8]) -> Result<Header, Refusal> {
    if bytes.len() < 6 {
        return refuse(1, bytes.len());
    }
    let good = [
        (1..=32).contains(&bytes[0]),
        (1..=64).contains(&bytes[1]),
        bytes[2] <= 64,
        true,
        bytes[4] < bytes[0],
        bytes[5] == 0,
    ];
    if let Some(place) = good.iter().position(|g| !g) {
        return refuse(2, place);
    }
    let found = Header {
        sorts: bytes[0] as usize,
        rules: bytes[1] as usize,
        classes: bytes[2] as usize,
        declarations: bytes[3] as usize,
        start: bytes[4] as usize,
    };
    if bytes.len() < 6 + found.rules + found.classes {
        return refuse(1, bytes.len());
    }
    Ok(found)
}

/// The contents: each rule's argument count and each class's range count, and the length they call for.
fn contents<'a>(bytes: &'a [u8], head: &Header) -> Result<(&'a [u8], &'a [u8]), Refusal> {
    let middle = 6 + head.rules;
    let end = middle + head.classes;
    let (arguments, ranges) = (&bytes[6..middle], &bytes[middle..end]);
    if let Some(r) = arguments.iter().position(|&c| c > 8) {
        return refuse(3, 6 + r);
    }
    if let Some(k) = ranges.iter().position(|&c| c > 16) {
        return refuse(3, middle + k);
    }
    let rule_bytes: usize = arguments.iter().map(|&c| 1 + c as usize).sum();
    let range_bytes: usize = ranges.iter().map(|&c| 2 * c as usize).sum();
    let formula = end + rule_bytes + range_bytes + 3 * head.declarations;
    if formula != bytes.len() {
        return refuse(4, formula.min(bytes.len()));
    }
    Ok((arguments, ranges))
}

fn argument(byte: u8, head: &Header) -> Option<Argument> {
    let value = byte as usize;
    if value < head.sorts {
        Some(Argument::Sort(value))
    } else if value >= 64 && value - 64 < head.classes {
        Some(Argument::Class(value - 64))
    } else {
        None
    }
}

/// One rule's body from `at` on. The result must be a sort; 64 + k is no result.
fn rule(bytes: &[u8], at: usize, count: usize, head: &Header) -> Result<Rule, Refusal> {
    let Some(Argument::Sort(result)) = argument(bytes[at], head) else {
        return refuse(5, at);
    };
    let mut arguments = Vec::new();
    for place in at + 1..at + 1 + count {
        match argument(bytes[place], head) {
            Some(a) => arguments.push(a),
            None => return refuse(5, place),
        }
    }
    Ok(Rule { result, arguments })
}

/// The characters of some ranges, two bytes to a range: its ends, in either order.
pub fn class(ranges: &[u8]) -> [bool; 256] {
    let mut set = [false; 256];
    for ends in ranges.chunks(2) {
        let (low, high) = (ends[0].min(ends[1]), ends[0].max(ends[1]));
        set[low as usize..=high as usize].fill(true);
    }
    set
}

/// Where the ranges of each class stand, if the counts can be followed (none of refusals 1 to 4); else of no class.
pub fn class_places(bytes: &[u8]) -> Vec<Range<usize>> {
    let counts = header(bytes).and_then(|head| contents(bytes, &head));
    let Ok((argument_counts, range_counts)) = counts else {
        return vec![];
    };
    let rule_bytes: usize = argument_counts.iter().map(|&c| 1 + c as usize).sum();
    let mut at = 6 + argument_counts.len() + range_counts.len() + rule_bytes;
    let mut places = vec![];
    for &count in range_counts {
        places.push(at..at + 2 * count as usize);
        at += 2 * count as usize;
    }
    places
}

/// Kind, first and second rule as they come; the two rules of a group are compared when both are rules.
fn declaration(bytes: &[u8], at: usize, head: &Header) -> Result<Declaration, Refusal> {
    if !(1..=7).contains(&bytes[at]) {
        return refuse(7, at);
    }
    for place in [at + 1, at + 2] {
        if bytes[place] as usize >= head.rules {
            return refuse(7, place);
        }
    }
    let found = Declaration { kind: bytes[at], first: bytes[at + 1] as usize, second: bytes[at + 2] as usize };
    if found.is_group() && found.first > found.second {
        return refuse(7, at + 1);
    }
    Ok(found)
}

/// The bodies in these bytes, or the first of refusals 1 to 7.
pub fn bodies(bytes: &[u8]) -> Result<Bodies, Refusal> {
    let head = header(bytes)?;
    let (argument_counts, range_counts) = contents(bytes, &head)?;
    let mut at = 6 + head.rules + head.classes;
    let (mut rules, mut places, mut classes, mut declarations) = (vec![], vec![], vec![], vec![]);
    for &count in argument_counts {
        rules.push(rule(bytes, at, count as usize, &head)?);
        places.push(at);
        at += 1 + count as usize;
    }
    for &count in range_counts {
        classes.push(class(&bytes[at..at + 2 * count as usize]));
        at += 2 * count as usize;
    }
    for _ in 0..head.declarations {
        declarations.push(declaration(bytes, at, &head)?);
        at += 3;
    }
    Ok(Bodies { start: head.start, rules, places, classes, declarations })
}

impl Bodies {
    /// Are two arguments the same sort, or classes that have each byte both or neither, whatever their names?
    fn same_argument(&self, a: Argument, b: Argument) -> bool {
        match (a, b) {
            (Argument::Sort(s), Argument::Sort(t)) => s == t,
            (Argument::Class(k), Argument::Class(l)) => self.classes[k] == self.classes[l],
            _ => false,
        }
    }

    /// Request [5]: the results are the same, and so is each argument.
    fn equal(&self, a: &Rule, b: &Rule) -> bool {
        let same_arguments = || a.arguments.iter().zip(&b.arguments).all(|(&x, &y)| self.same_argument(x, y));
        a.result == b.result && a.arguments.len() == b.arguments.len() && same_arguments()
    }

    /// Refusal 8: the first rule that is equal to an earlier one.
    fn unlike(&self) -> Result<(), Refusal> {
        let is_twin = |r: usize| self.rules[..r].iter().any(|earlier| self.equal(earlier, &self.rules[r]));
        match (0..self.rules.len()).find(|&r| is_twin(r)) {
            Some(r) => refuse(8, self.places[r]),
            None => Ok(()),
        }
    }
}

/// The book in these bytes, or its first refusal.
pub fn read_book(bytes: &[u8]) -> Result<Book, Refusal> {
    let found = bodies(bytes)?;
    found.unlike()?;
    let Bodies { start, rules, classes, declarations, .. } = found;
    let ranks = Ranks::new(rules.len(), &declarations);
    if let Some(lowest) = ranks.circle() {
        return refuse(9, lowest);
    }
    Ok(Book { start, rules, classes, declarations, ranks })
}

impl Book {
    pub fn count(&self, rule: usize) -> usize {
        self.rules[rule].arguments.len()
    }

    /// The rules that may stand at a sort argument, lowest first; none at a class argument.
    pub fn allowed(&self, rule: usize, at: usize) -> Vec<usize> {
        let Argument::Sort(sort) = self.rules[rule].arguments[at] else {
            return vec![];
        };
        (0..self.rules.len())
            .filter(|&q| self.rules[q].result == sort && !self.clashes(rule, at, q))
            .collect()
    }
}
