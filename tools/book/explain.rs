//! What stands at each byte of a book, whether it is accepted or not.

use crate::equal::{repeats, Repeat};
use crate::grammar::{decode, kind, Reach, DECLARATION, FIRST_CLASS, HEADER};
use crate::tokens::character;

// Their limits, as those below, are the library's.
const HEADER_WORDS: [&str; HEADER] = [
    "the number of sorts, 1 to 32",
    "the number of rules, 1 to 64",
    "the number of classes, 0 to 64",
    "the number of declarations",
    "the start",
    "a byte that must be 0",
];

// What a byte is, with the rule, class or declaration that it belongs to, and which argument or range of it.
#[derive(Clone, Copy)]
enum Part {
    Header(usize),
    ArgumentCount(usize),
    RangeCount(usize),
    RuleResult(usize),
    Argument(usize, usize),
    FirstEnd(usize, usize),
    SecondEnd(usize, usize),
    Kind(usize),
    First(usize),
    Second(usize),
    GroupFirst(usize),
    GroupLast(usize),
}

use Part::{Argument, ArgumentCount, First, FirstEnd, GroupFirst, GroupLast, Header, Kind, RangeCount, RuleResult, Second, SecondEnd};

// The parts of a book in order, as its counts call for them; as far as there are counts.
fn parts(bytes: &[u8]) -> Vec<Part> {
    let mut parts: Vec<Part> = (0..HEADER).map(Header).collect();
    let &[_, rules, classes, declarations, _, _, ..] = bytes else {
        return parts;
    };
    parts.extend((0..rules as usize).map(ArgumentCount));
    parts.extend((0..classes as usize).map(RangeCount));
    let Some(counts) = bytes.get(HEADER..parts.len()) else {
        return parts;
    };
    let (of_rules, of_classes) = counts.split_at(rules as usize);
    for (rule, count) in of_rules.iter().enumerate() {
        parts.push(RuleResult(rule));
        parts.extend((0..*count as usize).map(|index| Argument(rule, index)));
    }
    for (class, count) in of_classes.iter().enumerate() {
        parts.extend((0..*count as usize).flat_map(|index| [FirstEnd(class, index), SecondEnd(class, index)]));
    }
    for d in 0..declarations as usize {
        parts.extend(declaration(d, bytes.get(parts.len())));
    }
    parts
}

// The parts of declaration d, by the byte of its kind, if that is there.
fn declaration(d: usize, byte: Option<&u8>) -> [Part; DECLARATION] {
    match byte.and_then(|byte| kind(*byte)) {
        Some((_, Reach::Group)) => [Kind(d), GroupFirst(d), GroupLast(d)],
        _ => [Kind(d), First(d), Second(d)],
    }
}

fn kind_words(byte: u8) -> String {
    match kind(byte) {
        Some((word, Reach::Pair)) => word.into(),
        Some((word, Reach::Group)) => format!("{word}, of a group"),
        None => "no kind".into(),
    }
}

impl Part {
    fn words(self) -> String {
        match self {
            Header(at) => HEADER_WORDS[at].into(),
            ArgumentCount(rule) => format!("the argument count of rule {rule}, at most 8"),
            RangeCount(class) => format!("the range count of class {class}, at most 16"),
            RuleResult(rule) => format!("the result of rule {rule}"),
            Argument(rule, index) => format!("argument {index} of rule {rule}"),
            FirstEnd(class, index) => format!("the first end of range {index} of class {class}"),
            SecondEnd(class, index) => format!("the second end of range {index} of class {class}"),
            Kind(d) => format!("the kind of declaration {d}"),
            First(d) => format!("the first rule of declaration {d}"),
            Second(d) => format!("the second rule of declaration {d}"),
            GroupFirst(d) => format!("the first rule of the group of declaration {d}"),
            GroupLast(d) => format!("the last rule of the group of declaration {d}"),
        }
    }

    // What the byte says, if that isn't a count.
    fn meaning(self, bytes: &[u8], place: usize) -> Option<String> {
        let value = bytes[place] as usize;
        let named = |what: &str, number: usize, count: u8| match number < count as usize {
            true => format!("{what} {number}"),
            false => format!("{what} {number}, and there is none"),
        };
        let end = || character(value as u8);
        let rule = || named("rule", value, bytes[1]);
        let falls = bytes.get(place + 1).is_some_and(|next| (*next as usize) < value);
        match self {
            Header(4) | RuleResult(_) => Some(named("sort", value, bytes[0])),
            Argument(..) if value >= FIRST_CLASS => Some(named("class", value - FIRST_CLASS, bytes[2])),
            Argument(..) => Some(named("sort", value, bytes[0])),
            FirstEnd(..) if falls => Some(format!("{}, written downwards", end())),
            FirstEnd(..) | SecondEnd(..) => Some(end()),
            Kind(_) => Some(kind_words(value as u8)),
            GroupFirst(_) if falls && value < bytes[1] as usize => Some(format!("{}, above the last", rule())),
            First(_) | Second(_) | GroupFirst(_) | GroupLast(_) => Some(rule()),
            _ => None,
        }
    }
}

// Of a rule that is equal to an earlier one: which that is, and which classes are one set.
fn equal_words(repeat: &Repeat) -> String {
    let sets: Vec<String> = repeat.classes.iter().map(|(own, other)| format!("class {own} is the set of class {other}")).collect();
    let why = if sets.is_empty() { String::new() } else { format!(": {}", sets.join(", ")) };
    format!("; rule {} is equal to rule {}{why}", repeat.rule, repeat.earlier)
}

// What is to be said of a byte beside what it says itself, if the book can be read so far.
fn remark(bytes: &[u8], part: Part) -> Option<String> {
    let RuleResult(rule) = part else {
        return None;
    };
    repeats(&decode(bytes).ok()?).iter().find(|repeat| repeat.rule == rule).map(equal_words)
}

// The line of a byte: its place, its value, what it is, and what it says.
fn line(bytes: &[u8], parts: &[Part], place: usize) -> Result<String, String> {
    match (parts.get(place), bytes.get(place)) {
        (Some(part), Some(value)) => {
            let meaning = part.meaning(bytes, place).map_or(String::new(), |meaning| format!(": {meaning}"));
            let remark = remark(bytes, *part).unwrap_or_default();
            Ok(format!("{place:>4} {value:>3}  {}{meaning}{remark}\n", part.words()))
        }
        (Some(part), None) if place == bytes.len() => Ok(format!("{place:>4}   -  missing: {}\n", part.words())),
        (None, Some(value)) => Ok(format!("{place:>4} {value:>3}  too many: the counts call for {} bytes\n", parts.len())),
        _ => Err(format!("there is no byte {place}: it has {} bytes", bytes.len())),
    }
}

// What stands at one byte.
pub fn explain_byte(bytes: &[u8], place: usize) -> Result<String, String> {
    line(bytes, &parts(bytes), place)
}

// What stands at each byte, and which is the first that is missing.
pub fn explain(bytes: &[u8]) -> Result<String, String> {
    let parts = parts(bytes);
    let count = bytes.len() + (bytes.len() < parts.len()) as usize;
    let mut out = String::from("# Sorts, rules, arguments, classes, ranges and declarations are counted from 0.\n");
    for place in 0..count {
        out.push_str(&line(bytes, &parts, place)?);
    }
    Ok(out)
}
