//! The statements of a text.

use crate::grammar::{limit, Range, Reach, BYTE_MOST, CLASSES_MOST, FIRST_CLASS, KINDS};
use crate::tokens::Token::{self, Character, Mark, Name, Text};
use crate::tokens::{tokens, COLON, COMMA, DASH, DOTS, EQUALS};

const RULE_FORM: &str = "a rule is NAME: SORT = ARGUMENT ...";

pub struct Named {
    pub name: String,
    pub line: usize,
}

pub enum Argument {
    Named(String),
    Character(u8),
}

pub struct Production {
    pub label: Named,
    pub result: String,
    pub arguments: Vec<Argument>,
}

pub struct Class {
    pub label: Named,
    pub ranges: Vec<Range>,
}

pub struct Priority {
    pub kind: u8,
    pub line: usize,
    pub first: String,
    pub second: String,
}

#[derive(Default)]
pub struct Source {
    pub line: usize,
    pub start: Option<Named>,
    pub sorts: Vec<Named>,
    pub classes: Vec<Class>,
    pub productions: Vec<Production>,
    pub priorities: Vec<Priority>,
}

// What is wrong, and in which line.
pub struct Fault {
    pub line: usize,
    pub what: String,
}

pub fn fault<T>(line: usize, what: String) -> Result<T, Fault> {
    Err(Fault { line, what })
}

pub fn parse(text: &[u8]) -> Result<Source, Fault> {
    let mut source = Source::default();
    for line in text.strip_suffix(b"\n").unwrap_or(text).split(|c| *c == b'\n') {
        source.line += 1;
        tokens(line).and_then(|words| source.statement(&words)).map_err(|what| Fault { line: source.line, what })?;
    }
    Ok(source)
}

impl Source {
    fn statement(&mut self, words: &[Token]) -> Result<(), String> {
        match words {
            [] => Ok(()),
            [Name(label), Mark(COLON), rest @ ..] => self.add_production(label, rest),
            [Name(_), Mark(EQUALS), ..] => self.add_production("", words),
            [Name(word), rest @ ..] if word == "start" => self.add_start(rest),
            [Name(word), rest @ ..] if word == "sorts" => self.add_sorts(rest),
            [Name(word), rest @ ..] if word == "class" => self.add_class(rest),
            [Name(word), rest @ ..] if KINDS.iter().any(|(own, _)| own == word) => self.add_priorities(word, rest),
            [Name(word), ..] => Err(format!("`{word}` starts no statement; {RULE_FORM}")),
            _ => Err("a statement starts with a name".into()),
        }
    }

    fn labelled(&self, name: &str) -> Named {
        Named { name: name.into(), line: self.line }
    }

    fn add_start(&mut self, words: &[Token]) -> Result<(), String> {
        let [Name(sort)] = words else {
            return Err("`start` takes one sort".into());
        };
        if let Some(earlier) = &self.start {
            return Err(format!("a second start; the first is in line {}", earlier.line));
        }
        self.start = Some(self.labelled(sort));
        Ok(())
    }

    fn add_sorts(&mut self, words: &[Token]) -> Result<(), String> {
        let misused = || Err("`sorts` takes names".into());
        if words.is_empty() {
            return misused();
        }
        for word in words {
            let Name(sort) = word else {
                return misused();
            };
            unused("sort", sort, self.sorts.iter())?;
            self.sorts.push(self.labelled(sort));
        }
        limit(self.sorts.len(), FIRST_CLASS, "sorts")
    }

    fn add_class(&mut self, words: &[Token]) -> Result<(), String> {
        let [Name(class), rest @ ..] = words else {
            return Err("`class` takes a name, and then characters".into());
        };
        unused("class", class, self.classes.iter().map(|c| &c.label))?;
        let ranges = ranges(rest)?;
        limit(ranges.len(), BYTE_MOST, "ranges in a class")?;
        self.classes.push(Class { label: self.labelled(class), ranges });
        limit(self.classes.len(), CLASSES_MOST, "classes")
    }

    fn add_production(&mut self, label: &str, words: &[Token]) -> Result<(), String> {
        let [Name(result), Mark(EQUALS), rest @ ..] = words else {
            return Err(RULE_FORM.into());
        };
        if !label.is_empty() {
            unused("rule", label, self.productions.iter().map(|p| &p.label))?;
        }
        let arguments = arguments(rest)?;
        limit(arguments.len(), BYTE_MOST, "arguments in a rule")?;
        self.productions.push(Production { label: self.labelled(label), result: result.clone(), arguments });
        limit(self.productions.len(), BYTE_MOST, "rules")
    }

    fn add_priorities(&mut self, word: &str, items: &[Token]) -> Result<(), String> {
        for item in items.split(|token| *token == Mark(COMMA)) {
            let Some((kind, first, second)) = priority(word, item) else {
                return Err(priority_form(word));
            };
            self.priorities.push(Priority { kind, line: self.line, first: first.into(), second: second.into() });
        }
        limit(self.priorities.len(), BYTE_MOST, "declarations")
    }
}

// The kind and the rules of a pair or a group behind a word, if the word takes it.
fn priority<'a>(word: &str, item: &'a [Token]) -> Option<(u8, &'a str, &'a str)> {
    let (reach, first, second) = match item {
        [Name(first), Name(second)] => (Reach::Pair, first, second),
        [Name(first), Mark(DOTS), Name(second)] => (Reach::Group, first, second),
        _ => return None,
    };
    let index = KINDS.iter().position(|kind| *kind == (word, reach))?;
    Some((index as u8 + 1, first, second))
}

fn priority_form(word: &str) -> String {
    match KINDS.contains(&(word, Reach::Group)) {
        true => format!("`{word}` takes pairs of rules, A B, and groups, A{DOTS}B, with commas between them"),
        false => format!("`{word}` takes pairs of rules, A B, with commas between them, and no groups"),
    }
}

fn unused<'a>(what: &str, name: &str, mut others: impl Iterator<Item = &'a Named>) -> Result<(), String> {
    match others.find(|other| other.name == name) {
        Some(other) => Err(format!("{what} `{name}` is already in line {}", other.line)),
        None => Ok(()),
    }
}

fn ranges(words: &[Token]) -> Result<Vec<Range>, String> {
    let (mut rest, mut out) = (words, Vec::new());
    while !rest.is_empty() {
        match rest {
            [Character(first), Mark(DASH), Character(last), behind @ ..] => {
                out.push((*first, *last));
                rest = behind;
            }
            [Character(only), behind @ ..] => {
                out.push((*only, *only));
                rest = behind;
            }
            _ => return Err("a class has characters and ranges FIRST-LAST of them".into()),
        }
    }
    Ok(out)
}

fn arguments(words: &[Token]) -> Result<Vec<Argument>, String> {
    let mut out = Vec::new();
    for word in words {
        match word {
            Name(name) => out.push(Argument::Named(name.clone())),
            Character(c) => out.push(Argument::Character(*c)),
            Text(text) => out.extend(text.iter().map(|c| Argument::Character(*c))),
            Mark(mark) => return Err(format!("`{mark}` is no argument")),
        }
    }
    Ok(out)
}
