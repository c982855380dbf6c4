//! A grammar as numbers, and as the bytes of a book.

// Bytes of the header, of a range and of a declaration.
pub const HEADER: usize = 6;
pub const RANGE: usize = 2;
pub const DECLARATION: usize = 3;
pub const BYTE_MOST: usize = 255;
// In an argument byte sorts stand below this, and classes from it on; so there is no more room for either.
pub const FIRST_CLASS: usize = 64;
pub const CLASSES_MOST: usize = BYTE_MOST + 1 - FIRST_CLASS;
// The number of rule 0.
pub const FIRST_RULE: usize = 258;

// Of what a declaration speaks: of its two rules, or of every two rules from its first to its second.
#[derive(Clone, Copy, PartialEq)]
pub enum Reach {
    Pair,
    Group,
}

use Reach::{Group, Pair};

const LEFT: &str = "left";
const RIGHT: &str = "right";
const APART: &str = "not-together";
// The words for kinds 1 to 7, and of what they speak.
pub const KINDS: [(&str, Reach); 7] = [("higher", Pair), (LEFT, Pair), (RIGHT, Pair), (APART, Pair), (LEFT, Group), (RIGHT, Group), (APART, Group)];

// What a kind byte says, if it is one.
pub fn kind(byte: u8) -> Option<(&'static str, Reach)> {
    KINDS.get((byte as usize).checked_sub(1)?).copied()
}

pub type Range = (u8, u8);

pub struct Grammar {
    pub sorts: u8,
    pub start: u8,
    pub productions: Vec<(u8, Vec<u8>)>,
    pub classes: Vec<Vec<Range>>,
    pub priorities: Vec<[u8; DECLARATION]>,
}

impl Grammar {
    // Counts fit a byte: whoever makes a grammar sees to it.
    pub fn bytes(&self) -> Vec<u8> {
        let mut bytes = vec![self.sorts, self.productions.len() as u8, self.classes.len() as u8, self.priorities.len() as u8, self.start, 0];
        bytes.extend(self.productions.iter().map(|(_, arguments)| arguments.len() as u8));
        bytes.extend(self.classes.iter().map(|ranges| ranges.len() as u8));
        for (result, arguments) in &self.productions {
            bytes.push(*result);
            bytes.extend(arguments);
        }
        bytes.extend(self.classes.iter().flatten().flat_map(|&(low, high)| [low, high]));
        bytes.extend(self.priorities.iter().flatten());
        bytes
    }

    // The class of one character, if there is one.
    pub fn class_of(&self, character: u8) -> Option<usize> {
        self.classes.iter().position(|ranges| ranges[..] == [(character, character)])
    }
}

pub fn limit(count: usize, most: usize, what: &str) -> Result<(), String> {
    if count > most {
        return Err(format!("more than {most} {what}: the bytes of a book have no room for them"));
    }
    Ok(())
}

// ---- from bytes

// The grammar of a book, if the notation can say it.
pub fn decode(bytes: &[u8]) -> Result<Grammar, String> {
    let counts = counts(bytes)?;
    let (sorts, production_count, class_count) = (bytes[0], bytes[1] as usize, bytes[2] as usize);
    let mut body = bytes[HEADER + counts.len()..].iter().copied();
    let mut take = |n: usize| body.by_ref().take(n).collect::<Vec<u8>>();
    let productions: Vec<(u8, Vec<u8>)> = counts[..production_count].iter().map(|n| (take(1)[0], take(*n as usize))).collect();
    let classes: Vec<Vec<Range>> = counts[production_count..].iter().map(|n| take(RANGE * *n as usize).chunks(RANGE).map(|r| (r[0], r[1])).collect()).collect();
    let priorities: Vec<[u8; DECLARATION]> = take(usize::MAX).chunks(DECLARATION).map(|p| [p[0], p[1], p[2]]).collect();
    let known = |argument: u8| argument < sorts || (FIRST_CLASS..FIRST_CLASS + class_count).contains(&(argument as usize));
    if let Some(r) = productions.iter().position(|(result, arguments)| *result >= sorts || !arguments.iter().all(|a| known(*a))) {
        return Err(format!("rule {r}, counted from 0, names something that isn't there"));
    }
    let sound = |p: &[u8; DECLARATION]| kind(p[0]).is_some() && p[1].max(p[2]) < bytes[1];
    if let Some(d) = priorities.iter().position(|p| !sound(p)) {
        return Err(format!("declaration {d}, counted from 0, has no such kind or no such rule"));
    }
    Ok(Grammar { sorts, start: bytes[4], productions, classes, priorities })
}

// The counts behind the header, if the book has the length they call for and a header that the notation can say.
fn counts(bytes: &[u8]) -> Result<&[u8], String> {
    let &[sorts, productions, classes, priorities, start, zero, ..] = bytes else {
        return Err(format!("{} bytes, fewer than the {HEADER} of a header", bytes.len()));
    };
    let (productions, classes) = (productions as usize, classes as usize);
    let Some(counts) = bytes.get(HEADER..HEADER + productions + classes) else {
        return Err(format!("{} bytes, too few for the counts of {productions} rules and {classes} classes", bytes.len()));
    };
    let sum = |counts: &[u8]| counts.iter().map(|n| *n as usize).sum::<usize>();
    let (of_productions, of_classes) = counts.split_at(productions);
    let wanted = HEADER + counts.len() + productions + sum(of_productions) + RANGE * sum(of_classes) + DECLARATION * priorities as usize;
    if bytes.len() != wanted {
        return Err(format!("{} bytes, but its counts call for {wanted}", bytes.len()));
    }
    if start >= sorts || zero != 0 {
        return Err("its start is no sort, or byte 5 is not 0".into());
    }
    limit(sorts as usize, FIRST_CLASS, "sorts")?;
    limit(classes, CLASSES_MOST, "classes")?;
    Ok(counts)
}
