//! Damage to a flat text, so that it is no longer in the form, or names other lines: bytes changed, dropped, doubled,
//! exchanged, cut off or added, numerals replaced, ranges and arguments put in, lines exchanged.

use crate::prng::Dice;
use std::ops::Range;

/// The bytes that a flat text is made of, and some that look like them.
const TELLING: [u8; 24] = *b"0123456789\\-> []\n\n\\][-/:";
/// What else may stand in for a byte.
const FOREIGN: [u8; 8] = [0, 9, 13, b'+', b'_', b'^', 128, 255];
/// Numerals that are numbers of nothing, or no numerals.
const ODD_NUMERALS: [&str; 12] = ["256", "257", "322", "400", "999", "1000", "00", "01", "099", "", "-1", "65536"];

fn telling_byte(dice: &mut Dice) -> u8 {
    if dice.chance(90) {
        return dice.pick(&TELLING);
    }
    dice.pick(&FOREIGN)
}

/// Where the numerals stand.
fn numerals(text: &[u8]) -> Vec<Range<usize>> {
    let mut found: Vec<Range<usize>> = vec![];
    for (at, _) in text.iter().enumerate().filter(|(_, byte)| byte.is_ascii_digit()) {
        match found.last_mut() {
            Some(last) if last.end == at => last.end = at + 1,
            _ => found.push(at..at + 1),
        }
    }
    found
}

/// A number near another one, or any.
fn other_numeral(dice: &mut Dice, old: &str) -> String {
    let number: usize = old.parse().unwrap_or(0);
    match dice.below(8) {
        0 => (number + 1).to_string(),
        1 => number.saturating_sub(1).to_string(),
        2 => (number + 2).to_string(),
        3 => number.saturating_sub(2).to_string(),
        4 => dice.below(256).to_string(),
        5 => dice.between(256, 323).to_string(),
        6 => format!("0{old}"),
        _ => dice.pick(&ODD_NUMERALS).to_string(),
    }
}

/// A numeral is replaced, or gets a range behind it.
fn renumber(dice: &mut Dice, text: &mut Vec<u8>) {
    let places = numerals(text);
    if places.is_empty() {
        return;
    }
    let place = places[dice.below(places.len())].clone();
    let old = String::from_utf8_lossy(&text[place.clone()]).into_owned();
    let other = other_numeral(dice, &old);
    let new = match dice.below(6) {
        0 => format!("{old}\\{other}"),
        1 => format!("{old}-\\{other}"),
        2 => format!("{old}\\{other}-\\{}", other_numeral(dice, &other)),
        _ => other,
    };
    text.splice(place, new.into_bytes());
}

/// The starts of lines.
fn starts(text: &[u8]) -> Vec<usize> {
    let behind = (0..text.len()).filter(|&at| text[at] == b'\n').map(|at| at + 1);
    [0].into_iter().chain(behind).filter(|&at| at < text.len()).collect()
}

fn exchange_lines(dice: &mut Dice, text: &mut Vec<u8>) {
    let mut lines: Vec<Vec<u8>> = text.split_inclusive(|&byte| byte == b'\n').map(|line| line.to_vec()).collect();
    if lines.len() > 1 {
        let first = dice.below(lines.len() - 1);
        let second = dice.between(first + 1, lines.len() - 1);
        lines.swap(first, second);
    }
    *text = lines.concat();
}

/// One more argument at the start of some line: more than 8, it may be.
fn add_argument(dice: &mut Dice, text: &mut Vec<u8>) {
    let places = starts(text);
    if !places.is_empty() {
        let at = dice.pick(&places);
        let argument = dice.pick(&["[] ", "[\\97] ", "[\\258] ", "[\\97\\258] ", "[\\255-\\258] ", "[\\2] []"]);
        text.splice(at..at, argument.bytes());
    }
}

/// One more line at the end, or one that is there already, or some byte.
fn add_line(dice: &mut Dice, text: &mut Vec<u8>) {
    let lines = starts(text).len();
    let more = match dice.below(4) {
        0 => vec![telling_byte(dice)],
        1 => text.split_inclusive(|&byte| byte == b'\n').next().unwrap_or(b"\n").to_vec(),
        _ => format!("-> [\\{}]\n", 258 + lines).into_bytes(),
    };
    text.extend(more);
}

/// Two digits, or two neighbours.
fn exchange_bytes(dice: &mut Dice, text: &mut [u8]) {
    let digits: Vec<usize> = (0..text.len()).filter(|&at| text[at].is_ascii_digit()).collect();
    if dice.chance(50) && !digits.is_empty() {
        text.swap(dice.pick(&digits), dice.pick(&digits));
    } else if text.len() > 1 {
        let at = dice.below(text.len() - 1);
        text.swap(at, at + 1);
    }
}

/// One damage.
pub fn damage(dice: &mut Dice, text: &mut Vec<u8>) {
    let at = dice.below(text.len());
    match dice.below(16) {
        0 => text.truncate(at),
        1 | 2 if at < text.len() => drop(text.remove(at)),
        3 | 4 if at < text.len() => text.insert(at, text[at]),
        5 | 6 if at < text.len() => text[at] = telling_byte(dice),
        7 => text.insert(at, telling_byte(dice)),
        8 => exchange_bytes(dice, text),
        9 => exchange_lines(dice, text),
        10 => add_argument(dice, text),
        11 => add_line(dice, text),
        _ => renumber(dice, text),
    }
}

/// The text as it is, or with damage once, or more often.
pub fn perhaps_damaged(dice: &mut Dice, mut text: Vec<u8>) -> Vec<u8> {
    for _ in 0..dice.pick(&[0, 0, 1, 1, 1, 1, 2, 3]) {
        damage(dice, &mut text);
    }
    text
}
