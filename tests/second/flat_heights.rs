//! Readings by a flat text in a second way, from Definition 3.4 of document 000: the trees of a line whose height is at most h
//! are counted, up to 2, from those of a height of at most h - 1, for all lines and spans at once, until a round brings no
//! more. Two trees of any height have then been met if there are two: counts up to 2 only rise, and a round that changes none
//! would change none for ever.
//!
//! The only listing is gone through with a stack of classes that are due.

use crate::compare::Mismatch;
use crate::flat::{lines_in, Flat, Rooted, Set, NUMBERS, RULES};
use crate::others::Outcome;
use crate::reading::Study;

/// Cases with a longer text or more rows of the chart are left out, to save time.
const LONGEST: usize = 9;
const MOST_ROWS: usize = 50;

/// How many, for each span of a text: at start * (length + 1) + end.
type Spans = Vec<u8>;

struct Grower<'a> {
    flat: &'a Flat,
    text: &'a [u8],
    width: usize,
}

impl Grower<'_> {
    /// How many characters or trees of the class spell each span.
    fn fitting(&self, set: &Set, trees: &[Spans]) -> Spans {
        let lines = lines_in(set);
        let in_span = |span: usize| {
            let (start, end) = (span / self.width, span % self.width);
            let character = end == start + 1 && set[self.text[start] as usize];
            let grown: usize = lines.iter().map(|&line| trees[line][span] as usize).sum();
            (character as usize + grown).min(2) as u8
        };
        (0..self.width * self.width).map(in_span).collect()
    }

    /// Lists of one part more.
    fn longer(&self, lists: &Spans, last: &Spans) -> Spans {
        let in_span = |span: usize| {
            let (start, end) = (span / self.width, span % self.width);
            let split = |middle: usize| lists[start * self.width + middle] * last[middle * self.width + end];
            (start..=end).fold(0, |sum, middle| (sum + split(middle)).min(2))
        };
        (0..self.width * self.width).map(in_span).collect()
    }

    /// The lists for each count of a line's arguments, made of these trees.
    fn lists(&self, line: usize, trees: &[Spans]) -> Vec<Spans> {
        let of_none = (0..self.width * self.width).map(|span| (span / self.width == span % self.width) as u8).collect();
        let mut rows: Vec<Spans> = vec![of_none];
        for set in &self.flat.lines[line] {
            let last = self.fitting(set, trees);
            rows.push(self.longer(&rows[rows.len() - 1], &last));
        }
        rows
    }

    /// The lists of all lines, made of all trees.
    fn all_lists(&self) -> Vec<Vec<Spans>> {
        let lines = self.flat.lines.len();
        let mut trees = vec![vec![0; self.width * self.width]; lines];
        loop {
            let rows: Vec<Vec<Spans>> = (0..lines).map(|line| self.lists(line, &trees)).collect();
            let higher: Vec<Spans> = rows.iter().map(|of_line| of_line[of_line.len() - 1].clone()).collect();
            if higher == trees {
                return rows;
            }
            trees = higher;
        }
    }
}

/// The bytes of a chart in 01's order: line, count of arguments, start, end.
fn in_order(rows: &[Vec<Spans>], width: usize) -> Vec<u8> {
    let mut chart = vec![];
    for row in rows.iter().flatten() {
        for start in 0..width {
            chart.extend(&row[start * width + start..(start + 1) * width]);
        }
    }
    chart
}

/// Are these numbers a tree of the lines, with an allowed line at the root, that spells the text?
pub fn is_reading(lines: &Rooted, text: &[u8], numbers: &[u16]) -> bool {
    let mut root = vec![false; NUMBERS];
    lines.roots.iter().for_each(|&line| root[RULES + line] = true);
    let mut due: Vec<&Set> = vec![&root];
    let mut left = text;
    for &number in numbers {
        let number = number as usize;
        if !due.pop().is_some_and(|set| number < NUMBERS && set[number]) {
            return false;
        }
        if number >= RULES {
            due.extend(lines.flat.lines[number - RULES].iter().rev());
            continue;
        }
        match left.split_first() {
            Some((&first, rest)) if first as usize == number => left = rest,
            _ => return false,
        }
    }
    due.is_empty() && left.is_empty()
}

fn wrong(what: &str, expected: String, found: String) -> Outcome {
    let call = format!("{what} by a flat text (this program against itself)");
    Err(Mismatch { call, expected, found, lent: vec![] })
}

/// The only listing is a reading, or the beginning of one that is too long to be unfolded.
fn listing_agrees(lines: &Rooted, study: &Study<Rooted>) -> Outcome {
    let Some(only) = study.listing.as_ref().filter(|only| only.whole) else {
        return Ok(());
    };
    if is_reading(lines, &study.text, &only.numbers) {
        return Ok(());
    }
    wrong("listing", "a reading".into(), format!("{:?}", only.numbers))
}

/// This program against itself: the chart and the number of readings, of a small case, and the only listing.
pub fn agrees(study: &Study<Rooted>) -> Outcome {
    let Ok(lines) = &study.book else {
        return Ok(());
    };
    listing_agrees(lines, study)?;
    let rows: usize = lines.flat.lines.iter().map(|arguments| arguments.len() + 1).sum();
    if study.text.len() > LONGEST || rows > MOST_ROWS {
        return Ok(());
    }
    let width = study.text.len() + 1;
    let all = Grower { flat: &lines.flat, text: &study.text, width }.all_lists();
    let counted: Vec<u8> = study.counts.iter().map(|&count| count.min(2) as u8).collect();
    if in_order(&all, width) != counted {
        return wrong("chart", format!("by heights: {:?}", in_order(&all, width)), format!("counter: {counted:?}"));
    }
    let of_root = |line: &usize| all[*line][lines.flat.count(*line)][width - 1] as u64;
    let readings = lines.roots.iter().map(of_root).sum::<u64>().min(2);
    if readings != study.readings.min(2) {
        return wrong("readings", format!("by heights: {readings}"), format!("counter: {}", study.readings));
    }
    Ok(())
}
