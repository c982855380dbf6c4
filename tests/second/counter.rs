//! The second method: an exact count for every chart entry.
//!
//! An item is (rule, dots, start, end): the rule's first `dots` arguments spell that span. First an agenda finds which
//! items derive anything at all (the least fixed point of the booleans). Then Tarjan's search goes over the items that
//! do, along "is made from": a component with a cycle has endlessly many lists, and everything made from it too; every
//! other item is counted exactly from items already counted. No chart is filled in any order of columns.
//!
//! Rules come as the lines of a flat book: that of a book, or one that is given as text (request [7] of 02).

use crate::book::Book;
use crate::flat::{lines_in, Rooted};

/// Endlessly many, or too many for the type.
pub const ENDLESS: u64 = u64::MAX;

#[derive(Clone, Copy, PartialEq, Eq, Debug)]
pub struct Item {
    pub rule: usize,
    pub dots: usize,
    pub start: usize,
    pub end: usize,
}

/// Where 01 puts each item in the chart.
pub struct Layout {
    length: usize,
    rows: Vec<usize>,
    pub all_rows: usize,
}

impl Layout {
    pub fn new(book: &Book, length: usize) -> Layout {
        Layout::of_counts(book.rules.iter().map(|rule| rule.arguments.len()), length)
    }

    /// For rules with so many arguments.
    pub fn of_counts(counts: impl Iterator<Item = usize>, length: usize) -> Layout {
        let mut rows = vec![];
        let mut all_rows = 0;
        for count in counts {
            rows.push(all_rows);
            all_rows += count + 1;
        }
        Layout { length, rows, all_rows }
    }

    /// For the lines of a flat book.
    pub fn of_lines(lines: &Rooted, length: usize) -> Layout {
        Layout::of_counts(lines.flat.lines.iter().map(|arguments| arguments.len()), length)
    }

    fn spans(&self) -> usize {
        (self.length + 1) * (self.length + 2) / 2
    }

    pub fn need(&self) -> usize {
        self.all_rows * self.spans()
    }

    /// Starts before this one have length + 1, length, ... ends.
    pub fn place(&self, item: Item) -> usize {
        let earlier = item.start * (2 * self.length + 3 - item.start) / 2;
        (self.rows[item.rule] + item.dots) * self.spans() + earlier + (item.end - item.start)
    }
}

pub struct Counter<'a> {
    pub lines: &'a Rooted,
    pub text: &'a [u8],
    pub layout: Layout,
    /// For each rule and argument, the rules that may stand there.
    allowed: Vec<Vec<Vec<usize>>>,
    /// By chart place: does the item derive anything?
    lives: Vec<bool>,
    /// By chart place: how many lists.
    pub counts: Vec<u64>,
}

/// The agenda's memory: trees by where they start, and items by where they wait for a tree.
struct Agenda {
    open: Vec<Item>,
    trees_from: Vec<Vec<(usize, usize)>>,
    waiting_at: Vec<Vec<Item>>,
}

impl<'a> Counter<'a> {
    pub fn new(lines: &'a Rooted, text: &'a [u8]) -> Counter<'a> {
        let layout = Layout::of_lines(lines, text.len());
        let need = layout.need();
        let allowed = lines.flat.lines.iter().map(|sets| sets.iter().map(|set| lines_in(set)).collect()).collect();
        let mut counter = Counter { lines, text, layout, allowed, lives: vec![false; need], counts: vec![0; need] };
        counter.find_living();
        counter.counts = crate::loops::count_all(&counter);
        counter
    }

    pub fn lives(&self, item: Item) -> bool {
        self.lives[self.layout.place(item)]
    }

    pub fn count(&self, item: Item) -> u64 {
        self.counts[self.layout.place(item)]
    }

    pub fn rules(&self) -> usize {
        self.lines.flat.lines.len()
    }

    /// The rule with all its arguments over a span.
    pub fn whole(&self, rule: usize, start: usize, end: usize) -> Item {
        Item { rule, dots: self.lines.flat.count(rule), start, end }
    }

    fn find_living(&mut self) {
        let width = self.text.len() + 1;
        let mut agenda =
            Agenda { open: vec![], trees_from: vec![vec![]; width], waiting_at: vec![vec![]; width] };
        for rule in 0..self.rules() {
            for at in 0..width {
                self.wake(Item { rule, dots: 0, start: at, end: at }, &mut agenda);
            }
        }
        while let Some(item) = agenda.open.pop() {
            if item.dots == self.lines.flat.count(item.rule) {
                self.tree_found(item, &mut agenda);
            } else {
                self.argument_due(item, &mut agenda);
            }
        }
    }

    fn wake(&mut self, item: Item, agenda: &mut Agenda) {
        let place = self.layout.place(item);
        if !self.lives[place] {
            self.lives[place] = true;
            agenda.open.push(item);
        }
    }

    /// A new tree goes to every item that waits where it starts.
    fn tree_found(&mut self, tree: Item, agenda: &mut Agenda) {
        agenda.trees_from[tree.start].push((tree.rule, tree.end));
        for k in 0..agenda.waiting_at[tree.start].len() {
            let waiting = agenda.waiting_at[tree.start][k];
            if self.allowed[waiting.rule][waiting.dots].contains(&tree.rule) {
                self.wake(Item { dots: waiting.dots + 1, end: tree.end, ..waiting }, agenda);
            }
        }
    }

    /// An item short of an argument takes a character, or every tree already known there, and waits for more.
    fn argument_due(&mut self, item: Item, agenda: &mut Agenda) {
        if self.character_fits(item.rule, item.dots, item.end, item.end + 1) {
            self.wake(Item { dots: item.dots + 1, end: item.end + 1, ..item }, agenda);
        }
        if self.allowed[item.rule][item.dots].is_empty() {
            return;
        }
        agenda.waiting_at[item.end].push(item);
        for k in 0..agenda.trees_from[item.end].len() {
            let (rule, end) = agenda.trees_from[item.end][k];
            if self.allowed[item.rule][item.dots].contains(&rule) {
                self.wake(Item { dots: item.dots + 1, end, ..item }, agenda);
            }
        }
    }

    fn character_fits(&self, rule: usize, at: usize, start: usize, end: usize) -> bool {
        end == start + 1 && start < self.text.len() && self.lines.flat.lines[rule][at][self.text[start] as usize]
    }

    /// The ways to make an item with a dot: what stands before the last argument, and the living trees that the last
    /// argument may be (none listed if it is a character; no class has both characters and rules).
    pub fn ways(&self, item: Item) -> Vec<(Item, Vec<Item>)> {
        let mut ways = vec![];
        let last = item.dots - 1;
        for middle in item.start..=item.end {
            let before = Item { dots: last, end: middle, ..item };
            if !self.lives(before) {
                continue;
            }
            if self.character_fits(item.rule, last, middle, item.end) {
                ways.push((before, vec![]));
                continue;
            }
            let trees: Vec<Item> = self.allowed[item.rule][last]
                .iter()
                .map(|&q| self.whole(q, middle, item.end))
                .filter(|&t| self.lives(t))
                .collect();
            if !trees.is_empty() {
                ways.push((before, trees));
            }
        }
        ways
    }

    /// How many readings: a rule that may stand at the root over the whole text.
    pub fn readings(&self) -> u64 {
        self.starts().iter().fold(0, |sum, &t| sum.saturating_add(self.count(t)))
    }

    pub fn starts(&self) -> Vec<Item> {
        self.lines.roots.iter().map(|&r| self.whole(r, 0, self.text.len())).collect()
    }
}
