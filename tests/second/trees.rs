//! The first method: keep all trees as data, for each rule and span, without looking at priorities, and only then throw
//! out those in which some node matches a pattern of Definition 2.6.
//!
//! Where rules loop there are endlessly many trees, so one bound is needed that loses no verdict: no path downwards
//! passes the same rule over the same span three times. If a clash-free tree passes one twice, cutting out what is
//! between gives a smaller clash-free tree, since a clash looks at the two rules only; and doing it the other way round
//! gives larger ones. So if there is any clash-free tree there is one without a repeat, and if there is any with a
//! repeat then the smallest such has no path with three of the same: it is kept, beside the one without. None, one and
//! several are therefore read off the kept trees, unless the search stopped because of their number.

use crate::book::{Argument, Book, FIRST_RULE};
use crate::pages::Line;
use std::collections::HashSet;

#[derive(Clone, Copy)]
pub enum Part {
    Character(u8),
    /// A tree by its place among the kept ones.
    Tree(usize),
}

pub struct Node {
    pub rule: usize,
    pub parts: Vec<Part>,
    start: usize,
    end: usize,
}

pub struct Forest<'a> {
    book: &'a Book,
    text: &'a [u8],
    patterns: HashSet<(usize, usize, usize)>,
    nodes: Vec<Node>,
    clean: Vec<bool>,
    /// The kept trees of each sort, start and end.
    shelf: Vec<Vec<usize>>,
    most: usize,
    steps: usize,
    /// Nothing was left out but what the bound on repeats leaves out.
    pub complete: bool,
    /// The bound on repeats left something out, so there are endlessly many trees (with or without clashes).
    pub looped: bool,
}

/// Where a round of growing stands: trees below `newest` are older than the last round, those from `known` on are of
/// this round and not used in it.
#[derive(Clone, Copy)]
struct Round {
    newest: usize,
    known: usize,
}

/// A rule being filled with parts.
struct Filling {
    rule: usize,
    start: usize,
    parts: Vec<Part>,
}

impl<'a> Forest<'a> {
    /// All trees over all spans of the text, at most about `most`.
    pub fn grow(book: &'a Book, text: &'a [u8], most: usize) -> Forest<'a> {
        let width = text.len() + 1;
        let sorts = 32;
        let mut forest = Forest {
            book,
            text,
            patterns: book.patterns(),
            nodes: vec![],
            clean: vec![],
            shelf: vec![vec![]; sorts * width * width],
            most,
            steps: 0,
            complete: false,
            looped: false,
        };
        forest.rounds();
        for tree in 0..forest.nodes.len() {
            let clean = !forest.has_conflict(tree);
            forest.clean.push(clean);
        }
        forest
    }

    /// Round h makes exactly the trees of height h, so each tree is made once.
    fn rounds(&mut self) {
        let mut newest = 0;
        loop {
            let known = self.nodes.len();
            let round = Round { newest, known };
            for rule in 0..self.book.rules.len() {
                for start in 0..=self.text.len() {
                    self.fill(round, &mut Filling { rule, start, parts: vec![] }, start, known == 0);
                }
            }
            if self.stopped() {
                return;
            }
            if self.nodes.len() == known {
                self.complete = true;
                return;
            }
            newest = known;
        }
    }

    fn stopped(&self) -> bool {
        self.nodes.len() > self.most || self.steps > 40 * self.most
    }

    fn shelf_of(&self, sort: usize, start: usize, end: usize) -> usize {
        let width = self.text.len() + 1;
        (sort * width + start) * width + end
    }

    /// Adds every list of parts for the rest of the rule, from text place `at` on. `new` says whether a tree of the last
    /// round is among the parts (in the first round there is none to ask for).
    fn fill(&mut self, round: Round, filling: &mut Filling, at: usize, new: bool) {
        self.steps += 1;
        if self.stopped() {
            return;
        }
        let index = filling.parts.len();
        let Some(&argument) = self.book.rules[filling.rule].arguments.get(index) else {
            if new {
                self.keep(filling, at);
            }
            return;
        };
        match argument {
            Argument::Class(k) => {
                if at < self.text.len() && self.book.classes[k][self.text[at] as usize] {
                    filling.parts.push(Part::Character(self.text[at]));
                    self.fill(round, filling, at + 1, new);
                    filling.parts.pop();
                }
            }
            Argument::Sort(sort) => self.fill_tree(round, filling, at, new, sort),
        }
    }

    fn fill_tree(&mut self, round: Round, filling: &mut Filling, at: usize, new: bool, sort: usize) {
        for end in at..=self.text.len() {
            let shelf = self.shelf_of(sort, at, end);
            for k in 0..self.shelf[shelf].len() {
                let tree = self.shelf[shelf][k];
                if tree >= round.known {
                    break;
                }
                filling.parts.push(Part::Tree(tree));
                self.fill(round, filling, end, new || tree >= round.newest);
                filling.parts.pop();
            }
        }
    }

    fn keep(&mut self, filling: &Filling, end: usize) {
        let node = Node { rule: filling.rule, parts: filling.parts.clone(), start: filling.start, end };
        if self.repeats(&node, &node) >= 2 {
            self.looped = true;
            return;
        }
        let shelf = self.shelf_of(self.book.rules[node.rule].result, node.start, end);
        self.shelf[shelf].push(self.nodes.len());
        self.nodes.push(node);
    }

    /// The most nodes with the rule and span of `top` that lie on one path below `node`.
    fn repeats(&self, top: &Node, node: &Node) -> usize {
        let mut most = 0;
        for part in &node.parts {
            if let Part::Tree(t) = *part {
                let child = &self.nodes[t];
                if child.start == top.start && child.end == top.end {
                    let here = (child.rule == top.rule) as usize;
                    most = most.max(here + self.repeats(top, child));
                }
            }
        }
        most
    }

    /// Definition 2.7: a tree has a priority conflict if one of its subtrees has a root priority conflict. Subtrees stand
    /// before their trees, so theirs is known already.
    fn has_conflict(&self, tree: usize) -> bool {
        let node = &self.nodes[tree];
        node.parts.iter().enumerate().any(|(at, part)| match *part {
            Part::Character(_) => false,
            Part::Tree(t) => self.matches(node.rule, at, t) || !self.clean[t],
        })
    }

    fn matches(&self, rule: usize, at: usize, tree: usize) -> bool {
        self.patterns.contains(&(rule, at, self.nodes[tree].rule))
    }

    /// The kept trees of the start sort over the whole text, and whether each is clash-free.
    pub fn roots(&self) -> Vec<(usize, bool)> {
        let shelf = &self.shelf[self.shelf_of(self.book.start, 0, self.text.len())];
        shelf.iter().map(|&t| (t, self.clean[t])).collect()
    }

    /// The clash-free ones of them.
    pub fn readings(&self) -> Vec<usize> {
        self.roots().into_iter().filter(|r| r.1).map(|r| r.0).collect()
    }

    /// For each count of arguments, how many lists of kept trees spell each span, up to 2: every tree clash-free in itself
    /// and not clashing with the rule. A span is at start * (length + 1) + end.
    pub fn entries(&self, rule: usize) -> Vec<Vec<usize>> {
        let width = self.text.len() + 1;
        let none_yet = (0..width * width).map(|span| (span / width == span % width) as usize).collect();
        let mut rows: Vec<Vec<usize>> = vec![none_yet];
        for at in 0..self.book.count(rule) {
            let mut next = vec![0; width * width];
            for start in 0..width {
                for end in start..width {
                    let lists = |middle: usize| rows[at][start * width + middle] * self.fitting(rule, at, middle, end);
                    next[start * width + end] = (start..=end).map(lists).sum::<usize>().min(2);
                }
            }
            rows.push(next);
        }
        rows
    }

    /// How many characters or kept clash-free trees may be this argument over this span.
    fn fitting(&self, rule: usize, at: usize, start: usize, end: usize) -> usize {
        match self.book.rules[rule].arguments[at] {
            Argument::Class(k) => (end == start + 1 && self.book.classes[k][self.text[start] as usize]) as usize,
            Argument::Sort(sort) => {
                let shelf = &self.shelf[self.shelf_of(sort, start, end)];
                shelf.iter().filter(|&&t| self.clean[t] && !self.matches(rule, at, t)).count()
            }
        }
    }

    /// A rule before its arguments, arguments in order.
    pub fn listing(&self, tree: usize) -> Vec<u16> {
        self.lines(tree).iter().map(|line| line.number).collect()
    }

    /// The numbers of the listing, each with its depth and the part of the text over which it was grown.
    pub fn lines(&self, tree: usize) -> Vec<Line> {
        let mut lines = vec![];
        self.add_lines(tree, 0, &mut lines);
        lines
    }

    fn add_lines(&self, tree: usize, depth: usize, lines: &mut Vec<Line>) {
        let node = &self.nodes[tree];
        let line = |depth: usize, number: u16, start: usize, end: usize| {
            Line { depth, number, start, spelled: self.text[start..end].to_vec() }
        };
        lines.push(line(depth, FIRST_RULE + node.rule as u16, node.start, node.end));
        let mut at = node.start;
        for part in &node.parts {
            match *part {
                Part::Character(c) => {
                    lines.push(line(depth + 1, c as u16, at, at + 1));
                    at += 1;
                }
                Part::Tree(t) => {
                    self.add_lines(t, depth + 1, lines);
                    at = self.nodes[t].end;
                }
            }
        }
    }
}
