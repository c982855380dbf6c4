//! Tarjan's search for components, over the living items of a counter, without recursion (a text of 200 bytes has paths
//! too long for the stack). Components come out after everything they are made from, so each is counted as it comes.

use crate::counter::{Counter, Item, ENDLESS};

const UNSEEN: u32 = u32::MAX;

struct Frame {
    item: Item,
    made_from: Vec<Item>,
    next: usize,
}

struct Search<'a, 'b> {
    counter: &'b Counter<'a>,
    counts: Vec<u64>,
    seen: Vec<u32>,
    low: Vec<u32>,
    on_stack: Vec<bool>,
    stack: Vec<Item>,
    frames: Vec<Frame>,
    clock: u32,
}

/// The number of lists of every item, by chart place; items that derive nothing keep 0.
pub fn count_all(counter: &Counter) -> Vec<u64> {
    let need = counter.layout.need();
    let mut search = Search {
        counter,
        counts: vec![0; need],
        seen: vec![UNSEEN; need],
        low: vec![0; need],
        on_stack: vec![false; need],
        stack: vec![],
        frames: vec![],
        clock: 0,
    };
    for rule in 0..counter.rules() {
        for dots in 0..=counter.lines.flat.count(rule) {
            search.all_spans(rule, dots);
        }
    }
    search.counts
}

impl Search<'_, '_> {
    fn all_spans(&mut self, rule: usize, dots: usize) {
        for start in 0..=self.counter.text.len() {
            for end in start..=self.counter.text.len() {
                let item = Item { rule, dots, start, end };
                if self.counter.lives(item) && self.seen[self.place(item)] == UNSEEN {
                    self.enter(item);
                    self.run();
                }
            }
        }
    }

    fn place(&self, item: Item) -> usize {
        self.counter.layout.place(item)
    }

    fn enter(&mut self, item: Item) {
        let place = self.place(item);
        self.seen[place] = self.clock;
        self.low[place] = self.clock;
        self.clock += 1;
        self.on_stack[place] = true;
        self.stack.push(item);
        let mut made_from = vec![];
        if item.dots > 0 {
            for (before, trees) in self.counter.ways(item) {
                made_from.push(before);
                made_from.extend(trees);
            }
        }
        self.frames.push(Frame { item, made_from, next: 0 });
    }

    fn run(&mut self) {
        while let Some(frame) = self.frames.last_mut() {
            let place = self.counter.layout.place(frame.item);
            if frame.next == frame.made_from.len() {
                self.leave();
                continue;
            }
            let other = frame.made_from[frame.next];
            frame.next += 1;
            let there = self.counter.layout.place(other);
            if self.seen[there] == UNSEEN {
                self.enter(other);
            } else if self.on_stack[there] {
                self.low[place] = self.low[place].min(self.seen[there]);
            }
        }
    }

    fn leave(&mut self) {
        let frame = self.frames.pop().expect("a frame to leave");
        let place = self.place(frame.item);
        if let Some(above) = self.frames.last() {
            let up = self.place(above.item);
            self.low[up] = self.low[up].min(self.low[place]);
        }
        if self.low[place] == self.seen[place] {
            self.settle(&frame);
        }
    }

    /// Takes the component with this root off the stack and counts it.
    fn settle(&mut self, root: &Frame) {
        let from = self.stack.iter().rposition(|&i| i == root.item).expect("the root is on the stack");
        let members = self.stack.split_off(from);
        let cyclic = members.len() > 1 || root.made_from.contains(&root.item);
        for &member in &members {
            let place = self.place(member);
            self.on_stack[place] = false;
            if cyclic {
                self.counts[place] = ENDLESS;
            }
        }
        if !cyclic {
            let place = self.place(root.item);
            self.counts[place] = self.sum(root.item);
        }
    }

    /// All factors are at least 1 here, so ENDLESS stays ENDLESS in every product and sum.
    fn sum(&self, item: Item) -> u64 {
        if item.dots == 0 {
            return 1;
        }
        let mut sum: u64 = 0;
        for (before, trees) in self.counter.ways(item) {
            let last = match trees.is_empty() {
                true => 1,
                false => trees.iter().fold(0u64, |s, &t| s.saturating_add(self.counts[self.place(t)])),
            };
            sum = sum.saturating_add(self.counts[self.place(before)].saturating_mul(last));
        }
        sum
    }
}
