//! Random books, biased to trouble: loops, rules that vanish, unit chains, all kinds of ranks on one pair, groups, ranges
//! written downwards, one set of characters under two class names, and each limit from both sides.

use crate::equal_plans::{perhaps_equal, Unlike};
use crate::group_plans::{only_groups, perhaps_groups};
use crate::prng::Dice;
use crate::range_plans::perhaps_downward;

/// A rule's result, and its argument bytes.
pub type Rule = (u8, Vec<u8>);

/// A book before it is bytes. Nothing here is checked: plans may break every limit.
pub struct Plan {
    pub sorts: usize,
    pub start: usize,
    pub rules: Vec<Rule>,
    pub classes: Vec<Vec<(u8, u8)>>,
    pub declarations: Vec<[u8; 3]>,
}

impl Plan {
    pub fn bytes(&self) -> Vec<u8> {
        let sizes = [self.sorts, self.rules.len(), self.classes.len(), self.declarations.len(), self.start, 0];
        let mut out: Vec<u8> = sizes.iter().map(|&n| n as u8).collect();
        out.extend(self.rules.iter().map(|(_, arguments)| arguments.len() as u8));
        out.extend(self.classes.iter().map(|ranges| ranges.len() as u8));
        for (result, arguments) in &self.rules {
            out.push(*result);
            out.extend(arguments);
        }
        out.extend(self.classes.iter().flatten().flat_map(|&(low, high)| [low, high]));
        out.extend(self.declarations.iter().flatten());
        out
    }

    /// Takes out rules that equal an earlier one, be it under other class names, so that refusal 8 is met only when wanted.
    pub fn without_twins(mut self) -> Plan {
        let mut unlike = Unlike::new(&self.classes);
        self.rules.retain(|rule| unlike.insert(rule));
        self
    }
}

/// One class over a small alphabet that starts at `base`.
fn some_class(dice: &mut Dice, base: u8) -> Vec<(u8, u8)> {
    let letter = base + dice.below(3) as u8;
    match dice.below(16) {
        0 => vec![],
        1 => vec![(0, 255)],
        2 | 3 => vec![(base, base + 1)],
        4 => vec![(base, base + 1), (base + 1, base + 2)],
        5 => vec![(base + 1, base + 2), (base, base)],
        6 => vec![(letter, letter), (letter, letter)],
        _ => vec![(letter, letter)],
    }
}

fn some_argument(dice: &mut Dice, sorts: usize, classes: usize, sort_percent: usize) -> u8 {
    if classes == 0 || dice.chance(sort_percent) {
        dice.below(sorts) as u8
    } else {
        64 + dice.below(classes) as u8
    }
}

/// Kind 1 goes down a hidden order of the rules, so that a circle is rare and meant.
fn some_declarations(dice: &mut Dice, rules: usize, count: usize) -> Vec<[u8; 3]> {
    let order = dice.shuffled(rules);
    let wild = dice.chance(4);
    let kinds = dice.pick(&[&[1u8, 2, 3, 4][..], &[1], &[2, 3, 4], &[1, 1, 1, 2, 3], &[4], &[2, 3]]);
    let mut out = vec![];
    for _ in 0..count {
        let (mut a, mut b) = (dice.below(rules), dice.below(rules));
        let mut kind = dice.pick(kinds);
        if kind == 1 && !wild {
            if a == b {
                kind = dice.between(2, 4) as u8;
            }
            (a, b) = (a.min(b), a.max(b));
        }
        out.push([kind, order[a] as u8, order[b] as u8]);
    }
    out
}

/// Every kind on one pair, each way round as it falls.
fn one_pair(dice: &mut Dice, rules: usize) -> Vec<[u8; 3]> {
    let (a, b) = (dice.below(rules) as u8, dice.below(rules) as u8);
    let mut out = vec![];
    for kind in 1..=4 {
        if dice.chance(50) && (kind != 1 || a != b) {
            out.push(if dice.chance(50) || kind == 1 { [kind, a, b] } else { [kind, b, a] });
        }
    }
    out
}

fn ranks(dice: &mut Dice, rules: usize) -> Vec<[u8; 3]> {
    let few = dice.below(4);
    let single = match dice.below(5) {
        0 => vec![],
        1 => one_pair(dice, rules),
        2 => some_declarations(dice, rules, few),
        _ => some_declarations(dice, rules, few + rules),
    };
    perhaps_groups(dice, rules, single)
}

/// What a tangle is made of: how many sorts, rules and classes at most, how many arguments, and how often a sort.
struct Taste {
    sorts: usize,
    rules: usize,
    classes: usize,
    counts: &'static [usize],
    sort_percent: usize,
}

fn tangle(dice: &mut Dice, taste: Taste) -> Plan {
    let base = dice.pick(&[97u8, 97, 97, 0, 253]);
    let sorts = dice.between(1, taste.sorts);
    let classes: Vec<_> = (0..dice.between(taste.classes.min(1), taste.classes)).map(|_| some_class(dice, base)).collect();
    let mut rules = vec![];
    for _ in 0..dice.between(1, taste.rules) {
        let count = dice.pick(taste.counts);
        let arguments = (0..count).map(|_| some_argument(dice, sorts, classes.len(), taste.sort_percent)).collect();
        rules.push((dice.below(sorts) as u8, arguments));
    }
    let twins = dice.chance(2);
    let mut plan = Plan { sorts, start: dice.below(sorts), rules, classes, declarations: vec![] };
    if !twins {
        plan = plan.without_twins();
    }
    plan.declarations = ranks(dice, plan.rules.len());
    plan
}

/// Operators over digits, mostly with ranks that make sense: levels, each left, right or not together.
fn operators(dice: &mut Dice) -> Plan {
    let letters = *b"8+*/^()!";
    let mut classes = vec![vec![(48, 57)]];
    classes.extend(letters[1..].iter().map(|&c| vec![(c, c)]));
    let shapes: [&[u8]; 12] = [
        &[0, 65, 0], &[0, 66, 0], &[0, 67, 0], &[0, 68, 0], &[65, 0], &[0, 71], &[69, 0, 70], &[0, 0], &[0, 65, 0, 66, 0],
        &[0], &[], &[64, 0],
    ];
    let mut rules = vec![(0u8, vec![64u8])];
    for _ in 0..dice.between(1, 5) {
        let shape = if dice.chance(60) { dice.below(7) } else { dice.below(shapes.len()) };
        rules.push((0, shapes[shape].to_vec()));
    }
    let mut plan = Plan { sorts: 1, start: 0, rules, classes, declarations: vec![] }.without_twins();
    plan.declarations = if dice.chance(80) { levels(dice, plan.rules.len()) } else { ranks(dice, plan.rules.len()) };
    plan
}

/// Rules 1 and up in levels; only neighbouring levels are declared, so that the closure has work to do. In some books a level
/// is a group, and may be wider.
fn levels(dice: &mut Dice, rules: usize) -> Vec<[u8; 3]> {
    let grouped = dice.chance(35);
    let mut out = vec![];
    let mut before: Vec<u8> = vec![];
    let mut next = 1;
    while next < rules {
        let size = dice.between(1, if grouped { 4 } else { 2 }).min(rules - next);
        let level: Vec<u8> = (next..next + size).map(|r| r as u8).collect();
        let kind = dice.pick(&[2u8, 2, 3, 3, 4]);
        if grouped {
            out.push([kind + 3, level[0], level[size - 1]]);
        } else {
            for &a in &level {
                out.extend(level.iter().filter(|&&b| a <= b).map(|&b| [kind, a, b]));
            }
        }
        for &a in &before {
            out.push([1, a, level[0]]);
            out.extend(level[1..].iter().map(|&b| [1, a, b]));
        }
        before = level;
        next += size;
    }
    out
}

/// A long ring (or chain) of unit rules over many sorts, in shuffled order, some with an empty neighbour, with short cuts
/// and cuts by rank: what a search by rounds finds last, and a loop whose count comes round late.
fn ring(dice: &mut Dice) -> Plan {
    let sorts = dice.between(3, 31);
    let names: Vec<u8> = dice.shuffled(sorts + 1).iter().map(|&s| s as u8).collect();
    let nothing = names[sorts];
    let mut rules = vec![(nothing, vec![])];
    let open = dice.chance(40);
    for k in open as usize..sorts {
        let to = names[(k + sorts - 1) % sorts];
        rules.push((names[k], dice.pick(&[&[to][..], &[to], &[to], &[nothing, to], &[to, nothing]]).to_vec()));
    }
    for _ in 0..dice.between(1, 2) {
        rules.push((dice.pick(&names), dice.pick(&[&[64u8][..], &[64], &[]]).to_vec()));
    }
    for _ in 0..dice.below(3) {
        rules.push((dice.pick(&names), vec![dice.pick(&names)]));
    }
    let rules: Vec<_> = dice.shuffled(rules.len()).iter().map(|&r| rules[r].clone()).collect();
    let start = dice.pick(&names) as usize;
    let mut plan = Plan { sorts: sorts + 1, start, rules, classes: vec![vec![(97, 98)]], declarations: vec![] }.without_twins();
    for _ in 0..dice.below(3) {
        let p = dice.below(plan.rules.len());
        let below: Vec<usize> = (0..plan.rules.len()).filter(|&q| q != p && plan.rules[p].1.contains(&plan.rules[q].0)).collect();
        if !below.is_empty() {
            plan.declarations.push([1, p as u8, dice.pick(&below) as u8]);
        }
    }
    plan.declarations = perhaps_groups(dice, plan.rules.len(), plan.declarations);
    plan
}

/// One empty reading of exactly `size` numbers: a sort for each step, "one more" or "twice and one more".
pub fn tower(size: usize) -> Plan {
    let mut steps = vec![];
    let mut left = size;
    while left > 1 {
        steps.push(if left % 2 == 1 { 2 } else { 1 });
        left = if left % 2 == 1 { left / 2 } else { left - 1 };
    }
    steps.reverse();
    let mut rules = vec![(0u8, vec![])];
    for (k, &copies) in steps.iter().enumerate() {
        rules.push((k as u8 + 1, vec![k as u8; copies]));
    }
    Plan { sorts: rules.len(), start: rules.len() - 1, rules, classes: vec![], declarations: vec![] }
}

/// Adds different rules until there are `count`. A small book has too few different ones, so sorts are added on the way.
fn fill_up(dice: &mut Dice, plan: &mut Plan, count: usize) {
    let mut unlike = Unlike::new(&plan.classes);
    for rule in &plan.rules {
        unlike.insert(rule);
    }
    while plan.rules.len() < count {
        let length = dice.below(5);
        let arguments = (0..length).map(|_| some_argument(dice, plan.sorts, plan.classes.len(), 40)).collect();
        let rule = (dice.below(plan.sorts) as u8, arguments);
        if unlike.insert(&rule) {
            plan.rules.push(rule);
        } else if plan.sorts < 32 {
            plan.sorts += 1;
        }
    }
}

/// A book at one limit, or one over it.
fn limits(dice: &mut Dice) -> Plan {
    let mut plan = tangle(dice, Taste { sorts: 3, rules: 5, classes: 3, counts: &[0, 1, 2, 3], sort_percent: 50 });
    let over = dice.below(2);
    match dice.below(9) {
        0 => fill_up(dice, &mut plan, 64 + over),
        1 => plan.rules[0].1 = (0..8 + over).map(|_| some_argument(dice, plan.sorts, plan.classes.len(), 50)).collect(),
        2 => plan.sorts = 32 + over,
        3 => plan.classes.resize(64 + over, vec![(97, 98)]),
        4 => plan.classes.push((0..16 + over as u8).map(|k| (90 + k, 90 + k + dice.below(3) as u8)).collect()),
        5 => plan.start = plan.sorts - 1 + over,
        6 => plan.declarations = some_declarations(dice, plan.rules.len(), 255),
        7 => plan.declarations = only_groups(dice, plan.rules.len(), 255),
        _ => {
            fill_up(dice, &mut plan, 64);
            let count = dice.pick(&[1, 2, 5, 255]);
            plan.declarations = only_groups(dice, 64, count);
        }
    }
    plan
}

/// A plan of any style, with its ranges upwards.
fn upward_plan(dice: &mut Dice) -> Plan {
    match dice.below(100) {
        0..=25 => tangle(dice, Taste { sorts: 3, rules: 6, classes: 3, counts: &[0, 1, 1, 2, 2, 3], sort_percent: 55 }),
        26..=50 => operators(dice),
        51..=58 => ring(dice),
        59..=69 => tangle(dice, Taste { sorts: 5, rules: 9, classes: 2, counts: &[1, 1, 1, 1, 1, 2, 0], sort_percent: 75 }),
        70..=79 => tangle(dice, Taste { sorts: 3, rules: 5, classes: 1, counts: &[0, 0, 1, 2, 2, 3], sort_percent: 90 }),
        80..=88 => tangle(dice, Taste { sorts: 2, rules: 4, classes: 2, counts: &[0, 1, 2, 2, 3, 4], sort_percent: 50 }),
        89..=91 => tangle(dice, Taste { sorts: 4, rules: 8, classes: 4, counts: &[0, 1, 2, 3, 5, 7, 8], sort_percent: 30 }),
        92 => tangle(dice, Taste { sorts: 32, rules: 64, classes: 64, counts: &[0, 1, 1, 2, 2, 3, 8], sort_percent: 60 }),
        93 => {
            let size = dice.pick(&[5, 60, 4095, 4096, 4097, 32767, 32768, 32769, 70000]) + dice.below(2);
            tower(size)
        }
        _ => limits(dice),
    }
}

pub fn some_plan(dice: &mut Dice) -> Plan {
    let mut plan = upward_plan(dice);
    plan.classes = perhaps_downward(dice, plan.classes);
    perhaps_equal(dice, &mut plan);
    plan
}
