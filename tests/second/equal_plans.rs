//! Random books with equal and nearly equal rules under two class names (request [5] of 02): a class is written once more in
//! other ranges, now and then with a character more or less, and a rule is written once more with it, often with another
//! difference. And which planned rules are equal.

use crate::book;
use crate::plans::{Plan, Rule};
use crate::prng::Dice;
use std::collections::HashSet;

type Class = Vec<(u8, u8)>;

/// What a book may have.
const MOST_RULES: usize = 64;
const MOST_CLASSES: usize = 64;
const MOST_RANGES: usize = 16;
const MOST_ARGUMENTS: usize = 8;
const MOST_SORTS: usize = 32;
const MOST_DECLARATIONS: usize = 255;
/// The argument byte of class 0.
const FIRST_CLASS: u8 = 64;
/// So many books in a hundred get a rule once more, and of those with as many rules or classes as there may be.
const PERCENT: usize = 26;
const FULL_PERCENT: usize = 60;
/// The first and the last byte, and those on both sides of each 64 bytes of the alphabet.
const EDGES: [u8; 8] = [0, 255, 63, 64, 127, 128, 191, 192];

/// The characters of a planned class.
fn characters(class: &[(u8, u8)]) -> [bool; 256] {
    let ends: Vec<u8> = class.iter().flat_map(|&(first, second)| [first, second]).collect();
    book::class(&ends)
}

/// Rules that are not equal to each other. Each is held with every class under the first name of its characters, so that
/// equal rules are the same bytes.
pub struct Unlike {
    first_names: Vec<u8>,
    met: HashSet<Rule>,
}

impl Unlike {
    /// No rule yet, for rules with these classes.
    pub fn new(classes: &[Class]) -> Unlike {
        let sets: Vec<[bool; 256]> = classes.iter().map(|class| characters(class)).collect();
        let first = |set: &[bool; 256]| sets.iter().position(|s| s == set).unwrap_or(0);
        Unlike { first_names: sets.iter().map(|set| FIRST_CLASS + first(set) as u8).collect(), met: HashSet::new() }
    }

    /// Takes a rule in, unless an equal one is there.
    pub fn insert(&mut self, (result, arguments): &Rule) -> bool {
        let name = |&byte: &u8| class_of(byte).and_then(|k| self.first_names.get(k)).copied().unwrap_or(byte);
        let renamed = arguments.iter().map(name).collect();
        self.met.insert((*result, renamed))
    }
}

/// The class that an argument byte is the name of, if it isn't that of a sort.
fn class_of(byte: u8) -> Option<usize> {
    byte.checked_sub(FIRST_CLASS).map(usize::from)
}

/// The ranges of a set, rising, none touching another.
fn runs(set: &[bool; 256]) -> Class {
    let mut out: Class = vec![];
    for c in (0..=255u8).filter(|&c| set[c as usize]) {
        match out.last_mut() {
            Some(last) if last.1.checked_add(1) == Some(c) => last.1 = c,
            _ => out.push((c, c)),
        }
    }
    out
}

/// Two ranges for one: they touch, overlap, or one is within the other.
fn split(dice: &mut Dice, (low, high): (u8, u8)) -> [(u8, u8); 2] {
    let end = dice.between(low as usize, high as usize);
    let start = dice.between(low as usize, (end + 1).min(high as usize));
    [(low, end as u8), (start as u8, high)]
}

/// A set in one of the many ways to write it: ranges split, turned round, in any order. None if it takes more ranges than a
/// class may have.
fn written(dice: &mut Dice, set: &[bool; 256]) -> Option<Class> {
    let mut class = runs(set);
    let splits = dice.pick(&[0, 0, 1, 1, 2, 3, MOST_RANGES]);
    for _ in 0..splits {
        if !class.is_empty() && class.len() < MOST_RANGES {
            let at = dice.below(class.len());
            let [first, second] = split(dice, class[at]);
            class[at] = first;
            class.push(second);
        }
    }
    let turned = dice.pick(&[0, 0, 50, 100]);
    for range in class.iter_mut().filter(|_| dice.chance(turned)) {
        *range = (range.1, range.0);
    }
    (class.len() <= MOST_RANGES).then(|| if dice.chance(60) { in_any_order(dice, &class) } else { class })
}

/// The same ranges in some order.
fn in_any_order(dice: &mut Dice, class: &[(u8, u8)]) -> Class {
    dice.shuffled(class.len()).iter().map(|&k| class[k]).collect()
}

/// A character whose coming or going is easily missed: at an edge of the alphabet or of the set, next to the set, in it, or any.
fn telling_character(dice: &mut Dice, set: &[bool; 256]) -> u8 {
    let members: Vec<u8> = (0..=255).filter(|&c| set[c as usize]).collect();
    let (Some(&lowest), Some(&highest)) = (members.first(), members.last()) else {
        return dice.pick(&EDGES);
    };
    match dice.below(10) {
        0..=2 => dice.pick(&EDGES),
        3 => lowest,
        4 => highest,
        5 => lowest.saturating_sub(1),
        6 | 7 => highest.saturating_add(1),
        8 => dice.pick(&members),
        _ => dice.byte(),
    }
}

/// Puts a class behind the others, in place of the last if there are as many as there may be; its name. Now and then classes
/// that no rule has come between, so that it is the last there may be.
fn put_class(dice: &mut Dice, plan: &mut Plan, class: Class) -> Option<u8> {
    if plan.classes.len() < MOST_CLASSES && dice.chance(3) {
        plan.classes.resize(MOST_CLASSES - 1, vec![(97, 98)]);
    }
    match plan.classes.len() {
        0..MOST_CLASSES => plan.classes.push(class),
        MOST_CLASSES => plan.classes[MOST_CLASSES - 1] = class,
        _ => return None,
    }
    Some(FIRST_CLASS + plan.classes.len() as u8 - 1)
}

/// The class of this name once more, with one character more or less if `is_near`. Else its ranges are now and then the same,
/// and now and then both get new ones, the same in two orders. Its new name comes back.
fn class_again(dice: &mut Dice, plan: &mut Plan, name: u8, is_near: bool) -> Option<u8> {
    let old = class_of(name)?;
    let mut set = characters(plan.classes.get(old)?);
    let style = dice.below(10);
    if is_near {
        let c = telling_character(dice, &set) as usize;
        set[c] = !set[c];
    } else if style < 2 && plan.classes[old].len() <= MOST_RANGES {
        let same = plan.classes[old].clone();
        return put_class(dice, plan, same);
    }
    let mut again = written(dice, &set)?;
    if !is_near && style == 2 {
        plan.classes[old] = again.clone();
        again = in_any_order(dice, &again);
    }
    put_class(dice, plan, again)
}

/// What is different in a rule that is written once more, beside the names of its classes.
#[derive(Clone, Copy, PartialEq, Eq)]
enum Change {
    Nothing,
    OneCharacter,
    Order,
    Result,
    Sort,
    Count,
}

/// Mostly nothing is different, or one character.
fn some_change(dice: &mut Dice) -> Change {
    match dice.below(13) {
        0..=3 => Change::Nothing,
        4..=8 => Change::OneCharacter,
        9 => Change::Order,
        10 => Change::Result,
        11 => Change::Sort,
        _ => Change::Count,
    }
}

/// The rule with other names for its classes, for all of them or for one, and with this change at one of them.
fn rule_again(dice: &mut Dice, plan: &mut Plan, (result, arguments): &Rule, change: Change) -> Option<Rule> {
    let (mut result, mut arguments) = (*result, arguments.clone());
    let classes: Vec<usize> = (0..arguments.len()).filter(|&at| class_of(arguments[at]).is_some()).collect();
    let (one, all) = (dice.pick(&classes), dice.chance(40));
    for &at in classes.iter().filter(|&&at| all || at == one) {
        let is_near = at == one && change == Change::OneCharacter;
        arguments[at] = class_again(dice, plan, arguments[at], is_near)?;
    }
    match change {
        Change::Nothing | Change::OneCharacter => {}
        Change::Order => {
            let other = dice.below(arguments.len());
            arguments.swap(one, other);
        }
        Change::Result => {
            plan.sorts = plan.sorts.max(2);
            result = dice.below(plan.sorts) as u8;
        }
        Change::Sort => arguments[one] = dice.below(plan.sorts.min(MOST_SORTS)) as u8,
        Change::Count if arguments.len() < MOST_ARGUMENTS && dice.chance(70) => arguments.push(arguments[one]),
        Change::Count => drop(arguments.pop()),
    }
    Some((result, arguments))
}

/// Puts a rule behind the others, in place of the last if there are as many as there may be; or where its like is, which
/// then goes behind. Now and then the two are ranked.
fn put_rule(dice: &mut Dice, plan: &mut Plan, rule: Rule, like: usize) {
    if plan.rules.len() == MOST_RULES {
        plan.rules.pop();
    }
    let last = plan.rules.len();
    plan.rules.push(rule);
    if dice.chance(40) && like < last {
        plan.rules.swap(like, last);
    }
    if dice.chance(25) && like < last && plan.declarations.len() < MOST_DECLARATIONS {
        let (a, b) = if dice.chance(50) { (like, last) } else { (last, like) };
        plan.declarations.push([dice.between(1, 4) as u8, a as u8, b as u8]);
    }
}

/// Some rule with a class once more.
fn once_more(dice: &mut Dice, plan: &mut Plan) {
    let has_class = |rule: &Rule| rule.1.iter().any(|&byte| class_of(byte).is_some());
    let having: Vec<usize> = (0..plan.rules.len()).filter(|&r| has_class(&plan.rules[r])).collect();
    if having.is_empty() || plan.rules.len() > MOST_RULES {
        return;
    }
    let like = dice.pick(&having);
    let (rule, change) = (plan.rules[like].clone(), some_change(dice));
    if let Some(again) = rule_again(dice, plan, &rule, change) {
        put_rule(dice, plan, again, like);
    }
}

/// The plan as it is, or with a rule once more under other class names, or with two; then, now and then, one more with the
/// very same bytes, or a circle.
pub fn perhaps_equal(dice: &mut Dice, plan: &mut Plan) {
    let is_full = plan.rules.len() == MOST_RULES || plan.classes.len() == MOST_CLASSES;
    if !dice.chance(if is_full { FULL_PERCENT } else { PERCENT }) {
        return;
    }
    for _ in 0..dice.pick(&[1, 1, 1, 2]) {
        once_more(dice, plan);
    }
    let any = dice.below(plan.rules.len());
    match dice.below(25) {
        0 if plan.rules.len() < MOST_RULES => plan.rules.push(plan.rules[any].clone()),
        1 if plan.declarations.len() < MOST_DECLARATIONS => plan.declarations.push([1, any as u8, any as u8]),
        _ => {}
    }
}
