//! Random books with many ranks, and questions about them: long chains with short cuts, dead ends and links declared twice, in
//! any order; and pairs with several kinds, alone and in groups.

use crate::book::{Book, Refusal};
use crate::group_plans::{ends, put_anywhere};
use crate::others::some_question;
use crate::plans::{Plan, Rule};
use crate::prng::Dice;
use crate::reasons::{Question, Ways, HIGHER};

/// What a book may have.
const MOST_RULES: usize = 64;
const MOST_DECLARATIONS: usize = 255;
/// One book in so many has 64 rules, and one as many declarations as there may be.
const FULL_ONE_IN: usize = 40;
/// Of so many pairs of rules the one is taken that has the longest chain.
const TRIES: usize = 10;

/// How many rules a book has: mostly few.
fn some_count(dice: &mut Dice) -> usize {
    match dice.below(FULL_ONE_IN) {
        0 => MOST_RULES,
        1..=4 => dice.between(12, 24),
        _ => dice.between(2, 9),
    }
}

/// Rule k has class k and no other, so that no two are equal but those without a class, of which there are few.
fn some_rule(dice: &mut Dice, k: usize, sorts: usize) -> Rule {
    let own = 64 + k as u8;
    let [a, b, c] = [(); 3].map(|_| dice.below(sorts) as u8);
    let arguments = match dice.below(12) {
        0 if k < 10 => vec![a],
        1 => vec![a, own],
        2 => vec![own, a],
        3 => vec![own, a, own],
        4 => vec![a, b, own, c],
        5 => vec![a, own, b, b, b, c, own, c],
        6 => vec![own],
        _ => vec![a, own, b],
    };
    (dice.below(sorts) as u8, arguments)
}

fn some_rules(dice: &mut Dice) -> Plan {
    let sorts = dice.pick(&[1, 1, 1, 1, 2, 3]);
    let count = some_count(dice);
    let rules = (0..count).map(|k| some_rule(dice, k, sorts)).collect();
    let classes = (0..count).map(|k| vec![(100 + k as u8, 100 + k as u8)]).collect();
    Plan { sorts, start: 0, rules, classes, declarations: vec![] }.without_twins()
}

/// Kind 1 down a hidden order of the rules, so that there is no circle. Each rule has links to some of the next few, or only to
/// the next.
pub fn some_links(dice: &mut Dice, rules: usize) -> Vec<[u8; 3]> {
    let order = dice.shuffled(rules);
    let (reach, most, percent) = match dice.chance(30) {
        true => (1, 1, 100),
        false => (dice.pick(&[1, 2, 3, 6]), dice.pick(&[1, 2, 2, 3]), dice.pick(&[70, 95, 100])),
    };
    let mut links = vec![];
    for above in 0..rules - 1 {
        for _ in 0..dice.between(1, most) {
            let below = (above + dice.between(1, reach)).min(rules - 1);
            if dice.chance(percent) {
                links.push([HIGHER, order[above] as u8, order[below] as u8]);
            }
        }
    }
    let turns = if dice.chance(30) { (0..links.len()).collect() } else { dice.shuffled(links.len()) };
    turns.into_iter().map(|k| links[k]).collect()
}

/// A declaration of another kind, often of a pair that has one, anywhere among these. What is of two rules is written this way
/// or that.
pub fn add_other(dice: &mut Dice, rules: usize, declarations: &mut Vec<[u8; 3]>) {
    let (first, second) = ends(dice, rules, declarations);
    let kind = dice.between(2, 7) as u8;
    let turned = kind < 5 && dice.chance(50);
    put_anywhere(dice, declarations, if turned { [kind, second, first] } else { [kind, first, second] });
}

/// As many declarations as there may be, the first of them all alike and of one rule with itself.
fn fill_up(dice: &mut Dice, rules: usize, declarations: &mut Vec<[u8; 3]>) {
    let (kind, rule) = (dice.between(2, 7) as u8, dice.below(rules) as u8);
    let missing = MOST_DECLARATIONS - declarations.len();
    declarations.splice(0..0, vec![[kind, rule, rule]; missing]);
}

/// A book for reasons. It is never refused.
pub fn some_ranked(dice: &mut Dice) -> Plan {
    let mut plan = some_rules(dice);
    let (rules, all) = (plan.rules.len(), &mut plan.declarations);
    if dice.chance(75) {
        *all = some_links(dice, rules);
    }
    for _ in 0..dice.pick(&[0, 1, 2, 4, rules, 2 * rules]) {
        add_other(dice, rules, all);
    }
    all.truncate(MOST_DECLARATIONS);
    if dice.below(FULL_ONE_IN) == 0 {
        fill_up(dice, rules, all);
    }
    plan
}

/// Two rules of a declaration, this way or that; of a group any two.
fn declared_pair(dice: &mut Dice, book: &Book) -> (usize, usize) {
    let d = dice.pick(&book.declarations);
    let (a, b) = match d.is_group() {
        true => (dice.between(d.first, d.second), dice.between(d.first, d.second)),
        false => (d.first, d.second),
    };
    if dice.chance(50) { (a, b) } else { (b, a) }
}

/// Of some pairs of rules, or now and then of all, the one with the longest chain.
fn far_pair(dice: &mut Dice, ways: &Ways) -> (usize, usize) {
    let rules = ways.book.rules.len();
    let pairs: Vec<(usize, usize)> = match dice.chance(40) {
        true => (0..rules).flat_map(|p| (0..rules).map(move |q| (p, q))).collect(),
        false => (0..TRIES).map(|_| (dice.below(rules), dice.below(rules))).collect(),
    };
    pairs.into_iter().max_by_key(|&(p, q)| ways.fewest(p, q)).unwrap_or((0, 0))
}

/// A question about any pair, about a declared one, or about one with a long chain; mostly at an argument that is of q's sort.
fn telling_question(dice: &mut Dice, ways: &Ways) -> Question {
    let rules = ways.book.rules.len();
    let (p, q) = match dice.below(10) {
        0..=3 if !ways.book.declarations.is_empty() => declared_pair(dice, ways.book),
        4..=7 => far_pair(dice, ways),
        _ => (dice.below(rules), dice.below(rules)),
    };
    let count = ways.book.count(p);
    let fitting: Vec<usize> = (0..count).filter(|&i| ways.is_sort(p, i, q)).collect();
    let i = if fitting.is_empty() || dice.chance(20) { dice.below(count) } else { dice.pick(&fitting) };
    (p as u64, i as u64, q as u64)
}

/// The same, or any question, be it about what isn't there; for a refused book too.
pub fn some_asked(dice: &mut Dice, book: &Result<Book, Refusal>, ways: &Result<Ways, Refusal>) -> Question {
    match ways {
        Ok(ways) if dice.chance(90) => telling_question(dice, ways),
        _ => some_question(book, dice),
    }
}
