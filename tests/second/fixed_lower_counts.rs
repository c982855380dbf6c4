//! Readings compared by hand, from request [9] of 02, that use rules a different number of times: few and very many; books of 64
//! rules; and characters, which are not counted.

use crate::compare::Mismatch;
use crate::fixed_lower::{all_orders, signs, Worked};
use crate::fixed_pages::round;
use crate::listing::to_bytes;
use crate::lower_books::{letter, menu, menu_listing, round_above, round_listing, rounds, MOST_LETTERS, MOST_ROUNDS};
use crate::plans::Plan;
use crate::prng::Dice;
use crate::tally::Tally;

/// Rounds of these kinds, with ranks from one kind to another.
fn of_kinds(name: &'static str, ranks: &[(usize, usize)], kinds: &[Vec<usize>], hand: Vec<&'static str>) -> Worked {
    let mut plan = rounds();
    plan.declarations = ranks.iter().flat_map(|&(above, below)| round_above(above, below)).collect();
    Worked { name, book: plan.bytes(), text: vec![], listings: kinds.iter().map(|row| round_listing(row)).collect(), hand }
}

/// Two readings, each with rounds of one kind: which, and how many.
fn two(name: &'static str, ranks: &[(usize, usize)], first: (usize, usize), second: (usize, usize), sign: char) -> Worked {
    of_kinds(name, ranks, &[first, second].map(|(kind, times)| vec![kind; times]), signs(sign))
}

/// Sort 0 is sort 1 (rule 0), which is nothing (rule 1) or sort 2 (rule 2), which is nothing (rule 3). The last numbers differ.
fn last_numbers() -> Vec<Worked> {
    let of = |name, declarations: &[[u8; 3]], sign| {
        let rules = vec![(0, vec![1]), (1, vec![]), (1, vec![2]), (2, vec![])];
        let book = Plan { sorts: 3, start: 0, rules, classes: vec![], declarations: declarations.to_vec() }.bytes();
        let readings: [&[u16]; 2] = [&[258, 259], &[258, 260, 261]];
        Worked { name, book, text: vec![], listings: readings.map(to_bytes).to_vec(), hand: signs(sign) }
    };
    vec![
        of("last numbers", &[], '?'),
        of("last numbers, the first's above all", &[[1, 1, 2], [1, 1, 3]], '>'),
        of("last numbers, the second's above all", &[[1, 3, 1]], '<'),
        of("last numbers, one not covered", &[[1, 1, 2]], '?'),
    ]
}

/// A few rounds more in one than in the other.
fn other_sizes() -> Vec<Worked> {
    let none = vec![];
    let mut half = rounds();
    // Only the way out of kind 1 is covered, not its way back.
    half.declarations = vec![[1, 1, 3]];
    let listings = [[0], [1]].map(|row| round_listing(&row)).to_vec();
    vec![
        of_kinds("a part", &[], &[none, vec![0], vec![0, 0], vec![0, 1]], vec!["=<<<", ">=<<", ">>=?", ">>?="]),
        // One of kind 0 weighs more than any number of kind 1.
        of_kinds("0 above 1", &[(0, 1)], &[vec![0], vec![1], vec![1; 3], vec![0, 1]], vec!["=>><", "<=<<", "<>=<", ">>>="]),
        of_kinds("another order", &[(0, 1)], &[vec![0, 1, 0, 1], vec![1, 1, 0, 0]], signs('=')),
        two("one and two", &[], (0, 1), (1, 2), '?'),
        two("one and a hundred lower", &[(0, 1)], (0, 1), (1, 100), '>'),
        two("one and a thousand lower", &[(0, 1)], (0, 1), (1, 1000), '>'),
        two("a thousand and one higher", &[(1, 0)], (0, 1000), (1, 1), '<'),
        Worked { name: "half covered", book: half.bytes(), text: vec![], listings, hand: signs('?') },
    ]
}

/// Counts that a byte can't hold: 256 would be 0, 257 would be 1, and 300 would be 44.
fn past_a_byte() -> Vec<Worked> {
    vec![
        two("256 and none", &[], (0, 256), (0, 0), '>'),
        two("257 and 1", &[], (0, 257), (0, 1), '>'),
        two("255 and 256", &[], (0, 255), (0, 256), '<'),
        two("255 and 257", &[], (0, 255), (0, 257), '<'),
        two("300 and 44", &[], (0, 300), (0, 44), '>'),
        two("512 and 256", &[], (0, 512), (0, 256), '>'),
        two("256 of the higher, and 1", &[(0, 1)], (0, 256), (1, 1), '>'),
        two("256 of the lower, and 1", &[(0, 1)], (1, 256), (0, 1), '<'),
        two("257 of the higher, and 1 and 300", &[(0, 1)], (0, 257), (1, 300), '>'),
        two("256 of each, unranked", &[], (0, 256), (1, 256), '?'),
        two("as many as there can be", &[(0, 1)], (0, 2047), (1, 2047), '>'),
        two("as many as there can be, and one", &[(0, 1)], (1, 2047), (0, 1), '<'),
    ]
}

/// Rule 0 is from the sort to itself, rule 1 is nothing. 4,095 times the one and once the other is 8,192 bytes.
fn longest() -> Vec<Worked> {
    let listing = |times: usize| to_bytes(&[vec![258; times], vec![259]].concat());
    let of = |name, first: usize, second: usize, sign| Worked {
        name,
        book: round(),
        text: vec![],
        listings: vec![listing(first), listing(second)],
        hand: signs(sign),
    };
    vec![
        of("4,095 and 4,095", 4095, 4095, '='),
        of("4,095 and 4,094", 4095, 4094, '>'),
        of("4,094 and 4,095", 4094, 4095, '<'),
        of("4,095 and 256 less", 4095, 3839, '>'),
        of("4,095 and 1,024 less", 4095, 3071, '>'),
        of("4,095 and 2,048 less", 4095, 2047, '>'),
        of("4,095 and none", 4095, 0, '>'),
    ]
}

/// Rule 63 and the rules before it.
fn of_64_rules() -> Vec<Worked> {
    let last = MOST_ROUNDS;
    let chain: Vec<(usize, usize)> = (0..last).map(|kind| (kind, kind + 1)).collect();
    let ends = [vec![0], vec![1; 9], vec![last - 1; 40], vec![last; 80]];
    let mut cases = vec![
        two("rule 63 and nothing", &[], (last, 1), (0, 0), '>'),
        two("rule 63 and others", &[], (last, 1), (0, 1), '?'),
        two("rule 63 above others", &[(last, 0)], (last, 1), (0, 3), '>'),
        two("rule 63 below others", &[(0, last)], (last, 3), (0, 1), '<'),
        of_kinds("32 kinds in a chain", &chain, &ends, vec!["=>>>", "<=>>", "<<=>", "<<<="]),
    ];
    for apart in [1, 2, 4, 8, 16, 32, 61] {
        let of = |name, declarations: &[[u8; 3]], sign| {
            let mut plan = menu(MOST_LETTERS, b'a');
            plan.declarations = declarations.to_vec();
            let listings = [[0], [apart]].map(|row| menu_listing(&row, b'a')).to_vec();
            Worked { name, book: plan.bytes(), text: b"a".to_vec(), listings, hand: signs(sign) }
        };
        cases.push(of("two of 62 letters", &[], '?'));
        cases.push(of("two of 62 letters, the first above", &[[1, letter(0), letter(apart)]], '>'));
        cases.push(of("two of 62 letters, the second above", &[[1, letter(apart), letter(0)]], '<'));
    }
    cases
}

/// All 64 rules in a chain of 63 declarations: from rule 2, which takes two letters here, by rules 3 to 63 and rule 1, which ends
/// a row, to rule 0. The second reading has rule 63 twice and rule 0 once more, the first has rule 2.
fn longest_chain() -> Vec<Worked> {
    let order: Vec<u8> = (2..=63).chain([1, 0]).collect();
    let links: Vec<[u8; 3]> = order.windows(2).map(|pair| [1, pair[0], pair[1]]).collect();
    let of = |name, declarations: Vec<[u8; 3]>, sign| {
        let mut plan = menu(MOST_LETTERS, b'a');
        plan.rules[2].1 = vec![64, 64];
        plan.declarations = declarations;
        let readings: [&[u16]; 2] = [&[258, 260, 97, 97, 259], &[258, 321, 97, 258, 321, 97, 259]];
        let listings = readings.map(to_bytes).to_vec();
        Worked { name, book: plan.bytes(), text: b"aa".to_vec(), listings, hand: signs(sign) }
    };
    vec![
        of("63 declarations", links.clone(), '>'),
        of("63 declarations, backwards", links.iter().rev().copied().collect(), '>'),
        of("63 declarations but the first", links[1..].to_vec(), '?'),
        of("63 declarations but the last", links[..62].to_vec(), '?'),
        of("63 declarations but one", [&links[..30], &links[31..]].concat(), '?'),
    ]
}

/// 200 times a byte that has the index of a rule or the low byte of its number, which is 2 more: letter 0 is rule 2, number 260,
/// and letter 1 is rule 3, number 261. Taken together with letter 0, byte 2 or 4 would be there 260 or 240 times.
fn characters() -> Vec<Worked> {
    let mut cases = vec![];
    for byte in [0, 1, 2, 3, 4, 5, 63, 97, 127, 255] {
        let of = |name, declarations: &[[u8; 3]], hand| {
            let mut plan = menu(2, byte);
            plan.declarations = declarations.to_vec();
            let rows = [60, 40, 140].map(|times| [vec![0; times], vec![1; 200 - times]].concat());
            let listings = rows.iter().map(|row| menu_listing(row, byte)).collect();
            Worked { name, book: plan.bytes(), text: vec![byte; 200], listings, hand }
        };
        cases.push(of("200 characters", &[], vec!["=??", "?=?", "??="]));
        cases.push(of("200 characters, letter 0 above", &[[1, 2, 3]], vec!["=><", "<=<", ">>="]));
        cases.push(of("200 characters, letter 1 above", &[[1, 3, 2]], vec!["=<>", ">=>", "<<="]));
    }
    cases
}

pub fn run(dice: &mut Dice, tally: &mut Tally) -> Result<(), Mismatch> {
    let all = [last_numbers(), other_sizes(), past_a_byte(), longest(), of_64_rules(), longest_chain(), characters()];
    all.iter().try_for_each(|cases| all_orders(cases, dice, tally))
}
