//! Cases worked by hand: the marked cases (a) to (k) of document 01 with the paper's own answers, more of the same kind,
//! and every one-byte damage of book T, with groups and without.

use crate::book::Refusal;
use crate::cases::Case;
use crate::compare::{read_with, Mismatch};
use crate::plans::{tower, Plan};
use crate::prng::Dice;
use crate::reading::{Answer, Study};
use crate::tally::Tally;
use crate::tries::listings;
use crate::{flat_cases, groups, others, turned};

/// Book T of document 01 with these declarations.
pub fn book_t(declarations: &[[u8; 3]]) -> Vec<u8> {
    let mut book = vec![1, 3, 3, declarations.len() as u8, 0, 0, 1, 3, 3, 1, 1, 1];
    book.extend([0, 64, 0, 0, 65, 0, 0, 0, 66, 0, 48, 57, 42, 42, 47, 47]);
    book.extend(declarations.iter().flatten());
    book
}

pub const T: [[u8; 3]; 3] = [[2, 1, 1], [2, 2, 2], [2, 1, 2]];

/// The flat text of T in 01.
pub const FLAT_T: &str =
    "[\\48-\\57] -> [\\258]\n[\\258-\\260] [\\42] [\\258] -> [\\259]\n[\\258-\\260] [\\47] [\\258] -> [\\260]\n";

/// A book, a text, and the answer by hand: a verdict, the only listing, or a refusal.
pub enum Hand {
    None,
    One(&'static [u16]),
    Several,
    Refused(u64, u64),
}

pub struct Worked {
    name: &'static str,
    book: Vec<u8>,
    text: &'static [u8],
    hand: Hand,
}

pub fn worked(name: &'static str, book: Vec<u8>, text: &'static [u8], hand: Hand) -> Worked {
    Worked { name, book, text, hand }
}

fn marked() -> Vec<Worked> {
    let throughout = |kind: u8| T.map(|d| [kind, d[1], d[2]]);
    let looping = vec![1, 2, 1, 0, 0, 0, 1, 1, 1, 0, 64, 0, 0, 56, 56];
    vec![
        worked("(a)", book_t(&T), b"8/4*2", Hand::One(&[259, 260, 258, 56, 47, 258, 52, 42, 258, 50])),
        worked("(b)", book_t(&T), b"", Hand::None),
        worked("(c)", book_t(&T), b"8", Hand::One(&[258, 56])),
        worked("(d)", book_t(&[]), b"8/4*2", Hand::Several),
        worked("(e)", book_t(&throughout(4)), b"8/4/2", Hand::None),
        worked("(f)", book_t(&throughout(3)), b"8/4/2", Hand::One(&[260, 258, 56, 47, 260, 258, 52, 47, 258, 50])),
        worked("(g)", book_t(&[[1, 1, 2]]), b"8/4*2", Hand::One(&[260, 258, 56, 47, 259, 258, 52, 42, 258, 50])),
        worked("(h)", book_t(&[[1, 1, 2], [1, 2, 1]]), b"8/4*2", Hand::Refused(9, 1)),
        worked("(i)", vec![1, 1, 0, 0, 0, 0, 0, 0], b"", Hand::One(&[258])),
        worked("(j)", looping, b"8", Hand::Several),
    ]
}

/// Two sorts A and B: A -> B, B -> A, A -> [8], with these declarations.
pub fn see_saw(declarations: &[[u8; 3]]) -> Vec<u8> {
    let rules = vec![(0, vec![1]), (1, vec![0]), (0, vec![64])];
    Plan { sorts: 2, start: 0, rules, classes: vec![vec![(56, 56)]], declarations: declarations.to_vec() }.bytes()
}

/// Digits, and one more shape over 8, + ( and ).
pub fn shape(arguments: &[u8], declarations: &[[u8; 3]]) -> Vec<u8> {
    let classes = vec![vec![(56, 56)], vec![(43, 43)], vec![(40, 40)], vec![(41, 41)]];
    let rules = vec![(0, vec![64]), (0, arguments.to_vec())];
    Plan { sorts: 1, start: 0, rules, classes, declarations: declarations.to_vec() }.bytes()
}

/// More by hand, for the places that are easily misread.
fn more() -> Vec<Worked> {
    let header = |rules: u8| vec![1, rules, 0, 0, 0, 0];
    vec![
        worked("loop not cut", see_saw(&[]), b"8", Hand::Several),
        worked("loop cut above", see_saw(&[[1, 0, 1]]), b"8", Hand::One(&[260, 56])),
        worked("loop cut below", see_saw(&[[1, 1, 0]]), b"8", Hand::Several),
        worked("loop not cut by kind 4", see_saw(&[[4, 0, 1], [2, 0, 1], [3, 0, 1]]), b"8", Hand::Several),
        worked("prefix is last of two", shape(&[65, 0], &[[2, 1, 1]]), b"++8", Hand::None),
        worked("prefix is not first", shape(&[65, 0], &[[3, 1, 1]]), b"++8", Hand::One(&[259, 43, 259, 43, 258, 56])),
        worked("postfix is first of two", shape(&[0, 65], &[[3, 1, 1]]), b"8++", Hand::None),
        worked("middle stays", shape(&[66, 0, 67], &[[4, 1, 1]]), b"((8))", Hand::One(&[259, 40, 259, 40, 258, 56, 41, 41])),
        worked("left and right", shape(&[0, 65, 0], &[[2, 1, 1], [3, 1, 1]]), b"8+8+8", Hand::None),
        worked("one empty split", vec![2, 2, 0, 0, 0, 0, 0, 1, 1, 0, 1], b"", Hand::One(&[259, 258])),
        worked("header before counts", header(65), b"", Hand::Refused(2, 1)),
        worked("counts missing", header(64), b"", Hand::Refused(1, 6)),
        worked("no byte", vec![], b"", Hand::Refused(1, 0)),
        worked("both bad", vec![0, 1, 0, 0, 0, 0], b"", Hand::Refused(2, 0)),
        worked("rule above itself", shape(&[0], &[[1, 1, 1]]), b"8", Hand::Refused(9, 1)),
    ]
}

/// The answers of this program against those by hand, and the library's against them.
pub fn all_by_hand(cases: &[Worked], dice: &mut Dice, tally: &mut Tally) -> Result<(), Mismatch> {
    for case in cases {
        by_hand(case, dice, tally).map_err(|mut wrong| {
            wrong.call = format!("worked case {}: {}", case.name, wrong.call);
            wrong
        })?;
    }
    Ok(())
}

fn by_hand(case: &Worked, dice: &mut Dice, tally: &mut Tally) -> Result<(), Mismatch> {
    let study = Study::new(&case.book, case.text);
    let (chart, listing) = (dice.garbage(study.need + 7), dice.garbage(99));
    let own = study.outcome(&chart, &listing);
    let answer = match case.hand {
        Hand::None => Answer::None,
        Hand::One(numbers) => Answer::One(numbers.len() as u64),
        Hand::Several => Answer::Several,
        Hand::Refused(number, place) => Answer::Refused(Refusal { number, place }),
    };
    let right_listing = match case.hand {
        Hand::One(numbers) => study.listing.as_ref().is_some_and(|l| l.numbers == numbers),
        _ => true,
    };
    if own.answer != answer || !right_listing {
        let call = "this program against the paper".into();
        return Err(Mismatch { call, expected: format!("{answer:?}"), found: format!("{:?}", own.answer), lent: vec![] });
    }
    tally.add("fixed", "worked by hand");
    whole_case(&case.book, case.text, dice, tally)
}

/// Everything that a random case is compared by.
fn whole_case(book: &[u8], text: &[u8], dice: &mut Dice, tally: &mut Tally) -> Result<(), Mismatch> {
    let case = Case { book: book.to_vec(), text: text.to_vec(), listing: vec![258] };
    let study = Study::new(book, text);
    crate::all_calls(&case, &study, dice, tally)?;
    groups::same_answers(&case, &study, "fixed, spelled", dice, tally)?;
    turned::same_answers(&case, &study, "fixed, turned", dice, tally)?;
    flat_cases::of_book(&case, &study, "fixed, own flat", dice, tally)
}

/// (k), and listing buffers of every small size.
fn buffers(dice: &mut Dice, tally: &mut Tally) -> Result<(), Mismatch> {
    let book = book_t(&T);
    let study = Study::new(&book, b"8/4*2");
    if study.need != 210 {
        let found = study.need.to_string();
        return Err(Mismatch { call: "worked case (k)".into(), expected: "210".into(), found, lent: vec![] });
    }
    for chart in [0, 1, 208, 209, 210, 211, 500] {
        for listing in [0, 1, 2, 3, 18, 19, 20, 21, 22, 64] {
            read_with(&book, &study, &dice.garbage(chart), &dice.garbage(listing), dice, tally)?;
        }
    }
    Ok(())
}

/// An empty reading of 8 to the 31 and more numbers.
pub fn huge() -> Plan {
    let mut huge = Plan { sorts: 32, start: 31, rules: vec![(0, vec![])], classes: vec![], declarations: vec![] };
    huge.rules.extend((1..32).map(|k| (k, vec![k - 1; 8])));
    huge
}

/// Only readings with a given number of numbers, and one with 8 to the 31 and more.
fn long_listings(dice: &mut Dice, tally: &mut Tally) -> Result<(), Mismatch> {
    let sizes = [1, 2, 3, 4095, 4096, 4097, 28_087, 32_767, 32_768, 32_769, 40_000, 70_000];
    let towers = sizes.iter().map(|&size| tower(size));
    for plan in towers.chain([huge()]) {
        let book = plan.bytes();
        let study = Study::new(&book, b"");
        for room in [0, 1, 2, 3, 8191, 8192, 65_534, 65_535, 65_536, 65_537, 65_538, 140_001] {
            read_with(&book, &study, &dice.garbage(study.need), &dice.garbage(room), dice, tally)?;
        }
        let case = Case { book, text: vec![], listing: vec![] };
        listings(&case, &study, dice, tally)?;
    }
    Ok(())
}

/// A book and its longest text with one reading, whose tree has two levels for each step, and one more, for each byte of
/// the text. Each of `steps` sorts has a step rule (to the next sort) and a pad rule (itself and an empty sort); ranks
/// force pad, step, pad, step; the last sort takes an `a` and goes round again, or takes a `b` and ends.
pub fn deep(steps: u8) -> (Vec<u8>, Vec<u8>) {
    let nothing = steps + 1;
    let mut rules = vec![(nothing, vec![]), (steps, vec![64, 0]), (steps, vec![65])];
    let mut declarations = vec![];
    for k in 0..steps {
        let pad = rules.len() as u8;
        rules.push((k, vec![k, nothing]));
        rules.push((k, vec![k + 1]));
        declarations.push([4, pad, pad]);
        // The way into a sort is higher than its step, so the pad comes between.
        declarations.push([1, if k == 0 { 1 } else { pad - 1 }, pad + 1]);
    }
    let classes = vec![vec![(97, 97)], vec![(98, 98)]];
    let book = Plan { sorts: steps as usize + 2, start: steps as usize, rules, classes, declarations }.bytes();
    (book, [vec![b'a'; 199], vec![b'b']].concat())
}

/// The longest texts, by book T, and the deepest tree.
fn long_texts(dice: &mut Dice, tally: &mut Tally) -> Result<(), Mismatch> {
    for (length, operators) in [(199, &b"*/"[..]), (200, b"*/"), (201, b"*/"), (199, b"*")] {
        let text: Vec<u8> =
            (0..length).map(|k| if k % 2 == 0 { b'0' + (k % 10) as u8 } else { dice.pick(operators) }).collect();
        whole_case(&book_t(&T), &text, dice, tally)?;
    }
    deepest(dice, tally)
}

/// By hand: each of the 199 `a` has its rule, itself and 30 times pad, step and nothing; the `b` has its rule and itself.
fn deepest(dice: &mut Dice, tally: &mut Tally) -> Result<(), Mismatch> {
    let (book, text) = deep(30);
    let study = Study::new(&book, &text);
    let numbers = study.listing.as_ref().map_or(0, |l| l.numbers.len());
    if numbers != 199 * (2 + 30 * 3) + 2 {
        let found = format!("{} readings, {numbers} numbers", study.readings);
        return Err(Mismatch { call: "the deepest tree".into(), expected: "18310 numbers".into(), found, lent: vec![] });
    }
    tally.add("fixed", "worked by hand");
    for room in [2 * numbers, 2 * numbers - 1, 2 * numbers - 2, 0] {
        read_with(&book, &study, &dice.garbage(study.need), &dice.garbage(room), dice, tally)?;
    }
    whole_case(&book, &text, dice, tally)
}

/// A book with each byte at each value, cut at each length, one byte longer, and with two bytes changed at once (which of
/// two refusals comes first).
fn damaged(good: &[u8], dice: &mut Dice, tally: &mut Tally) -> Result<(), Mismatch> {
    let changed = |book: &[u8], at: usize, value: u8| [&book[..at], &[value], &book[at + 1..]].concat();
    let telling = [0, 1, 2, 5, 8, 9, 65, 255];
    let mut books: Vec<Vec<u8>> = (0..good.len()).map(|cut| good[..cut].to_vec()).collect();
    books.push([good, &[0]].concat());
    for first in 0..good.len() {
        books.extend((0..=255).map(|value| changed(good, first, value)));
        for second in first + 1..good.len() {
            for (a, b) in telling.iter().flat_map(|&a| telling.map(|b| (a, b))) {
                books.push(changed(&changed(good, first, a), second, b));
            }
        }
    }
    for book in &books {
        bad_book(book, dice, tally)?;
    }
    Ok(())
}

/// The first refusal of a book, by the reading and by the check.
fn bad_book(book: &[u8], dice: &mut Dice, tally: &mut Tally) -> Result<(), Mismatch> {
    let study = Study::new(book, b"8");
    read_with(book, &study, &dice.garbage(40), &dice.garbage(5), dice, tally)?;
    others::check(book, &study.book, dice, tally)
}

/// 64 rules with eight classes each. A class is 16 ranges of 9 bytes in brackets, so a line has 8 * 147 + 10 bytes. The first
/// class of rule r starts at 100 + r, so no two rules are equal.
fn wide() -> Plan {
    let class = |k: u8| (0..16).map(|j| (100 + k + 3 * j, 101 + k + 3 * j)).collect();
    let rules = (0..64).map(|r| (0, vec![64 + r, 64, 64, 64, 64, 64, 64, 64])).collect();
    Plan { sorts: 1, start: 0, rules, classes: (0..64).map(class).collect(), declarations: vec![] }
}

/// The flat text of T that 01 gives, and one of 64 * 1,186 = 75,904 bytes.
fn flat_texts(dice: &mut Dice, tally: &mut Tally) -> Result<(), Mismatch> {
    let wide = wide().bytes();
    let text_of = |book: &[u8]| crate::book::read_book(book).map(|b| crate::flat::text(&b)).unwrap_or_default();
    if text_of(&book_t(&T)) != FLAT_T.as_bytes() || text_of(&wide).len() != 75_904 {
        let found = String::from_utf8_lossy(&text_of(&book_t(&T))).into();
        return Err(Mismatch { call: "worked flat text".into(), expected: FLAT_T.into(), found, lent: vec![] });
    }
    tally.add("fixed", "worked by hand");
    for (book, length) in [(book_t(&T), FLAT_T.len()), (wide, 75_904)] {
        for room in [0, 1, length - 1, length, length + 1, 80_000] {
            others::flat_with(&book, Ok(&text_of(&book)), &dice.garbage(room), dice, tally)?;
        }
    }
    Ok(())
}

pub fn run(tally: &mut Tally) -> Result<(), Mismatch> {
    let mut dice = Dice::new(0);
    all_by_hand(&marked(), &mut dice, tally)?;
    all_by_hand(&more(), &mut dice, tally)?;
    buffers(&mut dice, tally)?;
    flat_texts(&mut dice, tally)?;
    long_listings(&mut dice, tally)?;
    long_texts(&mut dice, tally)?;
    crate::fixed_pages::run(&mut dice, tally)?;
    crate::fixed_groups::run(&mut dice, tally)?;
    crate::fixed_clashes::run(&mut dice, tally)?;
    crate::fixed_ranges::run(&mut dice, tally)?;
    crate::fixed_turned::run(&mut dice, tally)?;
    crate::fixed_equal::run(&mut dice, tally)?;
    crate::fixed_twins::run(&mut dice, tally)?;
    crate::fixed_equal_calls::run(&mut dice, tally)?;
    crate::fixed_sheets::run(&mut dice, tally)?;
    crate::fixed_limits::run(&mut dice, tally)?;
    crate::fixed_steps::run(&mut dice, tally)?;
    crate::fixed_numerals::run(&mut dice, tally)?;
    crate::fixed_passing::run(&mut dice, tally)?;
    crate::fixed_forms::run(&mut dice, tally)?;
    crate::fixed_flat_reads::run(&mut dice, tally)?;
    crate::fixed_reasons::run(&mut dice, tally)?;
    crate::fixed_reason_pairs::run(&mut dice, tally)?;
    crate::fixed_reason_limits::run(&mut dice, tally)?;
    crate::fixed_reason_refusals::run(&mut dice, tally)?;
    crate::fixed_lower::run(&mut dice, tally)?;
    crate::fixed_lower_pairs::run(&mut dice, tally)?;
    crate::fixed_lower_counts::run(&mut dice, tally)?;
    crate::fixed_lower_refusals::run(&mut dice, tally)?;
    damaged(&book_t(&[[2, 1, 1], [1, 1, 2]]), &mut dice, tally)?;
    damaged(&book_t(&[[5, 1, 2], [7, 2, 2]]), &mut dice, tally)
}
