//! Reasons of clashes worked by hand from request [8] of 02: chains, short and long, and which line wins.

use crate::alike::questions;
use crate::book::{read_book, Refusal};
use crate::compare::Mismatch;
use crate::fixed_groups::four_signs;
use crate::prng::Dice;
use crate::reason_calls::Asked;
use crate::reasons::{Answer, Question, Reason, Ways};
use crate::tally::Tally;

/// Of each book about so many questions more are asked, all if it has no more.
const MOST_QUESTIONS: usize = 200;
/// The longest buffer has so many bytes more than the chain.
const SPARE: usize = 70;

/// An answer by hand; of a chain, all that are as short as any.
pub enum Hand {
    No,
    Chains(Vec<Vec<u8>>),
    First(usize),
    Last(usize),
    Refused(u64, u64),
}

impl Hand {
    fn answer(&self) -> Answer {
        match self {
            Hand::No => Ok(None),
            Hand::Chains(all) => Ok(Some(Reason::Chain(all[0].len()))),
            Hand::First(declaration) => Ok(Some(Reason::First(*declaration))),
            Hand::Last(declaration) => Ok(Some(Reason::Last(*declaration))),
            Hand::Refused(number, place) => Err(Refusal { number: *number, place: *place }),
        }
    }

    /// The chains, if it is by them.
    fn chains(&self) -> &[Vec<u8>] {
        match self {
            Hand::Chains(all) => all,
            _ => &[],
        }
    }
}

/// A question with its answer.
pub type Ask = (Question, Hand);

/// No clash.
pub fn no([p, i, q]: [u64; 3]) -> Ask {
    ((p, i, q), Hand::No)
}

/// By one of these chains, and no other.
pub fn one_of([p, i, q]: [u64; 3], all: &[&[u8]]) -> Ask {
    ((p, i, q), Hand::Chains(all.iter().map(|chain| chain.to_vec()).collect()))
}

/// By this chain alone.
pub fn only(ask: [u64; 3], chain: &[u8]) -> Ask {
    one_of(ask, &[chain])
}

/// By line 2, at the first argument, and this declaration.
pub fn first([p, i, q]: [u64; 3], declaration: usize) -> Ask {
    ((p, i, q), Hand::First(declaration))
}

/// By line 3, at the last argument, and this declaration.
pub fn last([p, i, q]: [u64; 3], declaration: usize) -> Ask {
    ((p, i, q), Hand::Last(declaration))
}

/// A book, and questions with their answers.
pub struct Worked {
    name: &'static str,
    book: Vec<u8>,
    asks: Vec<Ask>,
}

pub fn worked(name: &'static str, book: Vec<u8>, asks: impl IntoIterator<Item = Ask>) -> Worked {
    Worked { name, book, asks: asks.into_iter().collect() }
}

/// Four signs: rules 1 to 4, with a sort, a class and a sort as their arguments, beside rule 0, a digit.
pub fn signs(name: &'static str, declarations: &[[u8; 3]], asks: impl IntoIterator<Item = Ask>) -> Worked {
    worked(name, four_signs(declarations), asks)
}

/// Chains that have nothing beside them.
fn plain_chains() -> Vec<Worked> {
    vec![
        signs("one", &[[1, 1, 2]], [only([1, 0, 2], &[0]), only([1, 2, 2], &[0]), no([1, 1, 2]), no([2, 0, 1]), no([1, 0, 3])]),
        signs("a digit below", &[[1, 1, 0]], [only([1, 0, 0], &[0]), only([1, 2, 0], &[0]), no([0, 0, 1])]),
        signs("two", &[[1, 1, 2], [1, 2, 3]], [only([1, 0, 3], &[0, 1]), only([1, 2, 2], &[0]), only([2, 0, 3], &[1])]),
        signs("two, the lower first", &[[1, 2, 3], [1, 1, 2]], [only([1, 0, 3], &[1, 0]), no([3, 0, 1])]),
        signs("three", &[[1, 3, 4], [1, 1, 2], [1, 2, 3]], [only([1, 2, 4], &[1, 2, 0]), only([2, 2, 4], &[2, 0])]),
        signs("four", &[[1, 1, 0], [1, 4, 3], [1, 2, 1], [1, 3, 2]], [only([4, 0, 0], &[1, 3, 2, 0])]),
        // Kinds 2 to 7 are no part of a chain, whatever they cover.
        signs("a gap", &[[1, 1, 2], [2, 2, 3], [4, 2, 3], [7, 2, 3], [1, 3, 4]], [no([1, 0, 4]), no([1, 2, 4])]),
        signs("a link upwards", &[[1, 1, 2], [1, 3, 2], [1, 3, 4]], [no([1, 0, 4]), no([1, 0, 3])]),
        signs("no link", &[[2, 1, 2], [5, 1, 2], [1, 1, 2], [3, 1, 2]], [only([1, 0, 2], &[2]), only([1, 2, 2], &[2])]),
    ]
}

/// Several chains from p to q.
fn several_chains() -> Vec<Worked> {
    let diamond = [[1, 1, 2], [1, 1, 3], [1, 2, 4], [1, 3, 4]];
    let twice = [[1, 1, 2], [1, 2, 3], [1, 2, 3], [1, 1, 2]];
    let branching = [[1, 1, 2], [1, 2, 0], [1, 2, 3], [1, 3, 0], [1, 3, 4], [1, 2, 0]];
    let short_last = [[1, 1, 2], [1, 2, 3], [1, 3, 4], [1, 4, 0], [1, 1, 4]];
    vec![
        signs("declared twice", &[[1, 1, 2], [1, 1, 2]], [one_of([1, 0, 2], &[&[0], &[1]])]),
        signs("two shortest", &diamond, [one_of([1, 0, 4], &[&[0, 2], &[1, 3]]), only([1, 2, 3], &[1])]),
        signs("each link twice", &twice, [one_of([1, 0, 3], &[&[0, 1], &[0, 2], &[3, 1], &[3, 2]])]),
        signs("the longer first", &[[1, 1, 2], [1, 2, 3], [1, 1, 3]], [only([1, 0, 3], &[2]), only([1, 2, 3], &[2])]),
        signs("the longer last", &[[1, 1, 3], [1, 1, 2], [1, 2, 3]], [only([1, 0, 3], &[0])]),
        signs("the longer around it", &[[1, 1, 2], [1, 1, 3], [1, 2, 3]], [only([1, 0, 3], &[1])]),
        signs("three before two", &[[1, 1, 2], [1, 2, 3], [1, 3, 4], [1, 1, 3]], [only([1, 0, 4], &[3, 2])]),
        signs("four before two", &short_last, [only([1, 0, 0], &[4, 3]), only([1, 0, 4], &[4]), only([2, 0, 0], &[1, 2, 3])]),
        signs("short at the end", &[[1, 1, 2], [1, 2, 3], [1, 3, 4], [1, 2, 4]], [only([1, 0, 4], &[0, 3])]),
        signs("a dead end first", &[[1, 1, 2], [1, 1, 3], [1, 3, 4]], [only([1, 0, 4], &[1, 2])]),
        signs("dead ends on the way", &branching, [only([1, 0, 4], &[0, 2, 4]), one_of([1, 2, 0], &[&[0, 1], &[0, 5]])]),
        signs("a dead end last", &[[1, 3, 4], [1, 1, 3], [1, 1, 2], [1, 3, 2]], [only([1, 0, 4], &[1, 0])]),
    ]
}

/// A pair that two lines bar: the lowest line wins, wherever the declarations stand.
fn two_lines() -> Vec<Worked> {
    let apart = [[4, 1, 3], [1, 1, 2], [1, 2, 3]];
    let one_above = |i| only([1, i, 2], &[1]);
    vec![
        signs("1 and 3", &[[2, 1, 2], [1, 1, 2]], [one_above(2), one_above(0), last([2, 2, 1], 0), no([2, 0, 1])]),
        signs("1 and 2", &[[3, 1, 2], [1, 1, 2]], [one_above(0), one_above(2), first([2, 0, 1], 0), no([2, 2, 1])]),
        signs("1 and 3 by a group", &[[5, 1, 4], [1, 1, 2]], [one_above(2), last([2, 2, 1], 0)]),
        signs("1 and 2 by a group", &[[6, 1, 4], [1, 1, 2]], [one_above(0), first([2, 0, 1], 0)]),
        signs("1 and both by a group", &[[7, 1, 2], [1, 1, 2]], [one_above(0), one_above(2), last([2, 2, 2], 0)]),
        signs("a chain of two and both", &apart, [only([1, 0, 3], &[1, 2]), only([1, 2, 3], &[1, 2])]),
        signs("and the other way", &apart, [first([3, 0, 1], 0), last([3, 2, 1], 0)]),
        signs("1 first, then 2 and 3", &[[1, 2, 1], [4, 1, 2]], [only([2, 0, 1], &[0]), only([2, 2, 1], &[0])]),
        signs("2 and 3 of q above p", &[[1, 2, 1], [4, 1, 2]], [first([1, 0, 2], 1), last([1, 2, 2], 1)]),
    ]
}

/// This program against the hand: the answer, and the judge of each of the chains and of each start of it.
fn own(asked: &Asked, hand: &Hand) -> Result<(), Mismatch> {
    let wrong = |expected: String, found: String| {
        Err(Mismatch { call: "this program against the hand".into(), expected, found, lent: vec![] })
    };
    if asked.answer() != hand.answer() {
        return wrong(format!("{:?}", hand.answer()), format!("{:?}", asked.answer()));
    }
    let ends = (asked.ask.0 as usize, asked.ask.2 as usize);
    for chain in hand.chains() {
        let is_good = |start| asked.ways.as_ref().is_ok_and(|ways| ways.judge(ends, chain.len(), start).is_ok());
        if !(0..=chain.len()).all(|length| is_good(&chain[..length])) {
            return wrong(format!("{chain:?} is a chain, and so is each start of it"), "not so judged".into());
        }
    }
    Ok(())
}

/// The library: its answer, and its chain, or as much of it as fits, among those by hand.
fn same_reason(asked: &Asked, hand: &Hand, dice: &mut Dice) -> Result<(), Mismatch> {
    let found = asked.compare(dice)?;
    let start = &found[..asked.written()];
    if hand.chains().is_empty() || hand.chains().iter().any(|chain| chain.starts_with(start)) {
        return Ok(());
    }
    let expected = format!("one of {:?}, or its start", hand.chains());
    Err(asked.tell(Mismatch { call: "meadowsink_reason".into(), expected, found: format!("{start:?}"), lent: vec![] }))
}

/// A question by hand, with buffers of no byte, of one, too short by one, just long enough, and longer.
fn by_hand(bytes: &[u8], ways: &Result<Ways, Refusal>, (ask, hand): &Ask, dice: &mut Dice) -> Result<(), Mismatch> {
    let length = hand.chains().first().map_or(0, |chain| chain.len());
    for room in [0, 1, length.saturating_sub(1), length, length + 1, length + SPARE] {
        let before = dice.garbage(room);
        let asked = Asked { bytes, ways, ask: *ask, before: &before };
        own(&asked, hand).map_err(|wrong| asked.tell(wrong))?;
        same_reason(&asked, hand, dice)?;
    }
    Ok(())
}

/// The questions by hand, and others of the book, all if it is small.
fn same_reasons(case: &Worked, dice: &mut Dice, tally: &mut Tally) -> Result<(), Mismatch> {
    let book = read_book(&case.book);
    let ways = book.as_ref().map(Ways::new).map_err(|refused| *refused);
    let name = |mut wrong: Mismatch| {
        wrong.call = format!("worked reason \"{}\": {}", case.name, wrong.call);
        wrong
    };
    for ask in &case.asks {
        by_hand(&case.book, &ways, ask, dice).map_err(name)?;
        tally.add("fixed", "worked by hand");
    }
    let others = book.as_ref().map_or(vec![], |good| questions(good, MOST_QUESTIONS, dice));
    for ask in others {
        let before = dice.garbage(SPARE);
        Asked { bytes: &case.book, ways: &ways, ask, before: &before }.compare(dice).map_err(name)?;
    }
    Ok(())
}

/// All of these books.
pub fn all_reasons(cases: &[Worked], dice: &mut Dice, tally: &mut Tally) -> Result<(), Mismatch> {
    cases.iter().try_for_each(|case| same_reasons(case, dice, tally))
}

pub fn run(dice: &mut Dice, tally: &mut Tally) -> Result<(), Mismatch> {
    [plain_chains(), several_chains(), two_lines()].iter().try_for_each(|cases| all_reasons(cases, dice, tally))
}
