//! What request [9] of 02 says of two readings of a text: which of them is lower, by the multi-set order of document 002,
//! section 7, turned as 02 turns it; and what is refused.
//!
//! A reading is a bag of rules here. What two bags have in common is taken out of both, rule by rule, and of what is left each
//! rule of the lower one must have a higher rule in the other. Beside that stands a second form, by counts, which doesn't ask for
//! higher rules: where the counts differ, and no rule above has different counts, the lower one has fewer. It has its ranks from
//! the table of reasons.rs. A third form, for small bags, is in lower_steps.rs.

use crate::book::{Book, Refusal};
use crate::listing::{check, named, to_numbers, Judgement};
use crate::reasons::Ways;

/// One of two listings is not right.
pub const NOT_RIGHT: u64 = 29;

#[derive(Clone, Copy, PartialEq, Eq, Debug)]
pub enum Order {
    Below,
    EqualCounts,
    Above,
    Neither,
}

/// An order, or a refusal.
pub type Answer = Result<Order, Refusal>;

/// The rules of a reading, each as often as it is used, in rising order.
pub type Bag = Vec<usize>;

impl Order {
    /// Of two that differ, by whether the first is below the second, and the second below the first.
    pub fn of_sides(below: bool, above: bool) -> Order {
        match (below, above) {
            (true, false) => Order::Below,
            (false, true) => Order::Above,
            _ => Order::Neither,
        }
    }

    /// The viewer's number: 4 times the value, plus kind 1.
    pub fn number(self) -> u64 {
        4 * self as u64 + 1
    }
}

/// The rules in a listing. Characters are no rules.
pub fn bag(book: &Book, listing: &[u8]) -> Bag {
    let mut rules: Bag = to_numbers(listing).into_iter().filter_map(|number| named(book, number)).collect();
    rules.sort_unstable();
    rules
}

/// What is left of a bag when each rule of another is taken out, as often as it is there.
fn without(bag: &[usize], other: &[usize]) -> Bag {
    let mut taken = other.iter().peekable();
    let mut is_left = |rule: &usize| {
        while taken.next_if(|next| *next < rule).is_some() {}
        taken.next_if_eq(&rule).is_none()
    };
    bag.iter().copied().filter(|rule| is_left(rule)).collect()
}

/// The order of two bags, by what is left of them.
pub fn by_rests(book: &Book, first: &[usize], second: &[usize]) -> Order {
    let mut rests = [without(first, second), without(second, first)];
    if rests.iter().all(|rest| rest.is_empty()) {
        return Order::EqualCounts;
    }
    rests.iter_mut().for_each(|rest| rest.dedup());
    let is_under = |rule: &usize, rest: &[usize]| rest.iter().any(|above| book.ranks.is_higher(*above, *rule));
    let is_below = |low: usize| rests[low].iter().all(|rule| is_under(rule, &rests[1 - low]));
    Order::of_sides(is_below(0), is_below(1))
}

/// The same by counts: the first is below if it uses each rule less often that is highest among those used unequally often.
pub fn by_highest(ways: &Ways, first: &[usize], second: &[usize]) -> Order {
    let rules = ways.book.rules.len();
    let mut surplus = vec![0i32; rules];
    first.iter().for_each(|&rule| surplus[rule] += 1);
    second.iter().for_each(|&rule| surplus[rule] -= 1);
    let unequal: Vec<usize> = (0..rules).filter(|&rule| surplus[rule] != 0).collect();
    let has_above = |rule: usize| unequal.iter().any(|&other| other != rule && ways.fewest(other, rule).is_some());
    let highest: Vec<i32> = unequal.iter().filter(|&&rule| !has_above(rule)).map(|&rule| surplus[rule]).collect();
    if unequal.is_empty() {
        return Order::EqualCounts;
    }
    Order::of_sides(highest.iter().all(|&more| more < 0), highest.iter().all(|&more| more > 0))
}

/// Two listings for a text: 10, then 11 for the first and for the second, then 29 for the first and for the second.
pub fn answer(book: &Book, text: &[u8], listings: [&[u8]; 2]) -> Answer {
    let [first, second] = listings.map(|listing| check(book, text, listing));
    let judged = [first?, second?];
    if let Some(wrong) = judged.iter().position(|found| *found != Judgement::Right) {
        return Err(Refusal { number: NOT_RIGHT, place: wrong as u64 });
    }
    let [first, second] = listings.map(|listing| bag(book, listing));
    Ok(by_rests(book, &first, &second))
}
