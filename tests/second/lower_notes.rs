//! How two random listings compare, and what of that is easily got wrong.

use crate::book::Refusal;
use crate::listing::{check, is_bad_length, Judgement, MOST_BYTES};
use crate::lower::{bag, Order, NOT_RIGHT};
use crate::lower_calls::Asked;
use crate::others::refused_name;
use crate::reasons::{Ways, HIGHER};
use crate::tally::Tally;

/// What a byte can't count to.
const BYTE: usize = 256;
const MOST_RULES: usize = 64;
const MOST_TEXT: usize = 200;

/// Two readings: which rules each uses more often, and how often each is used.
struct Uses<'a> {
    ways: &'a Ways<'a>,
    counts: [Vec<usize>; 2],
    more: [Vec<usize>; 2],
}

impl<'a> Uses<'a> {
    fn new(ways: &'a Ways<'a>, listings: [&[u8]; 2]) -> Uses<'a> {
        let rules = ways.book.rules.len();
        let counts = listings.map(|listing| {
            let mut counts = vec![0; rules];
            bag(ways.book, listing).into_iter().for_each(|rule| counts[rule] += 1);
            counts
        });
        let more = [0, 1].map(|k| (0..rules).filter(|&rule| counts[k][rule] > counts[1 - k][rule]).collect());
        Uses { ways, counts, more }
    }

    fn total(&self, reading: usize) -> usize {
        self.counts[reading].iter().sum()
    }

    /// Would the reading be below the other if `covers` were the ranks? It is asked of a rule of the other and one of its own.
    fn is_below(&self, reading: usize, covers: impl Fn(usize, usize) -> bool) -> bool {
        let others = &self.more[1 - reading];
        self.more[reading].iter().all(|&rule| others.iter().any(|&other| covers(other, rule)))
    }

    /// The order, if `covers` were the ranks.
    fn order(&self, covers: impl Fn(usize, usize) -> bool) -> Order {
        Order::of_sides(self.is_below(0, &covers), self.is_below(1, &covers))
    }

    /// Would the reading be below if a higher rule only had to be used by the other?
    fn is_below_by_use(&self, reading: usize) -> bool {
        let used = |rule: usize, other: usize| self.counts[1 - reading][other] > 0 && self.is_higher(other, rule);
        self.more[reading].iter().all(|&rule| (0..self.counts[0].len()).any(|other| used(rule, other)))
    }

    fn is_higher(&self, a: usize, b: usize) -> bool {
        a != b && self.ways.fewest(a, b).is_some()
    }

    /// Is a declaration of another kind of both?
    fn is_beside(&self, a: usize, b: usize) -> bool {
        self.ways.book.declarations.iter().any(|d| d.kind != HIGHER && d.covers(a, b))
    }

    /// Which reading has more of the rule with the lowest index, or the highest, that is used unequally often?
    fn by_index(&self, is_lowest: bool) -> Order {
        let ends = [0, 1].map(|k| if is_lowest { self.more[k].first() } else { self.more[k].last() });
        let first_has_it = match ends {
            [Some(a), Some(b)] => (a < b) == is_lowest,
            [a, _] => a.is_some(),
        };
        Order::of_sides(!first_has_it, first_has_it)
    }
}

/// Two readings that use some rules unequally often.
fn note_unequal(uses: &Uses, order: Order, tally: &mut Tally) {
    let is_neither = order == Order::Neither;
    let lower = (order == Order::Above) as usize;
    let by_use = [0, 1].map(|k| uses.is_below_by_use(k));
    let unlike = |other: Order| !is_neither && other != order;
    let met = [
        (uses.order(|a, b| uses.ways.fewest(a, b) == Some(1)) != order, "a chain of ranks needed"),
        (uses.order(|a, b| uses.is_higher(b, a)) != order, "the printed formula differs"),
        (is_neither && by_use.contains(&true), "a higher rule used as often"),
        (is_neither && uses.order(|a, b| uses.is_beside(a, b) || uses.is_higher(a, b)) != order, "other kinds between them"),
        (is_neither && uses.total(0) == uses.total(1), "neither, as many rules"),
        (is_neither && uses.total(0) != uses.total(1), "neither, not as many rules"),
        (!is_neither && uses.total(lower) > uses.total(1 - lower), "more rules in the lower one"),
        (!is_neither && uses.more[lower].is_empty(), "nothing more in the lower one"),
        (!is_neither && uses.more[lower].len() > 1, "two rules or more covered"),
        (unlike(uses.by_index(true)), "the lowest index differs"),
        (unlike(uses.by_index(false)), "the highest index differs"),
    ];
    tally.add_met("compare with", &met);
}

/// Counts and rules.
fn note_sizes(uses: &Uses, tally: &mut Tally) {
    let [first, second] = &uses.counts;
    let apart = |(a, b): (&usize, &usize)| a != b && a % BYTE == b % BYTE;
    let met = [
        (first.iter().chain(second).any(|&count| count >= BYTE), "256 or more of a rule"),
        (first.iter().zip(second).any(apart), "256 apart"),
        (first.len() == MOST_RULES && uses.more.iter().any(|rules| rules.contains(&(MOST_RULES - 1))), "the last of 64 rules"),
    ];
    tally.add_met("compare with", &met);
}

/// The order of refusals: what else would have been refused.
fn note_refused(asked: &Asked, refused: Refusal, tally: &mut Tally) {
    let long = asked.shared.text.len() > MOST_TEXT;
    let bad = asked.listings.map(is_bad_length);
    let wrong = asked.listings.map(|listing| match asked.shared.ways {
        Ok(ways) => matches!(check(ways.book, asked.shared.text, listing), Ok(Judgement::Wrong(_))),
        Err(_) => false,
    });
    let met = [
        (asked.shared.ways.is_err() && long && bad[0], "a bad book, with 10 and 11"),
        (refused.number == 10 && bad[0], "10, with 11"),
        (refused.number == 11 && bad == [true; 2], "11 twice"),
        (refused.number == 11 && bad[1] && wrong[0], "11 second, with 29 first"),
        (refused.number == 11 && bad[0] && wrong[1], "11 first, with 29 second"),
        (refused.number == NOT_RIGHT && wrong == [true; 2], "29 twice"),
        (refused.number == NOT_RIGHT && asked.listings[refused.place as usize].is_empty(), "29, no number"),
        (refused.number == NOT_RIGHT && asked.listings[refused.place as usize].len() == MOST_BYTES, "29, 8,192 bytes"),
        (refused.number == 11 && refused.place == MOST_BYTES as u64 + 2, "11, 8,194 bytes"),
    ];
    tally.add_met("compare order", &met);
}

fn name(asked: &Asked) -> String {
    match asked.answer {
        Ok(Order::Below) => "below".into(),
        Ok(Order::EqualCounts) if asked.listings[0] == asked.listings[1] => "equal, the same tree".into(),
        Ok(Order::EqualCounts) => "equal, different trees".into(),
        Ok(Order::Above) => "above".into(),
        Ok(Order::Neither) => "neither".into(),
        Err(refused) if refused.number == NOT_RIGHT => format!("refused 29, {}", ["first", "second"][refused.place as usize]),
        Err(refused) if refused.number == 11 && is_bad_length(asked.listings[0]) => "refused 11, first".into(),
        Err(refused) if refused.number == 11 => "refused 11, second".into(),
        Err(refused) => refused_name(&refused),
    }
}

/// A random comparison. Fixed ones are not counted here.
pub fn note(asked: &Asked, tally: &mut Tally) {
    if !tally.is_random {
        return;
    }
    tally.add("compare", "comparisons");
    tally.add("compare", name(asked));
    match (asked.shared.ways, asked.answer) {
        (Ok(ways), Ok(order)) => {
            let uses = Uses::new(ways, asked.listings);
            note_sizes(&uses, tally);
            if order != Order::EqualCounts {
                note_unequal(&uses, order, tally);
            }
        }
        (_, Err(refused)) => note_refused(asked, refused, tally),
        _ => {}
    }
}
