//! What request [9] of 02 promises of the order of readings, whatever the readings are, seen in the library's own numbers: a
//! reading against itself, two readings swapped, and three readings in a row.

use crate::compare::{same_number, Mismatch};
use crate::lower_calls::Shared;
use crate::others::Outcome;
use crate::prng::Dice;
use crate::tally::Tally;

/// The viewer's numbers.
const BELOW: u64 = 1;
const EQUAL_COUNTS: u64 = 5;
const ABOVE: u64 = 9;

/// Numbers of the first reading against each, of the second against each, and so on.
pub type Numbers = Vec<Vec<u64>>;

/// Swapping negates below, equal and above, and keeps neither.
fn swapped(number: u64) -> u64 {
    match number {
        BELOW => ABOVE,
        ABOVE => BELOW,
        same => same,
    }
}

/// What the first is to the third, by what each is to the next, if that says it.
fn onward(first: u64, second: u64) -> Option<(u64, &'static str)> {
    match (first, second) {
        (EQUAL_COUNTS, EQUAL_COUNTS) => Some((EQUAL_COUNTS, "equal, then equal")),
        (EQUAL_COUNTS, other) => Some((other, "equal, then another")),
        (other, EQUAL_COUNTS) => Some((other, "another, then equal")),
        (BELOW, BELOW) => Some((BELOW, "below, then below")),
        (ABOVE, ABOVE) => Some((ABOVE, "above, then above")),
        _ => None,
    }
}

/// The laws, of readings that are right.
fn laws(found: &Numbers, tally: &mut Tally) -> Outcome {
    let all = || 0..found.len();
    for (a, b) in all().flat_map(|a| all().map(move |b| (a, b))) {
        same_number("a reading against itself", EQUAL_COUNTS, found[a][a])?;
        same_number("two readings swapped", swapped(found[a][b]), found[b][a])?;
        for c in all().filter(|&c| a != b && b != c) {
            if let Some((expected, name)) = onward(found[a][b], found[b][c]) {
                tally.add_met("compare laws", &[(tally.is_random, name)]);
                same_number("the first of three readings and the third", expected, found[a][c])?;
            }
        }
    }
    Ok(())
}

/// Each of these listings against each, and the laws if all of them are right.
pub fn each_with_each(shared: Shared, listings: &[Vec<u8>], dice: &mut Dice, tally: &mut Tally) -> Result<Numbers, Mismatch> {
    let mut found = vec![];
    for first in listings {
        let row = listings.iter().map(|second| shared.asked([first, second]).compare(dice, tally));
        found.push(row.collect::<Result<Vec<u64>, Mismatch>>()?);
    }
    if found.iter().flatten().all(|number| number % 4 == 1) {
        laws(&found, tally).map_err(|mut wrong| {
            wrong.lent.extend([("book compared by", shared.bytes.to_vec()), ("text compared for", shared.text.to_vec())]);
            wrong.lent.extend(listings.iter().map(|listing| ("a listing", listing.clone())));
            wrong
        })?;
    }
    Ok(found)
}
