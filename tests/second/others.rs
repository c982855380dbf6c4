//! Comparing the library's other calls: checking a book, the clash question, writing a flat book, checking a listing.
//! Each call has two makes, one for the number and one for the place.

use crate::book::{Book, Refusal};
use crate::compare::{same_bytes, same_number, Given, Mismatch};
use crate::library::{self, Lent, Make};
use crate::listing::{self, Judgement};
use crate::numerals::Meant;
use crate::prng::Dice;
use crate::tally::Tally;

pub type Outcome = Result<(), Mismatch>;

/// An answer with a value, or a refusal: its number of kind 3, and its place.
pub fn packed(answer: Result<u64, Refusal>) -> (u64, u64) {
    match answer {
        Ok(number) => (number, 0),
        Err(refused) => (4 * refused.number + 3, refused.place),
    }
}

pub fn refused_name(refused: &Refusal) -> String {
    format!("refused {}", refused.number)
}

pub fn check(bytes: &[u8], book: &Result<Book, Refusal>, dice: &mut Dice, tally: &mut Tally) -> Outcome {
    let refused = book.as_ref().err();
    tally.add("check", refused.map_or("accepted".into(), refused_name));
    let (number, place) = packed(refused.map_or(Ok(0), |r| Err(*r)));
    let mut lent = Lent::new(bytes, dice);
    same_number("meadowsink_check", number, library::check(Make::Number, &mut lent))?;
    same_number("meadowsink_check_place", place, library::check(Make::Place, &mut lent))?;
    same_bytes("meadowsink_check", "book", bytes, &lent)
}

pub fn conflict(bytes: &[u8], book: &Result<Book, Refusal>, ask: (u64, u64, u64), dice: &mut Dice, tally: &mut Tally) -> Outcome {
    let answer = match book {
        Ok(good) => good.conflict(ask.0, ask.1, ask.2),
        Err(refused) => Err(*refused),
    };
    let name = match &answer {
        Ok(true) => "yes".into(),
        Ok(false) => "no".into(),
        Err(refused) => refused_name(refused),
    };
    tally.add("conflict", name);
    let (number, place) = packed(answer.map(|yes| yes as u64));
    let mut lent = Lent::new(bytes, dice);
    let call = format!("meadowsink_conflict, p i q = {} {} {}", ask.0, ask.1, ask.2);
    same_number(&call, number, library::conflict(Make::Number, &mut lent, ask))?;
    same_number(&format!("{call}, place"), place, library::conflict(Make::Place, &mut lent, ask))?;
    same_bytes(&call, "book", bytes, &lent)
}

/// A number that names nothing, or would name something if its high bits were lost.
pub fn odd_number(dice: &mut Dice, good: u64, limit: u64) -> u64 {
    dice.pick(&[limit, limit + 1, 8, 9, 64, 255, 256 + good, 65_536 + good, (1 << 32) + good, (1 << 63) + good, u64::MAX])
}

/// A question to the clash, now and then one that names nothing; of a refused book any will do.
pub fn some_question(book: &Result<Book, Refusal>, dice: &mut Dice) -> (u64, u64, u64) {
    let Ok(good) = book else {
        return (dice.below(3) as u64, dice.below(3) as u64, dice.pick(&[0, 1, u64::MAX]));
    };
    let rules = good.rules.len() as u64;
    let p = dice.below(good.rules.len()) as u64;
    let count = good.count(p as usize) as u64;
    let (i, q) = (dice.below(count as usize) as u64, dice.below(good.rules.len()) as u64);
    match dice.below(12) {
        0 => (odd_number(dice, p, rules), i, q),
        1 => (p, odd_number(dice, i, count), q),
        2 => (p, i, odd_number(dice, q, rules)),
        3 => (p, count, q),
        _ => (p, i, q),
    }
}

/// Some questions to the clash, all of them now and then.
pub fn conflicts(bytes: &[u8], book: &Result<Book, Refusal>, dice: &mut Dice, tally: &mut Tally) -> Outcome {
    for _ in 0..if book.is_ok() { 6 } else { 1 } {
        let ask = some_question(book, dice);
        conflict(bytes, book, ask, dice, tally)?;
    }
    let Ok(good) = book else {
        return Ok(());
    };
    let rules = good.rules.len() as u64;
    if rules <= 5 && dice.chance(10) {
        for p in 0..rules {
            for i in 0..good.count(p as usize) as u64 {
                for q in 0..rules {
                    conflict(bytes, book, (p, i, q), dice, tally)?;
                }
            }
        }
    }
    Ok(())
}

/// The answer to writing these bytes over a buffer, and what it holds afterwards. `short` is the refusal of a buffer that is
/// too short.
pub fn written(bytes: Result<&[u8], Refusal>, before: &[u8], short: u64) -> (Result<u64, Refusal>, Vec<u8>) {
    let mut after = before.to_vec();
    let answer = bytes.and_then(|all| {
        if all.len() > before.len() {
            return Err(Refusal { number: short, place: all.len() as u64 });
        }
        after[..all.len()].copy_from_slice(all);
        Ok(4 * all.len() as u64 + 1)
    });
    (answer, after)
}

/// A buffer exactly long enough, one too short, longer, empty, or of any length that is too short.
pub fn some_room(dice: &mut Dice, need: usize) -> usize {
    match dice.below(8) {
        0 => need.saturating_sub(1),
        1 => dice.below(need),
        2 | 3 => need + dice.between(1, 40),
        4 => 0,
        _ => need,
    }
}

/// Writing a flat book over this buffer. `text` is the flat text, if the book is accepted.
pub fn flat_with(bytes: &[u8], text: Result<&[u8], Refusal>, before: &[u8], dice: &mut Dice, tally: &mut Tally) -> Outcome {
    let (answer, after) = written(text, before, 21);
    tally.add("flat", answer.as_ref().map_or_else(refused_name, |_| "written".into()));
    let meant = answer.is_ok().then(|| Meant::in_flat(bytes));
    let (number, place) = packed(answer);
    for (make, call, expected) in [(Make::Number, "meadowsink_flat", number), (Make::Place, "meadowsink_flat_place", place)] {
        let mut lent = Lent::new(bytes, dice);
        let mut out = Lent::new(before, dice);
        let tell = |mut wrong: Mismatch| {
            wrong.lent = vec![("flat buffer before", before.to_vec())];
            wrong
        };
        same_number(call, expected, library::flat(make, &mut lent, &mut out)).map_err(tell)?;
        if let Some(numerals) = &meant {
            numerals.read(call, number / 4, &out, tally).map_err(tell)?;
        }
        same_bytes(call, "flat buffer", &after, &out).map_err(tell)?;
        same_bytes(call, "book", bytes, &lent)?;
    }
    Ok(())
}

/// Over some buffer.
pub fn flat(bytes: &[u8], book: &Result<Book, Refusal>, dice: &mut Dice, tally: &mut Tally) -> Outcome {
    let text = book.as_ref().map(crate::flat::text).map_err(|r| *r);
    let need = text.as_ref().map_or(40, |t| t.len());
    let length = some_room(dice, need);
    let before = dice.garbage(length);
    flat_with(bytes, text.as_deref().map_err(|r| *r), &before, dice, tally)
}

/// Checking a listing against a text.
pub fn listing(given: Given, book: &Result<Book, Refusal>, dice: &mut Dice, tally: &mut Tally) -> Outcome {
    let answer = listing::judge(book, given.text, given.listing);
    let name = match &answer {
        Ok(Judgement::Right) => "right".into(),
        Ok(Judgement::Wrong(_)) => "wrong".into(),
        Err(refused) => refused_name(refused),
    };
    tally.add("check_listing", name);
    let (number, place) = packed(answer.map(|judged| match judged {
        Judgement::Right => 0,
        Judgement::Wrong(index) => 4 * index + 1,
    }));
    for (make, call, expected) in
        [(Make::Number, "meadowsink_check_listing", number), (Make::Place, "meadowsink_check_listing_place", place)]
    {
        let mut lent = given.lend(dice);
        let [b, t, l] = &mut lent;
        let found = library::check_listing(make, b, t, l);
        same_number(call, expected, found).and_then(|_| given.stayed(call, &lent)).map_err(|wrong| given.tell(wrong))?;
    }
    Ok(())
}
