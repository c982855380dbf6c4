//! Flat texts, charts, lent buffers, listings and clash questions of books with downward ranges, worked by hand from request
//! [3] of 02.

use crate::book::{read_book, Refusal};
use crate::compare::{read_with, Given, Mismatch};
use crate::fixed::{book_t, FLAT_T, T};
use crate::fixed_clashes::{same_flat, Flat};
use crate::fixed_ranges::{class_of, down_t, rule_to_each, sixteen};
use crate::listing::{judge, to_bytes, Judgement};
use crate::others;
use crate::prng::Dice;
use crate::reading::{Answer, Study};
use crate::tally::Tally;

/// A class with downward ranges, the same upwards, and the flat class of both.
fn flat_class(down: &[(u8, u8)], up: &[(u8, u8)], class: &str) -> Flat {
    Flat { book: class_of(down), other: Some(class_of(up)), text: format!("[{class}] -> [\\258]\n") }
}

/// One range, and several far from each other.
fn flat_ranges() -> Vec<Flat> {
    let of_sixteen = "\\100-\\102\\105-\\107\\110-\\112\\115-\\117\\120-\\122\\125-\\127\\130-\\132\\135-\\137\
        \\140-\\142\\145-\\147\\150-\\152\\155-\\157\\160-\\162\\165-\\167\\170-\\172\\175-\\177";
    vec![
        flat_class(&[(57, 48)], &[(48, 57)], "\\48-\\57"),
        flat_class(&[(53, 50)], &[(50, 53)], "\\50-\\53"),
        flat_class(&[(51, 50)], &[(50, 51)], "\\50-\\51"),
        flat_class(&[(50, 50)], &[(50, 50)], "\\50"),
        flat_class(&[(255, 0)], &[(0, 255)], "\\0-\\255"),
        flat_class(&[(254, 1)], &[(1, 254)], "\\1-\\254"),
        flat_class(&[(255, 254), (1, 0)], &[(0, 1), (254, 255)], "\\0-\\1\\254-\\255"),
        flat_class(&[(57, 56), (53, 52), (49, 48)], &[(48, 49), (52, 53), (56, 57)], "\\48-\\49\\52-\\53\\56-\\57"),
        flat_class(&sixteen(&[0]), &sixteen(&[]), of_sixteen),
        flat_class(&sixteen(&[7]), &sixteen(&[]), of_sixteen),
        flat_class(&sixteen(&[15]), &sixteen(&[]), of_sixteen),
    ]
}

/// Beside another range: touching, overlapping, within, and with a gap of one.
fn flat_neighbours() -> Vec<Flat> {
    vec![
        flat_class(&[(53, 50), (54, 57)], &[(50, 53), (54, 57)], "\\50-\\57"),
        flat_class(&[(54, 57), (53, 50)], &[(50, 57)], "\\50-\\57"),
        flat_class(&[(57, 54), (53, 50)], &[(50, 57)], "\\50-\\57"),
        flat_class(&[(48, 49), (53, 50)], &[(48, 53)], "\\48-\\53"),
        flat_class(&[(53, 50), (52, 57)], &[(50, 53), (52, 57)], "\\50-\\57"),
        flat_class(&[(53, 50), (53, 57)], &[(50, 53), (53, 57)], "\\50-\\57"),
        flat_class(&[(57, 48), (50, 53)], &[(48, 57), (50, 53)], "\\48-\\57"),
        flat_class(&[(48, 57), (53, 50)], &[(48, 57)], "\\48-\\57"),
        flat_class(&[(48, 57), (57, 48)], &[(48, 57)], "\\48-\\57"),
        flat_class(&[(53, 50), (55, 57)], &[(50, 53), (55, 57)], "\\50-\\53\\55-\\57"),
        flat_class(&[(55, 57), (53, 50)], &[(50, 53), (55, 57)], "\\50-\\53\\55-\\57"),
        flat_class(&[(57, 55), (53, 50)], &[(50, 53), (55, 57)], "\\50-\\53\\55-\\57"),
        flat_class(&[(53, 50), (54, 54), (57, 55)], &[(50, 57)], "\\50-\\57"),
    ]
}

/// More than one rule.
fn flat_books() -> Vec<Flat> {
    // Not quite the same digits: with the same ones the second rule would be equal to the first.
    let [down, up]: [&[(u8, u8)]; 2] = [&[(57, 49)], &[(49, 57)]];
    let [all_down, all_up]: [&[(u8, u8)]; 2] = [&[(57, 48)], &[(48, 57)]];
    let nearly_twice = "[\\48-\\57] -> [\\258]\n[\\49-\\57] -> [\\259]\n";
    vec![
        Flat { book: down_t(&T), other: Some(book_t(&T)), text: FLAT_T.into() },
        Flat { book: down_t(&[[5, 1, 2]]), other: Some(book_t(&[[5, 1, 2]])), text: FLAT_T.into() },
        Flat { book: rule_to_each(&[all_up, down]), other: Some(rule_to_each(&[all_down, up])), text: nearly_twice.into() },
    ]
}

fn refused(number: u64, place: u64) -> Answer {
    Answer::Refused(Refusal { number, place })
}

/// A book and a text, the lengths of the lent chart and listing buffer, and the answer by hand.
fn buffers() -> Vec<(Vec<u8>, &'static [u8], usize, usize, Answer)> {
    let four = || class_of(&[(53, 50)]);
    vec![
        // Case (k) of 01.
        (down_t(&T), b"8/4*2", 209, 20, refused(20, 210)),
        (down_t(&T), b"8/4*2", 210, 20, Answer::One(10)),
        (down_t(&T), b"8/4*2", 0, 0, refused(20, 210)),
        (down_t(&T), b"8/4*2", 210, 19, refused(22, 9)),
        (down_t(&T), &[b'8'; 201], 0, 0, refused(10, 201)),
        // One rule with one argument and one byte: 2 times 3 entries.
        (four(), b"3", 5, 4, refused(20, 6)),
        (four(), b"3", 6, 4, Answer::One(2)),
        (four(), b"3", 6, 3, refused(22, 1)),
        (four(), b"6", 5, 4, refused(20, 6)),
        (four(), b"6", 6, 4, Answer::None),
    ]
}

fn same_buffers(dice: &mut Dice, tally: &mut Tally) -> Result<(), Mismatch> {
    for (book, text, chart, listing, hand) in buffers() {
        let study = Study::new(&book, text);
        let (chart, listing) = (dice.garbage(chart), dice.garbage(listing));
        let own = study.outcome(&chart, &listing).answer;
        by_hand("buffers", &book, hand, own, tally)?;
        read_with(&book, &study, &chart, &listing, dice, tally)?;
    }
    Ok(())
}

/// The chart of one character of 53-50 over a text: for no argument and for one, each start with its ends.
fn charts() -> Vec<(&'static [u8], &'static [u8])> {
    vec![
        (b"", &[1, 0]),
        (b"1", &[1, 0, 1, 0, 0, 0]),
        (b"2", &[1, 0, 1, 0, 1, 0]),
        (b"3", &[1, 0, 1, 0, 1, 0]),
        (b"5", &[1, 0, 1, 0, 1, 0]),
        (b"6", &[1, 0, 1, 0, 0, 0]),
        (b"64", &[1, 0, 0, 1, 0, 1, 0, 0, 0, 0, 1, 0]),
        (b"41", &[1, 0, 0, 1, 0, 1, 0, 1, 0, 0, 0, 0]),
    ]
}

fn same_charts(dice: &mut Dice, tally: &mut Tally) -> Result<(), Mismatch> {
    let book = class_of(&[(53, 50)]);
    for (text, hand) in charts() {
        let study = Study::new(&book, text);
        let chart = dice.garbage(hand.len());
        by_hand("chart", &book, hand, &study.outcome(&chart, &[]).chart[..], tally)?;
        read_with(&book, &study, &chart, &[], dice, tally)?;
    }
    Ok(())
}

/// Listings of one character of 53-50: the text, the numbers, and the judgement by hand.
fn listings() -> Vec<(&'static [u8], &'static [u16], Judgement)> {
    use Judgement::{Right, Wrong};
    vec![
        (b"2", &[258, 50], Right),
        (b"3", &[258, 51], Right),
        (b"4", &[258, 52], Right),
        (b"5", &[258, 53], Right),
        (b"1", &[258, 49], Wrong(1)),
        (b"6", &[258, 54], Wrong(1)),
        // In the class, but not the next byte of the text.
        (b"3", &[258, 53], Wrong(1)),
        (b"3", &[258], Wrong(1)),
        (b"3", &[258, 51, 51], Wrong(2)),
        (b"33", &[258, 51], Wrong(2)),
    ]
}

fn same_listings(dice: &mut Dice, tally: &mut Tally) -> Result<(), Mismatch> {
    let bytes = class_of(&[(53, 50)]);
    let book = read_book(&bytes);
    for (text, numbers, hand) in listings() {
        let listing = to_bytes(numbers);
        by_hand("listing", &bytes, Ok(hand), judge(&book, text, &listing), tally)?;
        others::listing(Given { book: &bytes, text, listing: &listing }, &book, dice, tally)?;
    }
    Ok(())
}

/// Book T has rules 1 and 2 left, each with itself and with the other: yes at their last argument, else no.
fn same_clashes(dice: &mut Dice, tally: &mut Tally) -> Result<(), Mismatch> {
    let bytes = down_t(&T);
    let book = read_book(&bytes);
    let yes = [(1, 2, 1), (1, 2, 2), (2, 2, 1), (2, 2, 2)];
    for (p, i, q) in (0..3).flat_map(|p| (0..3).flat_map(move |i| (0..3).map(move |q| (p, i, q)))) {
        let hand = match p == 0 && i > 0 {
            true => Err(Refusal { number: 7, place: 0 }),
            false => Ok(yes.contains(&(p, i, q))),
        };
        let own = book.as_ref().map_err(|r| *r).and_then(|b| b.conflict(p, i, q));
        by_hand("clash question", &bytes, hand, own, tally)?;
        others::conflict(&bytes, &book, (p, i, q), dice, tally)?;
    }
    Ok(())
}

/// This program's answer against the one by hand.
fn by_hand<A: PartialEq + std::fmt::Debug>(what: &str, book: &[u8], hand: A, own: A, tally: &mut Tally) -> Result<(), Mismatch> {
    if own != hand {
        let call = format!("worked {what} of a book with downward ranges (this program against the hand)");
        let lent = vec![("book", book.to_vec())];
        return Err(Mismatch { call, expected: format!("{hand:?}"), found: format!("{own:?}"), lent });
    }
    tally.add("fixed", "worked by hand");
    Ok(())
}

pub fn run(dice: &mut Dice, tally: &mut Tally) -> Result<(), Mismatch> {
    for case in flat_ranges().iter().chain(&flat_neighbours()).chain(&flat_books()) {
        same_flat(case, dice, tally)?;
    }
    same_buffers(dice, tally)?;
    same_charts(dice, tally)?;
    same_listings(dice, tally)?;
    same_clashes(dice, tally)
}
