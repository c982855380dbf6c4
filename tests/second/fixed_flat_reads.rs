//! Readings by flat texts worked by hand from request [7] of 02: which lines are allowed at the root, lines that no book has,
//! loops, the order of the refusals, charts, and listings at their limits.

use crate::book::{read_book, Refusal};
use crate::compare::Mismatch;
use crate::fixed::{huge, Hand, FLAT_T};
use crate::fixed_forms::{longest_text, SIX};
use crate::fixed_sheets::by_hand;
use crate::flat::Rooted;
use crate::flat_calls::{read_with, Given};
use crate::flat_heights;
use crate::flat_lines::{FlatText, ABSENT, NOT_WRITTEN};
use crate::flat_plans::roots_for;
use crate::plans::tower;
use crate::prng::Dice;
use crate::reading::Answer;
use crate::tally::Tally;

/// Flat text, roots and text, and the answer by hand over buffers that are long enough.
struct Worked {
    flat: Vec<u8>,
    roots: Vec<u8>,
    text: Vec<u8>,
    hand: Hand,
}

fn worked(flat: &str, roots: &[u8], text: &[u8], hand: Hand) -> Worked {
    Worked { flat: flat.into(), roots: roots.to_vec(), text: text.to_vec(), hand }
}

/// Entry `line` is yes, of so many bytes.
fn only(line: usize, length: usize) -> Vec<u8> {
    let mut roots = vec![0; length];
    roots[line] = 1;
    roots
}

const T_READ: Hand = Hand::One(&[259, 260, 258, 56, 47, 258, 52, 42, 258, 50]);
const AN_8: Hand = Hand::One(&[258, 56]);

/// The lines of T with other roots than T has.
fn roots_of_t() -> Vec<Worked> {
    let t = |roots: &[u8], text: &[u8], hand: Hand| worked(FLAT_T, roots, text, hand);
    let beyond = [&[1, 1, 1][..], &[0; 61], &[1; 6]].concat();
    let absent = |number: u64| Hand::Refused(ABSENT, number);
    vec![
        t(&[1, 1, 1], b"8/4*2", T_READ),
        t(&[1, 1, 1], b"", Hand::None),
        t(&[1, 1, 1], b"8", AN_8),
        t(&[1, 1, 1, 0], b"8", AN_8),
        t(&[255, 128, 2], b"8/4*2", T_READ),
        t(&beyond, b"8/4*2", T_READ),
        t(&beyond[..64], b"8/4*2", T_READ),
        t(&[0, 1, 0], b"8/4*2", T_READ),
        t(&[0, 1], b"8/4*2", T_READ),
        t(&[1], b"8/4*2", Hand::None),
        t(&[1], b"8", AN_8),
        t(&[0, 0, 1], b"8/4*2", Hand::None),
        t(&[0, 0, 16], b"8/4", Hand::One(&[260, 258, 56, 47, 258, 52])),
        t(&[0, 1, 1], b"8", Hand::None),
        t(&[], b"8", Hand::None),
        t(&[0; 70], b"8", Hand::None),
        t(&[&[0; 64][..], &[1; 6]].concat(), b"8", Hand::None),
        t(&[1, 1, 1, 1], b"8", absent(261)),
        t(&[0, 0, 0, 1], b"8", absent(261)),
        t(&[1; 70], b"8", absent(261)),
        t(&only(63, 64), b"8", absent(321)),
        t(&only(63, 70), b"8", absent(321)),
        t(&only(64, 70), b"8", Hand::None),
    ]
}

/// Loops, empty lines and classes, and equal lines, which no book has.
fn odd_lines() -> Vec<Worked> {
    let round = "[\\258-\\259] -> [\\258]\n[\\56] -> [\\259]\n";
    let twins = "[\\56] -> [\\258]\n[\\56] -> [\\259]\n[\\258-\\259] -> [\\260]\n[\\259] -> [\\261]\n";
    let nothing = "[\\258-\\259] -> [\\258]\n-> [\\259]\n";
    let two = "[\\259] [\\259] -> [\\258]\n[\\97] -> [\\259]\n-> [\\260]\n[\\259-\\260] [\\259-\\260] -> [\\261]\n";
    vec![
        worked(round, &[1], b"8", Hand::Several),
        worked(round, &[0, 1], b"8", Hand::One(&[259, 56])),
        worked(round, &[1, 1], b"88", Hand::None),
        worked("[\\259] -> [\\258]\n[\\56] -> [\\259]\n", &[1], b"8", Hand::One(&[258, 259, 56])),
        worked("[\\259] -> [\\258]\n[\\56] -> [\\259]\n", &[1, 1], b"8", Hand::Several),
        worked("[\\259] -> [\\258]\n[\\258] -> [\\259]\n[\\56] -> [\\260]\n", &[1, 1, 1], b"8", Hand::One(&[260, 56])),
        worked(twins, &[1, 0], b"8", AN_8),
        worked(twins, &[1, 1], b"8", Hand::Several),
        worked(twins, &[0, 0, 1], b"8", Hand::Several),
        worked(twins, &[0, 0, 0, 1], b"8", Hand::One(&[261, 259, 56])),
        worked(nothing, &[1], b"", Hand::Several),
        worked(nothing, &[0, 1], b"", Hand::One(&[259])),
        worked("-> [\\258]\n", &[1], b"", Hand::One(&[258])),
        worked("-> [\\258]\n", &[1], b"a", Hand::None),
        worked("[] -> [\\258]\n", &[1], b"", Hand::None),
        worked("[] -> [\\258]\n", &[1], b"a", Hand::None),
        worked("[\\258] -> [\\258]\n", &[1], b"", Hand::None),
        worked(two, &[1], b"aa", Hand::One(&[258, 259, 97, 259, 97])),
        worked(two, &[0, 0, 0, 1], b"aa", Hand::One(&[261, 259, 97, 259, 97])),
        worked(two, &[0, 0, 0, 1], b"a", Hand::Several),
        worked(two, &[0, 0, 0, 1], b"", Hand::One(&[261, 260, 260])),
        worked(SIX, &[0, 0, 0, 0, 1], &[0], Hand::One(&[262, 261, 0])),
        worked(SIX, &[0, 0, 0, 0, 1], &[9], Hand::None),
        worked(SIX, &[0, 1], b"\x0a*7", Hand::One(&[259, 262, 261, 10, 42, 258, 55])),
        worked("[\\0-\\255] -> [\\258]\n", &[1], &[255], Hand::One(&[258, 255])),
        worked("[\\0-\\255] -> [\\258]\n", &[1], &[0], Hand::One(&[258, 0])),
        worked("[\\0-\\254] -> [\\258]\n", &[1], &[255], Hand::None),
    ]
}

/// The last line of 64, which is the only one at the root, and the longest flat text.
fn at_limits() -> Vec<Worked> {
    let chain: String = (258..321).map(|n| format!("[\\{}] -> [\\{n}]\n", n + 1)).collect();
    let back = "[\\258] ".to_string() + &(258..322).map(|n| format!("-> [\\{n}]\n")).collect::<String>();
    let of = |flat: String, roots: &[u8], text: &[u8], hand: Hand| worked(&flat, roots, text, hand);
    let longest = || String::from_utf8_lossy(&longest_text()).into_owned();
    vec![
        of(format!("{chain}[\\97] -> [\\321]\n"), &only(63, 64), b"a", Hand::One(&[321, 97])),
        of(format!("{chain}[\\97] -> [\\321]\n"), &only(62, 70), b"a", Hand::One(&[320, 321, 97])),
        of(format!("{chain}[\\97] -> [\\321]\n"), &only(63, 63 + 1), b"b", Hand::None),
        of(format!("{chain}[\\97] -> [\\321]\n"), &[0; 63], b"a", Hand::None),
        of(format!("{chain}[\\258] -> [\\321]\n"), &[1; 64], b"", Hand::None),
        of(format!("{chain}[\\258\\321] -> [\\321]\n"), &[1; 64], b"a", Hand::None),
        of(back.clone(), &only(63, 64), b"", Hand::One(&[321])),
        of(back.clone(), &[1], b"", Hand::None),
        of(back, &[1; 64], b"", Hand::Several),
        of(longest(), &[1], &[0, 2, 4, 98, 100, 198, 200, 254], Hand::One(&[258, 0, 2, 4, 98, 100, 198, 200, 254])),
        of(longest(), &only(63, 64), &[254; 8], Hand::One(&[321, 254, 254, 254, 254, 254, 254, 254, 254])),
        of(longest(), &[1; 64], &[254; 8], Hand::Several),
        of(longest(), &[1; 64], &[254, 254, 254, 254, 254, 254, 254, 255], Hand::None),
    ]
}

fn own_answer(hand: &Hand) -> Answer {
    match *hand {
        Hand::None => Answer::None,
        Hand::One(numbers) => Answer::One(numbers.len() as u64),
        Hand::Several => Answer::Several,
        Hand::Refused(number, place) => Answer::Refused(Refusal { number, place }),
    }
}

/// This program against the hand, and against itself, and the library against it.
fn same_reading(case: &Worked, dice: &mut Dice, tally: &mut Tally) -> Result<(), Mismatch> {
    let flat = FlatText::new(&case.flat);
    let given = Given { flat: &flat, roots: &case.roots, text: &case.text };
    let study = given.study();
    let (chart, listing) = (dice.garbage(study.need + 7), dice.garbage(99));
    let own = study.outcome(&chart, &listing).answer;
    let numbers = study.listing.as_ref().map(|only| &only.numbers[..]);
    flat.agrees()?;
    let listing_by_hand = match case.hand {
        Hand::One(hand) => Some(hand),
        _ => None,
    };
    by_hand("reading by a flat text", own_answer(&case.hand), own, tally)
        .and_then(|_| by_hand("listing by a flat text", listing_by_hand, numbers, tally))
        .and_then(|_| flat_heights::agrees(&study))
        .map_err(|wrong| given.tell((&chart, &listing), wrong))?;
    read_with(given, &study, (&chart, &listing), dice)?;
    let (exact, room) = (dice.garbage(study.need), dice.below(12));
    read_with(given, &study, (&exact, &dice.garbage(room)), dice).map(|_| ())
}

/// Flat text, roots, text, bytes of the chart and of the listing, and the refusal by hand.
type Refused = (Vec<u8>, Vec<u8>, Vec<u8>, usize, usize, (u64, u64));

/// The order of the refusals: each with all behind it, and each limit from both sides.
fn refusals() -> Vec<Refused> {
    let not_written = || FLAT_T.replace("\\48", "\\58").into_bytes();
    let names_absent = || FLAT_T.replace("[\\258] -> [\\259]", "[\\258-\\264] -> [\\259]").into_bytes();
    let (long, all, t) = (|| vec![b'8'; 201], || vec![1; 64], || Vec::from(FLAT_T));
    let good = || vec![1, 1, 1];
    vec![
        (not_written(), all(), long(), 0, 0, (NOT_WRITTEN, 7)),
        (vec![], all(), long(), 0, 0, (NOT_WRITTEN, 0)),
        (not_written(), good(), b"8".to_vec(), 900, 9, (NOT_WRITTEN, 7)),
        (names_absent(), all(), long(), 0, 0, (ABSENT, 261)),
        (names_absent(), good(), b"8".to_vec(), 900, 9, (ABSENT, 261)),
        (names_absent(), only(60, 70), b"8".to_vec(), 900, 9, (ABSENT, 261)),
        (t(), all(), long(), 0, 0, (ABSENT, 261)),
        (t(), only(60, 70), long(), 0, 0, (ABSENT, 318)),
        (t(), good(), long(), 0, 0, (10, 201)),
        (t(), good(), vec![b'8'; 300], 1_000_000, 900, (10, 300)),
        (t(), good(), b"8/4*2".to_vec(), 209, 0, (20, 210)),
        (t(), good(), b"8/4*2".to_vec(), 0, 900, (20, 210)),
        (t(), vec![], b"8/4*2".to_vec(), 209, 900, (20, 210)),
        // 10 rows over 200 bytes: 10 * 201 * 202 / 2.
        (t(), good(), vec![b'8'; 200], 203_009, 900, (20, 203_010)),
        (t(), good(), b"8/4*2".to_vec(), 210, 19, (22, 9)),
        (t(), good(), b"8/4*2".to_vec(), 211, 0, (22, 0)),
        (t(), good(), b"8/4*2".to_vec(), 211, 1, (22, 0)),
        (t(), good(), b"8".to_vec(), 30, 3, (22, 1)),
    ]
}

fn same_refusal(case: Refused, dice: &mut Dice, tally: &mut Tally) -> Result<(), Mismatch> {
    let (flat, roots, text, chart, listing, (number, place)) = case;
    let flat = FlatText::new(&flat);
    let given = Given { flat: &flat, roots: &roots, text: &text };
    let (chart, listing) = (dice.garbage(chart), dice.garbage(listing));
    let own = read_with(given, &given.study(), (&chart, &listing), dice)?;
    by_hand("refusal by a flat text", Answer::Refused(Refusal { number, place }), own, tally)
        .map_err(|wrong| given.tell((&chart, &listing), wrong))
}

/// Flat text, text, and the chart by hand, of nines before. The roots have no part in it.
const CHARTS: &[(&str, &[u8], &[u8])] = &[
    ("-> [\\258]\n", b"", &[1, 9]),
    ("-> [\\258]\n", b"a", &[1, 0, 1, 9]),
    ("[\\97] -> [\\258]\n", b"a", &[1, 0, 1, 0, 1, 0, 9]),
    ("[\\97] -> [\\258]\n", b"b", &[1, 0, 1, 0, 0, 0, 9]),
    ("[] -> [\\258]\n", b"a", &[1, 0, 1, 0, 0, 0, 9]),
    ("[\\258-\\259] -> [\\258]\n[\\56] -> [\\259]\n", b"8", &[1, 0, 1, 0, 2, 0, 1, 0, 1, 0, 1, 0]),
    ("[\\258-\\259] -> [\\258]\n-> [\\259]\n", b"", &[1, 2, 1, 9]),
    // Two lines that take an a, and one that takes either.
    (
        "[\\97] -> [\\258]\n[\\97] -> [\\259]\n[\\258-\\259] -> [\\260]\n",
        b"a",
        &[1, 0, 1, 0, 1, 0, 1, 0, 1, 0, 1, 0, 1, 0, 1, 0, 2, 0],
    ),
    // An a, or nothing, twice over: two ways for one a, one for none.
    (
        "[\\259-\\260] [\\259-\\260] -> [\\258]\n[\\97] -> [\\259]\n-> [\\260]\n",
        b"a",
        &[1, 0, 1, 1, 1, 1, 1, 2, 1, 1, 0, 1, 0, 1, 0, 1, 0, 1, 9, 9],
    ),
];

fn same_chart((flat, text, hand): (&str, &[u8], &[u8]), dice: &mut Dice, tally: &mut Tally) -> Result<(), Mismatch> {
    let flat = FlatText::new(flat.as_bytes());
    let chart = vec![9; hand.len()];
    for roots in [&[][..], &[1]] {
        let given = Given { flat: &flat, roots, text };
        let study = given.study();
        by_hand("chart by a flat text", hand, &study.outcome(&chart, &[]).chart[..], tally)
            .map_err(|wrong| given.tell((&chart, &[]), wrong))?;
        read_with(given, &study, (&chart, &dice.garbage(9)), dice)?;
    }
    Ok(())
}

/// Only readings with so many numbers, by the flat texts of towers, and one with 8 to the 31 and more.
fn long_listings(dice: &mut Dice, tally: &mut Tally) -> Result<(), Mismatch> {
    let towers = [1, 2, 4097, 32_767, 32_768, 32_769, 70_000].map(tower);
    for plan in towers.into_iter().chain([huge()]) {
        let lines = read_book(&plan.bytes()).map(|book| Rooted::of(&book)).expect("a tower is a book");
        let flat = FlatText::new(&lines.flat.text());
        let roots = roots_for(dice, &lines.roots, 64);
        let given = Given { flat: &flat, roots: &roots, text: b"" };
        let study = given.study();
        for room in [0, 1, 2, 3, 65_534, 65_535, 65_536, 65_537, 65_538, 140_001] {
            let answer = read_with(given, &study, (&dice.garbage(study.need), &dice.garbage(room)), dice)?;
            tally.add("fixed, flat long", answer.name());
        }
    }
    Ok(())
}

pub fn run(dice: &mut Dice, tally: &mut Tally) -> Result<(), Mismatch> {
    for case in [roots_of_t(), odd_lines(), at_limits()].iter().flatten() {
        same_reading(case, dice, tally)?;
    }
    for case in refusals() {
        same_refusal(case, dice, tally)?;
    }
    for &case in CHARTS {
        same_chart(case, dice, tally)?;
    }
    long_listings(dice, tally)
}
