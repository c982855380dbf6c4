//! Flat texts worked by hand from request [7] of 02: the places of 27, the numbers of 28, each limit from both sides; every
//! number in every place; and every damage of one byte to two small texts.

use crate::book::Refusal;
use crate::compare::Mismatch;
use crate::fixed::FLAT_T;
use crate::fixed_sheets::by_hand;
use crate::flat_calls::{check, read_with, Given};
use crate::flat_lines::{FlatText, ABSENT, NOT_WRITTEN};
use crate::flat_tails::place_agrees;
use crate::prng::Dice;
use crate::tally::Tally;

/// Six lines: an empty class, a line without arguments, ranges of one number, two and more, and all numbers of digits.
pub const SIX: &str = "[\\48-\\57] -> [\\258]\n\
                       [\\258-\\260\\262] [\\42] [\\258] -> [\\259]\n\
                       [\\258\\260-\\261] [\\9\\99-\\100\\255] [] -> [\\260]\n\
                       -> [\\261]\n\
                       [\\261] [\\0-\\8\\10] -> [\\262]\n\
                       [\\258-\\263] -> [\\263]\n";
/// What each byte is changed to before it is read by, and what is put before it.
const TELLING: &[u8] = b"0123456789\\-> []\n\r\t/:^_\0\xff";
/// What is read by damaged texts, and with which roots.
const TEXTS: [&[u8]; 4] = [b"8", b"8*8", b"", b"8/8*8"];
const ROOTS: [&[u8]; 5] = [&[1, 1, 1], &[1, 1, 1, 1, 1, 1], &[], &[0, 255], &[0, 0, 0, 0, 0, 0, 1]];
/// One damaged text in so many has its place found with tails too, to save time.
const TAILS_ONE_IN: usize = 200;
/// Numbers below this one are tried in every class and line: some more than there are.
const NUMBERS_TRIED: usize = 330;

/// Beginnings that go no further, and the place of the byte at which they stop; none of them has a feed.
const STOPPED: &[(&str, usize)] = &[
    // No number from 50 to 255 begins with 4; 9 may become 90; 25 may become 250.
    ("[\\48\\49]", 5),
    ("[\\8\\9]", 5),
    ("[\\24\\25]", 7),
    ("[\\3-\\0", 5),
    ("[\\254\\", 5),
    ("[\\254\\256", 5),
    ("[\\255\\", 5),
    ("[\\255-", 5),
    ("[\\255-\\256]", 5),
    ("[\\253\\254]", 8),
    ("[\\253\\26", 7),
    ("[\\256", 4),
    ("[\\257", 4),
    ("[\\322", 4),
    ("[\\330", 4),
    ("[\\01]", 3),
    ("[\\00", 3),
    ("[\\0-\\0", 5),
    ("[\\0\\1]", 5),
    ("[\\0\\0", 4),
    ("[\\0-\\01", 5),
    ("[\\1-\\1]", 6),
    ("[\\9-\\9]", 6),
    ("[\\9-\\8]", 6),
    ("[\\10-\\9]", 7),
    ("[\\99-\\98", 6),
    ("[\\100-\\9", 7),
    ("[\\100-\\100", 9),
    ("[\\199-\\1", 7),
    ("[\\99\\100]", 7),
    ("[\\99\\101-\\100", 12),
    ("[\\97-\\99\\100]", 11),
    ("[\\97-\\99\\98]", 9),
    ("[\\200-\\256", 9),
    ("[\\0-\\258", 7),
    ("[\\1000", 5),
    ("[\\26]]", 5),
    // A class has characters or lines.
    ("[\\97\\258]", 7),
    ("[\\97\\3", 5),
    ("[\\31\\32", 6),
    ("[\\29\\32]\\", 8),
    ("[\\255\\258]", 5),
    ("[\\254\\258]", 5),
    ("[\\255-\\258]", 5),
    ("[\\258\\1", 6),
    ("[\\258\\259]", 7),
    ("[\\258\\257", 7),
    ("[\\258-\\258", 9),
    ("[\\258-\\257", 9),
    ("[\\259-\\258", 8),
    ("[\\258-\\1", 7),
    ("[\\258-\\322", 9),
    ("[\\319\\320", 8),
    ("[\\320\\", 5),
    ("[\\321\\", 5),
    ("[\\321-", 5),
    ("[\\320-\\320", 9),
    ("[\\300-\\30]", 9),
    // Signs.
    ("[-", 1),
    ("[4", 1),
    ("[ ]", 1),
    ("[[", 1),
    ("[\\]", 2),
    ("[\\-", 2),
    ("[\\\\", 2),
    ("[\\ 4", 2),
    ("[\\+4", 2),
    ("[\\48-57]", 5),
    ("[\\48-]", 5),
    ("[\\48--", 5),
    ("[\\48-\\]", 6),
    ("[\\48-\\57-\\60]", 8),
    ("[\\48,\\50]", 4),
    ("[\\48 \\50]", 4),
    ("[\\4 8]", 3),
    ("[]->", 2),
    ("[][", 2),
    ("[]  ->", 3),
    ("[] ]", 3),
    ("[] -[", 4),
    ("] ", 0),
    (" -> [\\258]", 0),
    ("\\258", 0),
    ("258", 0),
    ("->[", 2),
    ("->  [", 3),
    ("-- [", 1),
    ("=>", 0),
    ("-> []", 4),
    ("-> \\258", 3),
    ("-> [\\48]", 5),
    ("-> [\\257]", 7),
    ("-> [\\259", 7),
    ("-> [\\2580]", 8),
    ("-> [\\0258]", 5),
    ("-> [\\258-\\258]", 8),
    ("-> [\\258-\\259]", 8),
    ("-> [\\258\\260]", 8),
    ("-> [\\258] ", 9),
    ("-> [\\258]\r", 9),
    ("-> [\\258];", 9),
    ("-> [\\258]->", 9),
];

/// Beginnings that go on: the place is their length.
const CUT: &[&str] = &[
    "", "-", "->", "-> ", "-> [", "-> [\\", "-> [\\2", "-> [\\25", "-> [\\258", "-> [\\258]", "[", "[\\", "[]", "[] ", "[] -",
    "[] [", "[\\0", "[\\9-\\10", "[\\9-\\1", "[\\9-\\", "[\\9-", "[\\9", "[\\8\\9", "[\\8\\10", "[\\24\\25", "[\\24\\26",
    "[\\25", "[\\26", "[\\32", "[\\321", "[\\320", "[\\3", "[\\319\\321", "[\\319\\3", "[\\253\\255", "[\\253\\25", "[\\254", "[\\255",
    "[\\255]",
    "[\\97\\2", "[\\97\\25", "[\\97\\255", "[\\258\\26", "[\\258\\3", "[\\258\\32", "[\\258-\\25", "[\\0-\\255", "[\\0-\\1",
    "[\\29\\32", "[\\30\\32", "[\\1-\\1", "[\\10-\\9", "[\\199-\\2", "[\\320-\\321", "[\\0\\2-\\3\\5", "[\\258-\\321] [\\0",
];

/// Texts of the form, and how many lines they have.
const GOOD: &[(&str, u64)] = &[
    ("-> [\\258]\n", 1),
    ("[] -> [\\258]\n", 1),
    ("[\\0-\\255] -> [\\258]\n", 1),
    ("[\\0] [\\255] -> [\\258]\n", 1),
    ("[\\258] -> [\\258]\n", 1),
    ("-> [\\258]\n-> [\\259]\n", 2),
    ("[\\259] -> [\\258]\n-> [\\259]\n", 2),
    ("[\\258-\\259] -> [\\258]\n[] [] -> [\\259]\n", 2),
    ("[\\258\\260] -> [\\258]\n-> [\\259]\n[\\48] [] -> [\\260]\n", 3),
    ("[\\9\\99-\\100\\255] [\\9-\\10] [\\8\\10] [\\24\\26] -> [\\258]\n", 1),
    ("[\\29\\32] [\\32] [\\26] [\\253\\255] [\\254-\\255] -> [\\258]\n", 1),
];

/// Texts of the form that name a line that is not there, and the number of the first.
const ABSENT_LINES: &[(&str, u64)] = &[
    ("[\\259] -> [\\258]\n", 259),
    ("[\\258-\\259] -> [\\258]\n", 259),
    ("[\\258\\260] -> [\\258]\n", 260),
    ("[\\321] -> [\\258]\n", 321),
    ("[\\258-\\321] -> [\\258]\n", 259),
    ("[\\260-\\321] -> [\\258]\n-> [\\259]\n", 260),
    ("[\\258-\\300] -> [\\258]\n-> [\\259]\n-> [\\260]\n", 261),
    ("[\\259\\300-\\301] -> [\\258]\n-> [\\259]\n-> [\\260]\n", 300),
    // The first in the text, and not the lowest.
    ("[\\300] [\\270] -> [\\258]\n-> [\\259]\n", 300),
    ("[\\300] -> [\\258]\n[\\260] -> [\\259]\n", 300),
    ("[\\48] [] -> [\\258]\n[\\258] [\\259-\\261\\263] -> [\\259]\n", 260),
];

/// A text, and its answer by hand: how many lines, or the number and place of the refusal.
type Worked = (Vec<u8>, Result<u64, (u64, u64)>);

/// So many lines without arguments.
fn bare_lines(count: usize) -> String {
    (258..258 + count).map(|n| format!("-> [\\{n}]\n")).collect()
}

/// Behind whole lines: the next number, the feed, and what may follow.
fn behind_lines() -> Vec<Worked> {
    let two = bare_lines(2);
    let of = |more: &str, place: u64| (format!("{two}{more}").into_bytes(), Err((NOT_WRITTEN, 20 + place)));
    vec![
        of("-> [\\258]\n", 6),
        of("-> [\\259]\n", 6),
        of("-> [\\261]\n", 7),
        of("-> [\\260]", 9),
        of("-> [\\26", 7),
        of("\n", 0),
        of(" ", 0),
        of("\0", 0),
        of("[\\48\\49]", 5),
        of("[\\258] -> [\\260]\n\n", 17),
    ]
}

/// Arguments up to the eighth and the ninth, in the first line and behind others.
fn many_arguments() -> Vec<Worked> {
    let before = bare_lines(3);
    let of = |lines: &str, count: usize| format!("{lines}{}", "[\\97] ".repeat(count));
    let end = |lines: &str, count: usize, number: usize| format!("{}-> [\\{number}]\n", of(lines, count)).into_bytes();
    vec![
        (end("", 8, 258), Ok(1)),
        (end("", 9, 258), Err((NOT_WRITTEN, 48))),
        (of("", 9).into_bytes(), Err((NOT_WRITTEN, 48))),
        (of("", 8).into_bytes(), Err((NOT_WRITTEN, 48))),
        ("[] ".repeat(9).into_bytes(), Err((NOT_WRITTEN, 24))),
        (format!("{}[", "[] ".repeat(8)).into_bytes(), Err((NOT_WRITTEN, 24))),
        (end(&before, 8, 261), Ok(4)),
        (end(&before, 9, 261), Err((NOT_WRITTEN, 78))),
        (end(&before, 20, 261), Err((NOT_WRITTEN, 78))),
    ]
}

/// Lines up to the 64th and the 65th. A line without arguments has ten bytes.
fn many_lines() -> Vec<Worked> {
    let all = bare_lines(64);
    let of = |more: &str| format!("{all}{more}").into_bytes();
    let at_end = Err((NOT_WRITTEN, 640));
    let named = |count: usize, number: usize| format!("[\\{number}] {}", bare_lines(count)).into_bytes();
    vec![
        (of(""), Ok(64)),
        (of("-"), at_end),
        (of("["), at_end),
        (of("-> [\\322]\n"), at_end),
        (of("\n"), at_end),
        (of("\0"), at_end),
        (bare_lines(63).into_bytes(), Ok(63)),
        (bare_lines(65).into_bytes(), at_end),
        (bare_lines(64)[..639].into(), Err((NOT_WRITTEN, 639))),
        (named(64, 321), Ok(64)),
        (named(63, 320), Ok(63)),
        (named(63, 321), Err((ABSENT, 321))),
        (format!("{}-> [\\321]\n", bare_lines(62)).into_bytes(), Err((NOT_WRITTEN, 627))),
    ]
}

/// Every second character: five of one digit, 45 of two and 78 of three.
pub fn longest_class() -> String {
    format!("[{}]", (0..256).step_by(2).map(|c| format!("\\{c}")).collect::<String>())
}

/// The longest class has 2 + 5 * 2 + 45 * 3 + 78 * 4 = 459 bytes, the longest line 8 * 460 + 10 = 3,690, and 64 of them have
/// 236,160.
pub fn longest_text() -> Vec<u8> {
    let arguments = format!("{} ", longest_class()).repeat(8);
    (258..322).map(|n| format!("{arguments}-> [\\{n}]\n")).collect::<String>().into_bytes()
}

fn longest() -> Vec<Worked> {
    let text = longest_text();
    let cut = text[..text.len() - 1].to_vec();
    let more = [&text[..], b"-> [\\322]\n"].concat();
    // The last number, 254 behind 252, becomes 253, which touches it.
    let mut touching = text.clone();
    let last = text.len() - 10 - 3;
    touching[last] = b'3';
    vec![
        (text, Ok(64)),
        (cut, Err((NOT_WRITTEN, 236_159))),
        (more, Err((NOT_WRITTEN, 236_160))),
        (touching, Err((NOT_WRITTEN, last as u64))),
    ]
}

/// Texts that are long because they are wrong, and numerals that would be right if their high digits or bits were lost.
fn overlong() -> Vec<Worked> {
    let of = |text: String, place: u64| (text.into_bytes(), Err((NOT_WRITTEN, place)));
    vec![
        of("[] ".repeat(100_000), 24),
        of("-> [\\258]\n".repeat(30_000), 17),
        of(bare_lines(64).repeat(400), 640),
        of(format!("[\\{}", "1".repeat(100_000)), 5),
        of(format!("[\\{}", "0".repeat(100_000)), 3),
        of("\0".repeat(300_000), 0),
        of("[\\65537] -> [\\258]\n".into(), 4),
        of("[\\65792] -> [\\258]\n".into(), 4),
        of("[\\4294967393] -> [\\258]\n".into(), 4),
        of("[\\18446744073709551713] -> [\\258]\n".into(), 5),
        of("[\\97-\\18446744073709551713] -> [\\258]\n".into(), 9),
        of("[\\97-\\65634] -> [\\258]\n".into(), 6),
        of("-> [\\65794]\n".into(), 5),
    ]
}

fn worked() -> Vec<Worked> {
    let stopped = STOPPED.iter().map(|&(text, place)| (text.into(), Err((NOT_WRITTEN, place as u64))));
    let cut = CUT.iter().map(|text| (Vec::from(*text), Err((NOT_WRITTEN, text.len() as u64))));
    let good = GOOD.iter().map(|&(text, lines)| (text.into(), Ok(lines)));
    let absent = ABSENT_LINES.iter().map(|&(text, number)| (text.into(), Err((ABSENT, number))));
    let short: Vec<Worked> = stopped.chain(cut).chain(good).chain(absent).collect();
    [short, behind_lines(), many_arguments(), many_lines(), longest(), overlong()].concat()
}

/// This program against the hand, its two ways against each other, and the library against it.
fn same_form((bytes, hand): &Worked, dice: &mut Dice, tally: &mut Tally) -> Result<(), Mismatch> {
    let text = FlatText::new(bytes);
    let own = text.lines().map(|flat| flat.lines.len() as u64);
    let hand = hand.map_err(|(number, place)| Refusal { number, place });
    text.agrees()?;
    by_hand("flat text", hand, own, tally).map_err(|wrong| text.tell(wrong))?;
    if bytes.len() < 2000 {
        place_agrees(&text)?;
    }
    check(&text, dice, tally)
}

/// Every beginning of the texts by hand is the beginning of one of the form, up to the place.
fn same_beginnings(dice: &mut Dice, tally: &mut Tally) -> Result<(), Mismatch> {
    for &(text, place) in STOPPED {
        for length in 0..text.len() {
            let hand = Err((NOT_WRITTEN, length.min(place) as u64));
            same_form(&(text.as_bytes()[..length].to_vec(), hand), dice, tally)?;
        }
    }
    Ok(())
}

/// Every two numbers in one class, single and as a range, and every number as the result of every line.
fn every_number() -> impl Iterator<Item = Vec<u8>> {
    let two = |first: usize| (0..NUMBERS_TRIED).flat_map(move |second| ["", "-"].map(|sign| (first, sign, second)));
    let classes = (0..NUMBERS_TRIED).flat_map(two).map(|(a, sign, b)| format!("[\\{a}{sign}\\{b}] -> [\\258]\n").into_bytes());
    let of_line = |line: usize| (0..NUMBERS_TRIED).map(move |n| format!("{}-> [\\{n}]\n", bare_lines(line)).into_bytes());
    classes.chain((0..64).flat_map(of_line))
}

/// Each byte at each value, dropped, doubled, exchanged with the next, with another put before it; and each cut.
fn damaged(good: &[u8]) -> Vec<Vec<u8>> {
    let mut texts: Vec<Vec<u8>> = (0..=good.len()).map(|cut| good[..cut].to_vec()).collect();
    for at in 0..good.len() {
        let (before, rest) = good.split_at(at);
        texts.extend((0..=255).map(|value| [before, &[value], &rest[1..]].concat()));
        texts.extend(TELLING.iter().map(|&value| [before, &[value], rest].concat()));
        texts.push([before, &rest[1..]].concat());
        texts.push([before, &rest[..1], rest].concat());
        if rest.len() > 1 {
            texts.push([before, &[rest[1], rest[0]], &rest[2..]].concat());
        }
    }
    texts
}

/// The check of a damaged text, and readings by it.
fn same_damaged(bytes: &[u8], dice: &mut Dice, tally: &mut Tally) -> Result<(), Mismatch> {
    let flat = FlatText::new(bytes);
    flat.agrees()?;
    if dice.below(TAILS_ONE_IN) == 0 {
        place_agrees(&flat)?;
    }
    check(&flat, dice, tally)?;
    let given = Given { flat: &flat, roots: dice.pick(&ROOTS), text: dice.pick(&TEXTS) };
    let study = given.study();
    let chart_size = study.need + dice.below(2);
    let (chart, listing) = (dice.garbage(chart_size), dice.garbage(24));
    let answer = read_with(given, &study, (&chart, &listing), dice)?;
    tally.add("fixed, damaged", answer.name());
    Ok(())
}

pub fn run(dice: &mut Dice, tally: &mut Tally) -> Result<(), Mismatch> {
    for case in worked() {
        same_form(&case, dice, tally)?;
    }
    same_beginnings(dice, tally)?;
    for bytes in every_number() {
        let text = FlatText::new(&bytes);
        text.agrees()?;
        check(&text, dice, tally)?;
    }
    for text in damaged(SIX.as_bytes()).iter().chain(&damaged(FLAT_T.as_bytes())) {
        same_damaged(text, dice, tally)?;
    }
    Ok(())
}
