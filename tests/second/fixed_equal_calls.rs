//! Every call with a book of equal rules, worked by hand from request [5] of 02, and some with a book of nearly equal ones; and
//! where listings part.

use crate::book::{bodies, read_book, Refusal};
use crate::compare::{read_with, Given, Mismatch};
use crate::equal::meanings;
use crate::fixed_sheets::{by_hand, feeds, same_sheet, tell, worked, xs};
use crate::fixed_twins::{nearly_twins, twins};
use crate::listing::{judge, to_bytes, Judgement};
use crate::page_calls;
use crate::parting::fork;
use crate::prng::Dice;
use crate::reading::{Answer, Study};
use crate::sheet_calls::Asked;
use crate::sheets::{self, Sheet, Step};
use crate::tally::Tally;
use crate::{flat, others, pages};

/// What every call must say of twins.
const REFUSED: Refusal = Refusal { number: 8, place: 12 };

/// The reading over charts and listing buffers of any length, the check, the clash question (of rules and arguments that are
/// there and that are not), and the flat book.
fn same_of_books(dice: &mut Dice, tally: &mut Tally) -> Result<(), Mismatch> {
    let bytes = twins(&[]);
    let book = read_book(&bytes);
    by_hand("twins", Some(REFUSED), book.as_ref().err().copied(), tally)?;
    let study = Study::new(&bytes, b"8");
    for (chart, listing) in [(0, 0), (11, 4), (12, 3), (12, 4), (40, 40)] {
        let (chart, listing) = (dice.garbage(chart), dice.garbage(listing));
        let after = study.outcome(&chart, &listing);
        by_hand("reading of twins", (35, 12), (after.answer.packed(), after.answer.place()), tally)?;
        by_hand("buffers of twins", (&chart, &listing), (&after.chart, &after.listing), tally)?;
        read_with(&bytes, &study, &chart, &listing, dice, tally)?;
    }
    others::check(&bytes, &book, dice, tally)?;
    for ask in [(0, 0, 0), (0, 0, 1), (1, 0, 0), (1, 0, 1), (0, 1, 0), (2, 0, 0), (0, 0, 2), (9, u64::MAX, 64)] {
        let own = book.as_ref().map_err(|r| *r).and_then(|good| good.conflict(ask.0, ask.1, ask.2));
        by_hand("clash question of twins", Err(REFUSED), own, tally)?;
        others::conflict(&bytes, &book, ask, dice, tally)?;
    }
    by_hand("flat book of twins", Some(REFUSED), read_book(&bytes).map(|b| flat::text(&b)).err(), tally)?;
    for room in [0, 1, 39, 40, 41, 200] {
        others::flat_with(&bytes, Err(REFUSED), &dice.garbage(room), dice, tally)?;
    }
    Ok(())
}

/// Chart and answer of what is nearly twins: two rules with one argument, over one byte.
fn same_charts(dice: &mut Dice, tally: &mut Tally) -> Result<(), Mismatch> {
    let bytes = nearly_twins();
    let of_8: (&[u8], Answer, [u8; 12]) = (b"8", Answer::Several, [1, 0, 1, 0, 1, 0, 1, 0, 1, 0, 1, 0]);
    let of_0: (&[u8], Answer, [u8; 12]) = (b"0", Answer::One(2), [1, 0, 1, 0, 1, 0, 1, 0, 1, 0, 0, 0]);
    for (text, answer, hand) in [of_8, of_0] {
        let study = Study::new(&bytes, text);
        let (chart, listing) = (dice.garbage(12), dice.garbage(4));
        let after = study.outcome(&chart, &listing);
        by_hand("reading of nearly twins", (answer, &hand[..]), (after.answer, &after.chart[..]), tally)?;
        read_with(&bytes, &study, &chart, &listing, dice, tally)?;
    }
    Ok(())
}

/// Listings for twins, with texts: an 8 by either rule, an odd one, an empty one, one that is too long, and all that with a text
/// that is too long; their pages, and the text under a number, which is the empty part at the start.
fn same_listings(dice: &mut Dice, tally: &mut Tally) -> Result<(), Mismatch> {
    let bytes = twins(&[]);
    let book = read_book(&bytes);
    let listings = [to_bytes(&[258, 56]), to_bytes(&[259, 56]), vec![2, 1, 56], vec![], vec![0; 8194]];
    let tries = listings.iter().flat_map(|listing| [&b"8"[..], &[b'8'; 201]].map(|text| (text, listing)));
    for (text, listing) in tries {
        let given = Given { book: &bytes, text, listing };
        by_hand("listing of twins", Err(REFUSED), judge(&book, text, listing), tally)?;
        others::listing(given, &book, dice, tally)?;
        let lines = pages::lines(&book, text, listing);
        by_hand("page of twins", Some(&REFUSED), lines.as_ref().err(), tally)?;
        by_hand("text under a number of twins", (0, 0), pages::part(&lines, 1), tally)?;
        let mut asked = page_calls::Asked::new(given, lines, dice);
        asked.page_over(&dice.garbage(146), dice, tally)?;
        asked.texts_under(&[0, 1, 2, usize::MAX], tally)?;
    }
    near_listings(dice, tally)
}

/// Of nearly twins both rules are right for an 8, and one for a 0.
fn near_listings(dice: &mut Dice, tally: &mut Tally) -> Result<(), Mismatch> {
    use Judgement::{Right, Wrong};
    let bytes = nearly_twins();
    let book = read_book(&bytes);
    let of_8 = [(b"8", [258, 56], Right), (b"8", [259, 56], Right)];
    let of_0 = [(b"0", [258, 48], Right), (b"0", [259, 48], Wrong(1))];
    for (text, numbers, hand) in of_8.into_iter().chain(of_0) {
        let listing = to_bytes(&numbers);
        by_hand("listing of nearly twins", Ok(hand), judge(&book, text, &listing), tally)?;
        others::listing(Given { book: &bytes, text, listing: &listing }, &book, dice, tally)?;
    }
    Ok(())
}

/// Sheets: a bad book refuses all of it. Nearly twins need 12 bytes of the chart for one byte.
fn same_sheets(dice: &mut Dice, tally: &mut Tally) -> Result<(), Mismatch> {
    let of = |name, sheet: &[u8], chart, summary| worked(name, twins(&[]), sheet, chart, summary, Err((8, 12)));
    let nearly = |name, sheet: &[u8], bytes: &[u8]| worked(name, nearly_twins(), sheet, 12, bytes.len(), Ok(bytes));
    let cases = [
        of("twins", b"8\n8\n", 12, 2),
        of("twins, no line", b"", 12, 0),
        of("twins, no summary", b"8\n8", 12, 0),
        of("twins, no chart", b"8", 0, 1),
        of("twins, a long line", &xs(201), 12, 1),
        of("twins and a sheet too long", &feeds(65_536), 0, 0),
        nearly("nearly twins", b"8\n0\n:\n\n9", &[2, 1, 0, 0, 2]),
    ];
    for case in &cases {
        same_sheet(case, dice, tally)?;
    }
    Ok(())
}

/// A walker's steps: refused wherever they start.
fn same_steps(dice: &mut Dice, tally: &mut Tally) -> Result<(), Mismatch> {
    let bytes = twins(&[]);
    let (chart, long) = (dice.garbage(12), feeds(65_536));
    for sheet in [&b"8\n8"[..], b"", &long] {
        let mut asked = Asked::new(Sheet { book: &bytes, bytes: sheet, chart: &chart, summary: &[] });
        for start in [0, 1, 2, 3, 4, 65_536, usize::MAX] {
            let own = sheets::step(sheet, start, &mut asked.reader, &mut chart.clone());
            by_hand("step of twins", Step::Refused(REFUSED), own, tally)
                .and_then(|_| asked.step(start, dice))
                .map_err(|wrong| tell(&asked, &format!("twins, start {start}"), wrong))?;
        }
    }
    Ok(())
}

/// Where listings part, by hand: the index and the rules there, and none where it is not at two rules.
fn same_forks(tally: &mut Tally) -> Result<(), Mismatch> {
    let forks: [(&[u16], &[u16], Option<(usize, [usize; 2])>); 6] = [
        (&[258, 56], &[259, 56], Some((0, [0, 1]))),
        (&[260, 258, 56, 42, 258, 57], &[260, 259, 56, 42, 258, 57], Some((1, [0, 1]))),
        (&[260, 258, 56, 42, 259, 56], &[260, 258, 56, 42, 258, 56], Some((4, [1, 0]))),
        (&[258, 56], &[258, 57], None),
        (&[258, 56], &[258, 56], None),
        (&[258, 56], &[258], None),
    ];
    for (first, second, hand) in forks {
        by_hand("fork", hand, fork(first, second).map(|found| (found.at, found.rules)), tally)?;
    }
    // The readings of twins would part at equal rules, and those of nearly twins don't.
    for (bytes, hand) in [(twins(&[]), false), (nearly_twins(), true)] {
        let rules = bodies(&bytes).map(|found| found.rules).unwrap_or_default();
        let own = fork(&[258, 56], &[259, 56]).is_some_and(|found| found.is_true(&meanings(&bytes, &rules)));
        by_hand("true fork", hand, own, tally)?;
    }
    Ok(())
}

pub fn run(dice: &mut Dice, tally: &mut Tally) -> Result<(), Mismatch> {
    same_of_books(dice, tally)?;
    same_charts(dice, tally)?;
    same_listings(dice, tally)?;
    same_sheets(dice, tally)?;
    same_steps(dice, tally)?;
    same_forks(tally)
}
