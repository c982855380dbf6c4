//! Readings compared by hand, from request [9] of 02: Example 7.4 of 002, and rows of letters, any of which may take the place of
//! any other.

use crate::book::read_book;
use crate::compare::{same_number, Mismatch};
use crate::listing::to_bytes;
use crate::lower_books::{letter, menu, menu_listing, naturals};
use crate::lower_calls::Shared;
use crate::lower_laws::{each_with_each, Numbers};
use crate::prng::Dice;
use crate::reasons::Ways;
use crate::tally::Tally;

/// A book, a text, readings of it, and how each of them compares with each, the first with all of them first: `<` below, `=`
/// equal counts, `>` above, `?` neither.
pub struct Worked {
    pub name: &'static str,
    pub book: Vec<u8>,
    pub text: Vec<u8>,
    pub listings: Vec<Vec<u8>>,
    pub hand: Vec<&'static str>,
}

/// The signs of two readings, by how the first compares with the second.
pub fn signs(sign: char) -> Vec<&'static str> {
    match sign {
        '<' => vec!["=<", ">="],
        '=' => vec!["==", "=="],
        '>' => vec!["=>", "<="],
        _ => vec!["=?", "?="],
    }
}

/// The viewer's number for a sign.
fn number(sign: u8) -> u64 {
    match sign {
        b'<' => 1,
        b'=' => 5,
        b'>' => 9,
        _ => 13,
    }
}

impl Worked {
    fn tell(&self, mut wrong: Mismatch) -> Mismatch {
        wrong.call = format!("worked comparison \"{}\": {}", self.name, wrong.call);
        wrong
    }

    /// How each reading compares with each, by the library and by this program, which must agree.
    pub fn compared(&self, dice: &mut Dice, tally: &mut Tally) -> Result<Numbers, Mismatch> {
        let book = read_book(&self.book);
        let ways = book.as_ref().map(Ways::new).map_err(|refused| *refused);
        let shared = Shared { bytes: &self.book, ways: &ways, text: &self.text };
        each_with_each(shared, &self.listings, dice, tally).map_err(|wrong| self.tell(wrong))
    }

    /// Both against the hand.
    fn same_orders(&self, dice: &mut Dice, tally: &mut Tally) -> Result<(), Mismatch> {
        let (count, hand) = (self.listings.len(), self.hand.concat().into_bytes());
        same_number("how many signs there are", (count * count) as u64, hand.len() as u64).map_err(|wrong| self.tell(wrong))?;
        for (k, (sign, found)) in hand.into_iter().zip(self.compared(dice, tally)?.concat()).enumerate() {
            let call = format!("readings {} and {} against the hand", k / count, k % count);
            same_number(&call, number(sign), found).map_err(|wrong| self.tell(wrong))?;
            tally.add("fixed", "worked by hand");
        }
        Ok(())
    }
}

/// All of these.
pub fn all_orders(cases: &[Worked], dice: &mut Dice, tally: &mut Tally) -> Result<(), Mismatch> {
    cases.iter().try_for_each(|case| case.same_orders(dice, tally))
}

/// `n+n` as a sum of naturals: n twice, N + N once and N -> R once.
pub const NATURALS: &[u16] = &[260, 259, 258, 110, 43, 258, 110];
/// `n+n` as a sum of reals: n twice, N -> R twice and R + R once.
pub const REALS: &[u16] = &[262, 260, 258, 110, 43, 260, 258, 110];

/// The two readings of the example. The first has N + N (rule 1) more often, the second R + R (4) and N -> R (2).
fn example() -> Vec<Worked> {
    let of = |name, declarations: &[[u8; 3]], sign| Worked {
        name,
        book: naturals(declarations),
        text: b"n+n".to_vec(),
        listings: vec![to_bytes(NATURALS), to_bytes(REALS)],
        hand: signs(sign),
    };
    vec![
        of("7.4", &[], '?'),
        // R + R is covered, but N -> R is not.
        of("7.4, N + N above R + R", &[[1, 1, 4]], '?'),
        of("7.4, R + R above N + N", &[[1, 4, 1]], '<'),
        of("7.4, N + N above R + R and N -> R", &[[1, 1, 4], [1, 1, 2]], '>'),
        of("7.4, N + N above N -> R", &[[1, 1, 2]], '?'),
        // The two that the second has more of are ranked, but that is no help to it.
        of("7.4, N -> R above R + R", &[[1, 2, 4]], '?'),
        // R + R has N + N above it by way of N -> R, or of r, which neither reading uses.
        of("7.4, N + N above N -> R above R + R", &[[1, 1, 2], [1, 2, 4]], '>'),
        of("7.4, the same declared backwards", &[[1, 2, 4], [1, 1, 2]], '>'),
        of("7.4, by way of r", &[[1, 3, 4], [1, 1, 3], [1, 3, 2]], '>'),
        // N + N has R + R above it by way of n, the first rule.
        of("7.4, by way of n", &[[1, 0, 1], [1, 4, 0]], '<'),
        // r is above all of them, and used by neither; n is above all of them, and used as often by both.
        of("7.4, r above all", &[[1, 3, 1], [1, 3, 2], [1, 3, 4]], '?'),
        of("7.4, n above all", &[[1, 0, 1], [1, 0, 2], [1, 0, 4]], '?'),
        of("7.4, N + N left of R + R", &[[2, 1, 4]], '?'),
        of("7.4, R + R right of N + N", &[[3, 4, 1]], '?'),
        of("7.4, not together", &[[4, 1, 4], [4, 4, 1]], '?'),
        of("7.4, not together, and R + R above N + N", &[[4, 1, 4], [1, 4, 1]], '<'),
    ]
}

/// The readings of `n+n+n`: two with N + N twice and N -> R once, two with N + N once, N -> R twice and R + R once, and two with
/// N -> R three times and R + R twice. Two that differ in where a sum stands have equal counts.
fn three_terms() -> Vec<Worked> {
    let readings: [&[u16]; 6] = [
        &[260, 259, 259, 258, 110, 43, 258, 110, 43, 258, 110],
        &[260, 259, 258, 110, 43, 259, 258, 110, 43, 258, 110],
        &[262, 260, 259, 258, 110, 43, 258, 110, 43, 260, 258, 110],
        &[262, 260, 258, 110, 43, 260, 259, 258, 110, 43, 258, 110],
        &[262, 262, 260, 258, 110, 43, 260, 258, 110, 43, 260, 258, 110],
        &[262, 260, 258, 110, 43, 262, 260, 258, 110, 43, 260, 258, 110],
    ];
    let of = |name, declarations: &[[u8; 3]], hand: [&'static str; 3]| Worked {
        name,
        book: naturals(declarations),
        text: b"n+n+n".to_vec(),
        listings: readings.iter().map(|numbers| to_bytes(numbers)).collect(),
        hand: hand.into_iter().flat_map(|row| [row, row]).collect(),
    };
    vec![
        of("three terms", &[], ["==????", "??==??", "????=="]),
        of("three terms, N + N above R + R", &[[1, 1, 4]], ["==????", "??==??", "????=="]),
        of("three terms, R + R above N + N", &[[1, 4, 1]], ["==<<<<", ">>==<<", ">>>>=="]),
        of("three terms, N + N above both", &[[1, 1, 2], [1, 1, 4]], ["==>>>>", "<<==>>", "<<<<=="]),
    ]
}

/// Rows of letters, with declarations between letters. Rows of one length are readings of one text.
pub fn rows(name: &'static str, declarations: &[[u8; 3]], letters: &[&[usize]], hand: Vec<&'static str>) -> Worked {
    let mut plan = menu(6, b'a');
    plan.declarations = declarations.iter().map(|&[kind, a, b]| [kind, letter(a as usize), letter(b as usize)]).collect();
    let listings = letters.iter().map(|row| menu_listing(row, b'a')).collect();
    Worked { name, book: plan.bytes(), text: vec![b'a'; letters[0].len()], listings, hand }
}

/// Letters with few ranks, and all orders of few letters.
fn few_ranks() -> Vec<Worked> {
    let one: [&[usize]; 4] = [&[0], &[1], &[2], &[3]];
    let diamond = [[1, 0, 1], [1, 0, 2], [1, 1, 3], [1, 2, 3]];
    let chain_rows: [&[usize]; 6] = [&[2, 2], &[2, 0], &[2, 1], &[0, 0], &[0, 1], &[1, 1]];
    let each_above_the_next = vec!["=>>>>>", "<=>>>>", "<<=>>>", "<<<=>>", "<<<<=>", "<<<<<="];
    vec![
        rows("no ranks", &[], &one, vec!["=???", "?=??", "??=?", "???="]),
        rows("0 above 1", &[[1, 0, 1]], &one, vec!["=>??", "<=??", "??=?", "???="]),
        rows("the higher has the larger index", &[[1, 3, 0]], &one, vec!["=??<", "?=??", "??=?", ">??="]),
        rows("0 above 1, twice", &[[1, 0, 1]], &[&[0, 0], &[0, 1], &[1, 1], &[1, 0]], vec!["=>>>", "<=>=", "<<=<", "<=>="]),
        rows("a diamond", &diamond, &one, vec!["=>>>", "<=?>", "<?=>", "<<<="]),
        // By how often 2 is used, then 0, then 1.
        rows("2 above 0 above 1", &[[1, 2, 0], [1, 0, 1]], &chain_rows, each_above_the_next),
        // 0 and 3 against 1 and 2: each has one that covers one of the other's, and not the other one.
        rows("two pairs", &[[1, 0, 1], [1, 2, 3]], &[&[0, 2], &[0, 3], &[1, 2], &[1, 3]], vec!["=>>>", "<=?>", "<?=>", "<<<="]),
        rows("as many letters", &[], &[&[0, 0, 1], &[0, 1, 1], &[0, 1, 2]], vec!["=??", "?=?", "??="]),
        rows("another order", &[], &[&[0, 1, 2], &[2, 1, 0], &[1, 0, 2]], vec!["===", "===", "==="]),
    ]
}

/// A chain of ranks is needed, or there is none.
fn chains() -> Vec<Worked> {
    let of = |name, declarations: &[[u8; 3]], first: &[usize], second: &[usize], sign| {
        rows(name, declarations, &[first, second], signs(sign))
    };
    let five = [[1, 3, 4], [1, 1, 2], [1, 2, 3], [1, 0, 1]];
    let fallen = [[1, 4, 3], [1, 3, 2], [1, 2, 1], [1, 1, 0]];
    let crossed = [[1, 3, 0], [1, 0, 4], [1, 4, 1], [1, 1, 2]];
    vec![
        of("by way of 1", &[[1, 0, 1], [1, 1, 2]], &[0], &[2], '>'),
        of("by way of 1, backwards", &[[1, 1, 2], [1, 0, 1]], &[0], &[2], '>'),
        of("upwards", &[[1, 1, 0], [1, 2, 1]], &[0], &[2], '<'),
        of("a gap", &[[1, 0, 1], [1, 2, 3]], &[0], &[3], '?'),
        of("both above 1", &[[1, 0, 1], [1, 2, 1]], &[0], &[2], '?'),
        of("both below 1", &[[1, 1, 0], [1, 1, 2]], &[0], &[2], '?'),
        of("1 left of 2", &[[1, 0, 1], [2, 1, 2]], &[0], &[2], '?'),
        of("1 and 2 in groups", &[[1, 0, 1], [5, 1, 2], [6, 1, 2], [7, 1, 2]], &[0], &[2], '?'),
        of("1 used as often", &[[1, 0, 1], [1, 1, 2]], &[0, 1], &[1, 2], '>'),
        of("1 in the lower one", &[[1, 0, 1], [1, 1, 2]], &[0, 0], &[1, 2], '>'),
        of("1 in the higher one", &[[1, 0, 1], [1, 1, 2]], &[0, 1], &[2, 2], '>'),
        of("by way of three", &five, &[0], &[4], '>'),
        of("by way of three, a link missing", &five[1..], &[0], &[4], '?'),
        of("by way of three, falling", &fallen, &[0], &[4], '<'),
        of("by way of three, falling, a link missing", &fallen[1..], &[0], &[4], '?'),
        of("by way of three, to and fro", &crossed, &[3], &[2], '>'),
    ]
}

pub fn run(dice: &mut Dice, tally: &mut Tally) -> Result<(), Mismatch> {
    [example(), three_terms(), few_ranks(), chains()].iter().try_for_each(|cases| all_orders(cases, dice, tally))
}
