//! Clash questions and flat texts of books with groups, worked by hand from request [2] of 02.

use crate::book::{read_book, Refusal};
use crate::compare::Mismatch;
use crate::fixed::{book_t, FLAT_T, T};
use crate::fixed_groups::{four_signs, many_signs};
use crate::prng::Dice;
use crate::tally::Tally;
use crate::{flat, others};

/// Four signs with some declarations, and the clash questions p i q whose answer is yes; to all others it is no.
struct Clashes {
    declarations: &'static [[u8; 3]],
    yes: &'static [[u64; 3]],
}

fn clashes() -> Vec<Clashes> {
    let clashes = |declarations, yes| Clashes { declarations, yes };
    vec![
        clashes(&[[5, 2, 3]], &[[2, 2, 2], [2, 2, 3], [3, 2, 2], [3, 2, 3]]),
        clashes(&[[6, 2, 3]], &[[2, 0, 2], [2, 0, 3], [3, 0, 2], [3, 0, 3]]),
        clashes(
            &[[7, 3, 4]],
            &[[3, 0, 3], [3, 0, 4], [4, 0, 3], [4, 0, 4], [3, 2, 3], [3, 2, 4], [4, 2, 3], [4, 2, 4]],
        ),
        // One rule: the same as a single declaration.
        clashes(&[[5, 2, 2]], &[[2, 2, 2]]),
        clashes(&[[2, 2, 2]], &[[2, 2, 2]]),
        clashes(&[[6, 4, 4]], &[[4, 0, 4]]),
        // The digit has no sort as an argument, but stands in others.
        clashes(&[[7, 0, 0]], &[]),
        clashes(&[[5, 0, 1]], &[[1, 2, 0], [1, 2, 1]]),
        // Three rules, and the same rules in two groups, where 1 and 3 are in none together.
        clashes(
            &[[5, 1, 3]],
            &[[1, 2, 1], [1, 2, 2], [1, 2, 3], [2, 2, 1], [2, 2, 2], [2, 2, 3], [3, 2, 1], [3, 2, 2], [3, 2, 3]],
        ),
        clashes(
            &[[5, 1, 2], [5, 2, 3]],
            &[[1, 2, 1], [1, 2, 2], [2, 2, 1], [2, 2, 2], [2, 2, 3], [3, 2, 2], [3, 2, 3]],
        ),
        clashes(
            &[[5, 1, 2], [6, 2, 3]],
            &[[1, 2, 1], [1, 2, 2], [2, 2, 1], [2, 2, 2], [2, 0, 2], [2, 0, 3], [3, 0, 2], [3, 0, 3]],
        ),
        // Beside kind 1, on a pair of the group and through it.
        clashes(&[[5, 3, 4], [1, 4, 3]], &[[3, 2, 3], [3, 2, 4], [4, 2, 3], [4, 2, 4], [4, 0, 3]]),
        clashes(
            &[[1, 1, 2], [6, 2, 2], [1, 2, 3]],
            &[[1, 0, 2], [1, 2, 2], [2, 0, 3], [2, 2, 3], [1, 0, 3], [1, 2, 3], [2, 0, 2]],
        ),
        // Beside single declarations, one on a pair of the group and one with a rule outside.
        clashes(
            &[[5, 1, 2], [3, 2, 1], [4, 1, 4]],
            &[
                [1, 2, 1], [1, 2, 2], [2, 2, 1], [2, 2, 2], [1, 0, 2], [2, 0, 1], [1, 0, 4], [4, 0, 1], [1, 2, 4], [4, 2, 1],
            ],
        ),
    ]
}

/// Every question, and some that name nothing: there are five rules, rule 0 has one argument and the others three.
fn all_questions(case: &Clashes, dice: &mut Dice, tally: &mut Tally) -> Result<(), Mismatch> {
    let bytes = four_signs(case.declarations);
    let book = read_book(&bytes);
    for (p, i, q) in (0..6).flat_map(|p| (0..4).flat_map(move |i| (0..6).map(move |q| (p, i, q)))) {
        let missing = p == 5 || q == 5 || i == 3 || (p == 0 && i > 0);
        let hand = match missing {
            true => Err(Refusal { number: 7, place: 0 }),
            false => Ok(case.yes.contains(&[p, i, q])),
        };
        let own = book.as_ref().map_err(|r| *r).and_then(|b| b.conflict(p, i, q));
        if own != hand {
            let call = format!("worked clash {p} {i} {q} with {:?} (this program against the hand)", case.declarations);
            return Err(Mismatch { call, expected: format!("{hand:?}"), found: format!("{own:?}"), lent: vec![] });
        }
        others::conflict(&bytes, &book, (p, i, q), dice, tally)?;
    }
    tally.add("fixed", "worked by hand");
    Ok(())
}

/// A book, the same written another way by hand (with groups, spelled out, if it can be), and the flat text of both.
pub struct Flat {
    pub book: Vec<u8>,
    pub other: Option<Vec<u8>>,
    pub text: String,
}

/// The single declarations of a group, the later rule first.
fn each_pair(kind: u8, first: u8, second: u8) -> Vec<[u8; 3]> {
    (first..=second).flat_map(|b| (first..=b).map(move |a| [kind, b, a])).collect()
}

/// The flat text of many signs, if before each the same may stand and behind each the same.
fn lines(count: u16, before: &str, behind: &str) -> String {
    let line = |k: u16| format!("[{before}] [\\{}] [{behind}] -> [\\{}]\n", 100 + k, 258 + k);
    "[\\48-\\57] -> [\\258]\n".to_string() + &(1..=count).map(line).collect::<String>()
}

/// Books with few rules.
fn small_flats() -> Vec<Flat> {
    let flat = |book, spelled, text: &str| Flat { book, other: Some(spelled), text: text.into() };
    let with_digit = "[\\48-\\57] -> [\\258]\n[\\258-\\260] [\\42] [] -> [\\259]\n[\\258-\\260] [\\47] [] -> [\\260]\n";
    let two_of_four = "[\\48-\\57] -> [\\258]\n\
        [\\258-\\262] [\\101] [\\258-\\262] -> [\\259]\n\
        [\\258-\\262] [\\102] [\\258-\\259\\262] -> [\\260]\n\
        [\\258-\\262] [\\103] [\\258-\\259\\262] -> [\\261]\n\
        [\\258-\\262] [\\104] [\\258-\\262] -> [\\262]\n";
    let apart_and_higher = "[\\48-\\57] -> [\\258]\n\
        [\\258-\\262] [\\101] [\\258-\\262] -> [\\259]\n\
        [\\258-\\262] [\\102] [\\258-\\262] -> [\\260]\n\
        [\\258-\\262] [\\103] [\\258-\\262] -> [\\261]\n\
        [\\258\\260-\\261] [\\104] [\\258\\260-\\261] -> [\\262]\n";
    vec![
        flat(book_t(&[[5, 1, 2]]), book_t(&T), FLAT_T),
        flat(book_t(&[[5, 0, 2]]), book_t(&each_pair(2, 0, 2)), with_digit),
        flat(four_signs(&[[5, 2, 3]]), four_signs(&[[2, 2, 2], [2, 2, 3], [2, 3, 3]]), two_of_four),
        flat(four_signs(&[[6, 1, 4]]), four_signs(&each_pair(3, 1, 4)), &lines(4, "\\258", "\\258-\\262")),
        flat(four_signs(&[[7, 4, 4], [1, 4, 1]]), four_signs(&[[1, 4, 1], [4, 4, 4]]), apart_and_higher),
    ]
}

/// Nine rules take 45 declarations, so says 02; 22 rules take 253, and 23 rules 276, which is too many.
fn large_flats() -> Vec<Flat> {
    let spelled = |kind: u8, rules: u8, count: usize| {
        let pairs = each_pair(kind, 1, rules);
        assert!(pairs.len() == count, "{rules} rules have {count} pairs");
        (count <= 255).then(|| many_signs(rules, &pairs))
    };
    let flat = |book, other, text: String| Flat { book, other, text };
    // Left of rule 1 alone, 254 times, and at last right of all signs.
    let mut last_of_255 = [[5, 1, 1]; 255];
    last_of_255[254] = [6, 1, 63];
    let (right_alone, left_too) = ("[\\101] [\\258-\\321] ->", "[\\101] [\\258\\260-\\321] ->");
    vec![
        flat(many_signs(9, &[[5, 1, 9]]), spelled(2, 9, 45), lines(9, "\\258-\\267", "\\258")),
        flat(many_signs(22, &[[7, 1, 22]]), spelled(4, 22, 253), lines(22, "\\258", "\\258")),
        flat(many_signs(23, &[[7, 1, 23]]), spelled(4, 23, 276), lines(23, "\\258", "\\258")),
        flat(many_signs(63, &[[5, 1, 63]]), None, lines(63, "\\258-\\321", "\\258")),
        flat(many_signs(63, &[[6, 0, 63]]), None, lines(63, "", "\\258-\\321")),
        flat(many_signs(63, &[[5, 0, 63]; 255]), None, lines(63, "\\258-\\321", "")),
        flat(many_signs(63, &last_of_255), None, lines(63, "\\258", "\\258-\\321").replace(right_alone, left_too)),
    ]
}

/// The flat text by hand, of the book written either way; in buffers that are just long enough or not.
pub fn same_flat(case: &Flat, dice: &mut Dice, tally: &mut Tally) -> Result<(), Mismatch> {
    let length = case.text.len();
    for bytes in [Some(&case.book), case.other.as_ref()].into_iter().flatten() {
        let own = read_book(bytes).map(|b| String::from_utf8_lossy(&flat::text(&b)).into_owned());
        if own.as_ref() != Ok(&case.text) {
            let call = "worked flat text (this program against the hand)".into();
            let lent = vec![("book", bytes.clone())];
            return Err(Mismatch { call, expected: case.text.clone(), found: format!("{own:?}"), lent });
        }
        for room in [length - 1, length, length + 1] {
            others::flat_with(bytes, Ok(case.text.as_bytes()), &dice.garbage(room), dice, tally)?;
        }
    }
    tally.add("fixed", "worked by hand");
    Ok(())
}

pub fn run(dice: &mut Dice, tally: &mut Tally) -> Result<(), Mismatch> {
    for case in &clashes() {
        all_questions(case, dice, tally)?;
    }
    for case in small_flats().iter().chain(&large_flats()) {
        same_flat(case, dice, tally)?;
    }
    Ok(())
}
