//! Comparisons that are refused, worked by hand from 01 and request [9] of 02: each limit from both sides, and two faults at once.

use crate::book::{read_book, Refusal};
use crate::compare::{same_number, Mismatch};
use crate::fixed::book_t;
use crate::fixed_lower::{NATURALS, REALS};
use crate::fixed_reason_refusals::bad_books;
use crate::listing::to_bytes;
use crate::lower::Order;
use crate::lower_books::{menu, menu_listing, naturals};
use crate::lower_calls::{numbers, Shared};
use crate::prng::Dice;
use crate::reasons::Ways;
use crate::tally::Tally;

/// The two readings of `8/4*2` by book T without its ranks, 20 bytes each: cases (a) and (g) of 01. They have equal counts.
const A: &[u16] = &[259, 260, 258, 56, 47, 258, 52, 42, 258, 50];
const G: &[u16] = &[260, 258, 56, 47, 259, 258, 52, 42, 258, 50];
const TEXT: &[u8] = b"8/4*2";

/// A text, two listings for it, and the number and place of the refusal.
struct Refused {
    name: &'static str,
    book: Vec<u8>,
    text: Vec<u8>,
    listings: [Vec<u8>; 2],
    hand: (u64, u64),
}

/// By book T without ranks.
fn of_t(name: &'static str, text: &[u8], first: Vec<u8>, second: Vec<u8>, hand: (u64, u64)) -> Refused {
    Refused { name, book: book_t(&[]), text: text.to_vec(), listings: [first, second], hand }
}

fn a() -> Vec<u8> {
    to_bytes(A)
}

fn g() -> Vec<u8> {
    to_bytes(G)
}

/// The first listing, cut or filled up with zeros to so many bytes.
fn sized(length: usize) -> Vec<u8> {
    let mut bytes = a();
    bytes.resize(length, 0);
    bytes
}

/// 11: an odd count of bytes, or more than 8,192.
fn lengths() -> Vec<Refused> {
    let of = |name, first, second, hand| of_t(name, TEXT, first, second, hand);
    let mut cases = vec![
        of("first odd", sized(21), g(), (11, 21)),
        of("second odd", g(), sized(21), (11, 21)),
        of("first odd, one less", sized(19), g(), (11, 19)),
        of("second odd, one less", g(), sized(19), (11, 19)),
        of("first one byte", sized(1), g(), (11, 1)),
        of("second one byte", g(), sized(1), (11, 1)),
        of("both odd", sized(21), sized(19), (11, 21)),
        of("both odd, swapped", sized(19), sized(21), (11, 19)),
        of("first odd, second too long", sized(21), sized(8194), (11, 21)),
        of("first too long, second odd", sized(8194), sized(21), (11, 8194)),
        // 8,190 and 8,192 bytes are not too many; the listing is just not right.
        of("first 8,190", sized(8190), g(), (29, 0)),
        of("first 8,192", sized(8192), g(), (29, 0)),
        of("second 8,190", g(), sized(8190), (29, 1)),
        of("second 8,192", g(), sized(8192), (29, 1)),
        of("both 8,192", sized(8192), sized(8192), (29, 0)),
    ];
    // 65,556 is 65,536 more than 20.
    for length in [8191, 8193, 8194, 8195, 8196, 16_384, 65_536, 65_556, 65_557] {
        cases.push(of("first of some length", sized(length), g(), (11, length as u64)));
        cases.push(of("second of some length", g(), sized(length), (11, length as u64)));
    }
    cases
}

/// 29: a listing that is not right, each at the first place and at the second.
fn not_right() -> Vec<Refused> {
    let wrong: [(&str, &[u16]); 9] = [
        ("no number", &[]),
        ("a root that is none", &[56]),
        ("cut", &A[..9]),
        ("a number more", &[259, 260, 258, 56, 47, 258, 52, 42, 258, 50, 258]),
        ("a character more", &[259, 260, 258, 56, 47, 258, 52, 42, 258, 50, 50]),
        ("another character", &[259, 260, 258, 56, 47, 258, 52, 42, 258, 51]),
        ("another rule", &[259, 259, 258, 56, 47, 258, 52, 42, 258, 50]),
        ("no such rule", &[261, 260, 258, 56, 47, 258, 52, 42, 258, 50]),
        ("of a part", &[260, 258, 56, 47, 258, 52]),
    ];
    let mut cases = vec![];
    for (name, numbers) in wrong {
        let bad = || to_bytes(numbers);
        cases.push(of_t(name, TEXT, bad(), g(), (29, 0)));
        cases.push(of_t(name, TEXT, g(), bad(), (29, 1)));
        cases.push(of_t(name, TEXT, bad(), bad(), (29, 0)));
        cases.push(of_t(name, TEXT, bad(), vec![], (29, 0)));
        cases.push(of_t(name, TEXT, vec![], bad(), (29, 0)));
    }
    for text in [&b"8/4*3"[..], b"8/4*", b"8/4*22", b"", b"8*4/2"] {
        cases.push(of_t("of another text", text, a(), g(), (29, 0)));
    }
    cases
}

/// A tree with a clash is no reading, so its listing is not right.
fn clashes() -> Vec<Refused> {
    let of_n = |name, declarations: &[[u8; 3]], hand, first: &[u16], second: &[u16]| {
        let listings = [first, second].map(to_bytes);
        Refused { name, book: naturals(declarations), text: b"n+n".to_vec(), listings, hand }
    };
    // R + R above N -> R takes the sum of reals away; N -> R above N + N takes the sum of naturals away.
    let (reals_away, naturals_away) = ([[1, 4, 1], [1, 4, 2]], [[1, 2, 1]]);
    let left = |name, first, second, hand| Refused { book: book_t(&[[2, 1, 2]]), ..of_t(name, TEXT, first, second, hand) };
    vec![
        of_n("R + R above N -> R", &reals_away, (29, 1), NATURALS, REALS),
        of_n("R + R above N -> R, swapped", &reals_away, (29, 0), REALS, NATURALS),
        of_n("N -> R above N + N", &naturals_away, (29, 0), NATURALS, REALS),
        of_n("N -> R above N + N, swapped", &naturals_away, (29, 1), REALS, NATURALS),
        of_n("the naturals as N, not R", &[], (29, 0), &NATURALS[1..], REALS),
        left("left", a(), g(), (29, 1)),
        left("left, swapped", g(), a(), (29, 0)),
    ]
}

/// Two faults at once, or more: 10, then 11 for the first and the second, then 29 for the first and the second.
fn two_faults() -> Vec<Refused> {
    let of = |name, first, second, hand| of_t(name, TEXT, first, second, hand);
    let cut = || sized(18);
    let mut cases = vec![
        of("first not right, second odd", cut(), sized(21), (11, 21)),
        of("first odd, second not right", sized(21), cut(), (11, 21)),
        of("first no number, second too long", vec![], sized(8194), (11, 8194)),
        of("first too long, second no number", sized(8194), vec![], (11, 8194)),
        of("both not right", cut(), sized(22), (29, 0)),
        of("first 8,192, second odd", sized(8192), sized(19), (11, 19)),
        of("first 8,192, second no number", sized(8192), vec![], (29, 0)),
    ];
    // A text of 200 bytes is not too long. 456 is 256 more.
    for (length, hand) in [(200, None), (201, Some(10)), (202, Some(10)), (456, Some(10)), (65_736, Some(10))] {
        let text = vec![b'8'; length];
        let refused = |otherwise: (u64, u64)| hand.map_or(otherwise, |number| (number, length as u64));
        cases.push(of_t("a long text", &text, a(), g(), refused((29, 0))));
        cases.push(of_t("a long text, first odd", &text, sized(21), g(), refused((11, 21))));
        cases.push(of_t("a long text, second odd", &text, a(), sized(19), refused((11, 19))));
        cases.push(of_t("a long text, both too long", &text, sized(8194), sized(8196), refused((11, 8194))));
        cases.push(of_t("a long text, no numbers", &text, vec![], vec![], refused((29, 0))));
    }
    let row = || menu_listing(&[0; 201], b'a');
    let of_menu = of_t("a row of 201 letters", &[b'a'; 201], row(), row(), (10, 201));
    cases.push(Refused { book: menu(1, b'a').bytes(), ..of_menu });
    cases
}

/// A bad book is refused by its own number, whatever else is lent.
fn refused_books() -> Vec<Refused> {
    let mut cases = vec![];
    for (book, hand) in bad_books() {
        let of = |name, text: &[u8], first, second| Refused { book: book.clone(), ..of_t(name, text, first, second, hand) };
        cases.push(of("a bad book", TEXT, a(), g()));
        cases.push(of("a bad book, a long text", &[b'8'; 201], a(), g()));
        cases.push(of("a bad book, odd listings", TEXT, sized(21), sized(19)));
        cases.push(of("a bad book, no numbers", b"", vec![], vec![]));
        cases.push(of("a bad book, and all else", &[b'8'; 201], sized(8194), sized(1)));
    }
    cases
}

fn same_refusal(case: &Refused, dice: &mut Dice, tally: &mut Tally) -> Result<(), Mismatch> {
    let book = read_book(&case.book);
    let ways = book.as_ref().map(Ways::new).map_err(|refused| *refused);
    let shared = Shared { bytes: &case.book, ways: &ways, text: &case.text };
    let asked = shared.asked([&case.listings[0], &case.listings[1]]);
    let (number, place) = numbers(asked.answer);
    same_number("this program against the hand", 4 * case.hand.0 + 3, number).map_err(|wrong| asked.tell(wrong))?;
    same_number("this program's place against the hand", case.hand.1, place).map_err(|wrong| asked.tell(wrong))?;
    tally.add("fixed", "worked by hand");
    asked.compare(dice, tally).map(drop)
}

/// Answers and the viewer's numbers: 4 times the value, plus the kind.
fn same_numbers(tally: &mut Tally) -> Result<(), Mismatch> {
    let refused = |number| Err(Refusal { number, place: 1 });
    let orders = [(Order::Below, 1), (Order::EqualCounts, 5), (Order::Above, 9), (Order::Neither, 13)];
    let all = orders.map(|(order, hand)| (Ok(order), hand)).into_iter();
    for (answer, hand) in all.chain([(refused(29), 119), (refused(11), 47), (refused(10), 43), (refused(9), 39)]) {
        same_number("a comparison's number (this program against the hand)", hand, numbers(answer).0)?;
        tally.add("fixed", "worked by hand");
    }
    Ok(())
}

pub fn run(dice: &mut Dice, tally: &mut Tally) -> Result<(), Mismatch> {
    same_numbers(tally)?;
    let all = [lengths(), not_right(), clashes(), two_faults(), refused_books()];
    for case in all.iter().flatten() {
        same_refusal(case, dice, tally).map_err(|mut wrong| {
            wrong.call = format!("worked refusal \"{}\": {}", case.name, wrong.call);
            wrong
        })?;
    }
    Ok(())
}
