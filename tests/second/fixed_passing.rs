//! Every byte against some classes, worked by hand from request [6] of 02: both directions, the ends of the alphabet, ranges
//! that overlap or touch, the edges of each 64 bytes, no range, and as many as a class may have.

use crate::compare::Mismatch;
use crate::fixed_ranges::{class_of, sixteen};
use crate::passing::{every_byte, passes};
use crate::prng::Dice;
use crate::ranges::written;
use crate::tally::Tally;

/// Where the ranges stand in the book of one class.
const RANGES_AT: usize = 10;

/// The ranges of a class, and the bytes that pass it.
struct Worked {
    ranges: Vec<(u8, u8)>,
    passing: Vec<u8>,
}

fn worked(ranges: &[(u8, u8)], passing: impl IntoIterator<Item = u8>) -> Worked {
    Worked { ranges: ranges.to_vec(), passing: passing.into_iter().collect() }
}

/// No range, and one.
fn few() -> Vec<Worked> {
    let digits = || b"0123456789".iter().copied();
    vec![
        worked(&[], []),
        // 9-0 as two of the men write it, and the same upwards.
        worked(&[(57, 48)], digits()),
        worked(&[(48, 57)], digits()),
        worked(&[(0, 0)], [0]),
        worked(&[(255, 255)], [255]),
        worked(&[(56, 56)], [56]),
        worked(&[(0, 1)], [0, 1]),
        worked(&[(1, 0)], [0, 1]),
        worked(&[(254, 255)], [254, 255]),
        worked(&[(255, 254)], [254, 255]),
        worked(&[(0, 255)], 0..=255),
        worked(&[(255, 0)], 0..=255),
        worked(&[(1, 254)], 1..=254),
        worked(&[(254, 1)], 1..=254),
    ]
}

/// Two ranges: both ends of the alphabet, overlapping, one within the other, the same, touching, and with a gap of one.
fn two() -> Vec<Worked> {
    vec![
        worked(&[(0, 0), (255, 255)], [0, 255]),
        worked(&[(255, 255), (0, 0)], [0, 255]),
        worked(&[(50, 53), (55, 52)], *b"234567"),
        worked(&[(53, 50), (52, 55)], *b"234567"),
        worked(&[(55, 52), (50, 53)], *b"234567"),
        worked(&[(57, 48), (50, 53)], *b"0123456789"),
        worked(&[(48, 57), (53, 50)], *b"0123456789"),
        worked(&[(50, 53), (53, 50)], *b"2345"),
        worked(&[(50, 53), (56, 54)], *b"2345678"),
        worked(&[(53, 50), (55, 57)], *b"2345789"),
        worked(&[(255, 0), (56, 56)], 0..=255),
        worked(&[(127, 0), (128, 255)], 0..=255),
        worked(&[(0, 126), (255, 128)], (0..=255).filter(|&c| c != 127)),
    ]
}

/// The last byte of each 64 and the first of the next: one range over the edge, two that touch there, one on either side, and
/// whole 64s.
fn edges() -> Vec<Worked> {
    let mut out = vec![];
    for last in [63, 127, 191] {
        let next = last + 1;
        let six = || last - 2..=next + 2;
        out.extend([
            worked(&[(last, next)], [last, next]),
            worked(&[(next, last)], [last, next]),
            worked(&[(last, last), (next, next)], [last, next]),
            worked(&[(last - 2, last), (next, next + 2)], six()),
            worked(&[(last, last - 2), (next + 2, next)], six()),
            worked(&[(next, next + 2), (last, last - 2)], six()),
            worked(&[(last - 2, last)], [last - 2, last - 1, last]),
            worked(&[(last, last - 2)], [last - 2, last - 1, last]),
            worked(&[(next, next + 2)], [next, next + 1, next + 2]),
            worked(&[(next + 2, next)], [next, next + 1, next + 2]),
        ]);
    }
    for first in [0, 64, 128, 192] {
        out.push(worked(&[(first, first + 63)], first..=first + 63));
        out.push(worked(&[(first + 63, first)], first..=first + 63));
    }
    out.push(worked(&[(63, 64), (128, 127), (191, 192)], [63, 64, 127, 128, 191, 192]));
    out.push(worked(&[(64, 63), (127, 128), (192, 191)], [63, 64, 127, 128, 191, 192]));
    out
}

/// Sixteen ranges: three bytes of every five, upwards, downwards and mixed; all alike; and only the last with another byte.
fn most() -> Vec<Worked> {
    let three_of_five = || (100..=177).filter(|c| c % 5 < 3);
    let all: Vec<u8> = (0..16).collect();
    let mut last_apart = vec![(57, 48); 15];
    last_apart.push((255, 255));
    vec![
        worked(&sixteen(&[]), three_of_five()),
        worked(&sixteen(&all), three_of_five()),
        worked(&sixteen(&[0, 3, 15]), three_of_five()),
        worked(&[(57, 48); 16], *b"0123456789"),
        worked(&last_apart, b"0123456789\xff".iter().copied()),
    ]
}

/// This program against the hand, and the library against both.
fn by_hand(case: &Worked, dice: &mut Dice, tally: &mut Tally) -> Result<(), Mismatch> {
    let book = class_of(&case.ranges);
    let class = &written(&book)[0];
    let own: Vec<u8> = (0..=255).filter(|&c| passes(class, c)).collect();
    if own != case.passing {
        let call = format!("worked class {:?} (this program against the hand)", case.ranges);
        return Err(Mismatch { call, expected: format!("{:?}", case.passing), found: format!("{own:?}"), lent: vec![] });
    }
    tally.add("fixed", "worked by hand");
    every_byte(&book[RANGES_AT..], "fixed, a byte", dice, tally)
}

pub fn run(dice: &mut Dice, tally: &mut Tally) -> Result<(), Mismatch> {
    [few(), two(), edges(), most()].iter().flatten().try_for_each(|case| by_hand(case, dice, tally))
}
