//! Which joins are recorded.

use super::{damaged_at_times, no_types, ROOMS};
use crate::answers::Answers;
use lomzegash::kind::*;
use trials::draw;
use trials::flat::Flat;
use trials::joins::{Join, JOINS};
use trials::random::Random;

/// A node of a type of its own.
type Leaf = (u8, u64);

/// Where Int64 ends, on either side of zero.
const INT63: u64 = 1 << 63;

/// The pairs of document 01's corners 1 to 10, and those of the customer's probes.
const CORNERS: [(Leaf, Leaf); 36] = [
    ((UNKNOWN_INT_POS, 1), (UNKNOWN_INT_POS, 300)),
    ((UNKNOWN_INT_POS, 300), (UNKNOWN_INT_POS, 1)),
    ((UNKNOWN_INT_NEG, 0), (UNKNOWN_INT_POS, 0)),
    ((UNKNOWN_ANY, 0), (STRING, 0)),
    ((STRING, 0), (UNKNOWN_ANY, 0)),
    ((UNKNOWN_INT_POS, 5), (UNKNOWN_STR, 0)),
    ((UNKNOWN_STR, 0), (UNKNOWN_INT_POS, 5)),
    ((UINT64, 0), (UNKNOWN_INT_NEG, 0)),
    ((UINT64, 0), (UNKNOWN_INT_NEG, INT63 - 1)),
    ((UINT64, 0), (UNKNOWN_INT_NEG, INT63)),
    ((UINT64, 0), (UNKNOWN_INT_NEG, u64::MAX)),
    ((UINT128, 0), (INT8, 0)),
    ((INT8, 0), (UINT128, 0)),
    ((BINARY_OFFSET, 0), (STRING, 0)),
    ((BINARY, 0), (STRING, 0)),
    ((BOOLEAN, 0), (UNKNOWN_FLOAT, 0)),
    ((DATE, 0), (UNKNOWN_INT_POS, 5)),
    ((FLOAT16, 0), (INT8, 0)),
    ((FLOAT16, 0), (INT16, 0)),
    ((FLOAT16, 0), (INT32, 0)),
    ((INT32, 0), (FLOAT32, 0)),
    ((INT8, 0), (UNKNOWN_INT_POS, 127)),
    ((INT8, 0), (UNKNOWN_INT_POS, 128)),
    ((UINT8, 0), (UNKNOWN_INT_POS, 255)),
    ((UINT8, 0), (UNKNOWN_INT_POS, 256)),
    ((INT64, 0), (UNKNOWN_INT_POS, INT63 - 1)),
    ((INT64, 0), (UNKNOWN_INT_POS, INT63)),
    ((BOOLEAN, 0), (UNKNOWN_INT_NEG, INT63)),
    ((DATETIME, 4), (DATETIME, 8)),
    ((DATETIME, 4), (DATETIME, 0)),
    ((DATETIME, 0), (DATETIME, 4)),
    ((DATETIME, 4), (DATETIME, 4 + 2)),
    ((DURATION, 2), (DATETIME, 4)),
    ((DECIMAL, 256 * 2 + 10), (DECIMAL, 256 * 9 + 9)),
    ((INT32, 0), (UINT64, 0)),
    ((UINT64, 0), (INT32, 0)),
];

/// Change request Two's rows: the argument of a Decimal, and the integer type that it is joined with.
const DECIMALS: [(u64, u8); 8] = [
    (256 * 2 + 10, INT32),
    (256 * 2 + 12, INT32),
    (256 * 20 + 38, INT64),
    (256 * 30 + 37, INT64),
    (5, UINT16),
    (4, UINT16),
    (38, UINT128),
    (1, INT128),
];

/// The digits of an integer type's largest number, by that request.
const DIGITS: [(u8, u64); 8] =
    [(UINT8, 3), (UINT16, 5), (UINT32, 10), (UINT64, 20), (INT8, 3), (INT16, 5), (INT32, 10), (INT64, 19)];

/// Each corner, every two kinds of leaves, each refusal, and Decimals with integer types.
pub fn chosen(answers: &mut Answers) {
    for (left, right) in CORNERS {
        all(answers, &Flat::new(&[left]), &Flat::new(&[right]));
    }
    leaves(answers);
    refusals(answers);
    decimals(answers);
}

/// Both rules and the report on two types of their own.
pub fn drawn(answers: &mut Answers, random: &mut Random) {
    for join in [Join::Lossless, random.pick(&JOINS[1..])] {
        let (left, right) = pair(random);
        answers.join(join, &left, &right, random.pick(&ROOMS));
    }
    let (left, right) = pair(random);
    answers.report(&left, &right);
}

fn pair(random: &mut Random) -> (Flat, Flat) {
    let (left, right) = draw::leaf_pair(random);
    (damaged_at_times(left, random), damaged_at_times(right, random))
}

/// Both rules with the flags in every state, and the report.
fn all(answers: &mut Answers, left: &Flat, right: &Flat) {
    JOINS.into_iter().for_each(|join| answers.join(join, left, right, |nodes| nodes));
    answers.report(left, right);
}

/// Every two kinds of leaves, with the flags in one state, but with String in all.
fn leaves(answers: &mut Answers) {
    for left in NULL..=UNKNOWN_INT_NEG {
        for right in NULL..=UNKNOWN_INT_NEG {
            let (l, r) = (Flat::new(&[(left, argument(left, 0))]), Flat::new(&[(right, argument(right, 1))]));
            if left == STRING || right == STRING {
                all(answers, &l, &r);
                continue;
            }
            let supertype = JOINS[1 + usize::from(left + right) % 4];
            [Join::Lossless, supertype].into_iter().for_each(|join| answers.join(join, &l, &r, |nodes| nodes));
            answers.report(&l, &r);
        }
    }
}

/// An argument of a kind, another one on either side.
fn argument(kind: u8, side: usize) -> u64 {
    let arguments = match kind {
        DECIMAL => [256 * 2 + 10, 256 * 5 + 7],
        DATETIME => [4 * 3, 4 * 3 + 1],
        DURATION => [1, 2],
        UNKNOWN_INT_POS => [300, 70_000],
        UNKNOWN_INT_NEG => [0, 1 << 31],
        _ => [0, 0],
    };
    arguments[side]
}

/// What is no type, the left first; nested types; and outputs that are too short.
fn refusals(answers: &mut Answers) {
    let (good, bad) = (Flat::int8(), no_types());
    for (flat, other) in bad.iter().zip(bad.iter().rev()) {
        for (left, right) in [(flat, &good), (&good, flat), (flat, other)] {
            [Join::Lossless, JOINS[1]].into_iter().for_each(|join| answers.join(join, left, right, |_| 0));
            answers.report(left, right);
        }
    }
    let decimal = Flat::new(&[(DECIMAL, argument(DECIMAL, 0))]);
    for nested in [Flat::lists(1), Flat::structs(1, &decimal), Flat::wide_struct(0)] {
        in_every_room(answers, &nested, &good);
        in_every_room(answers, &decimal, &nested);
    }
    in_every_room(answers, &good, &Flat::new(&[(INT16, 0)]));
    in_every_room(answers, &good, &Flat::new(&[(TIME, 0)]));
}

/// In either order: the rows of the request; then with as many digits before the point as each type needs and with one
/// less, of the least scale and of the most.
fn decimals(answers: &mut Answers) {
    for (arg, kind) in DECIMALS {
        let (decimal, integer) = (Flat::new(&[(DECIMAL, arg)]), Flat::new(&[(kind, 0)]));
        all(answers, &decimal, &integer);
        all(answers, &integer, &decimal);
        in_every_room(answers, &decimal, &integer);
    }
    for (kind, digits) in DIGITS {
        for scale in [0, 38 - digits] {
            for precision in [digits + scale, digits + scale - 1] {
                let (decimal, integer) = (Flat::new(&[(DECIMAL, 256 * scale + precision)]), Flat::new(&[(kind, 0)]));
                answers.join(JOINS[4], &decimal, &integer, |nodes| nodes);
                answers.join(JOINS[1], &integer, &decimal, |nodes| nodes);
            }
        }
    }
}

fn in_every_room(answers: &mut Answers, left: &Flat, right: &Flat) {
    for room in ROOMS {
        [Join::Lossless, JOINS[2]].into_iter().for_each(|join| answers.join(join, left, right, room));
    }
}
