//! Random leaves, and pairs of them that have something to do with each other.

use super::tree::Tree;
use lomzegash::kind::*;
use trials::random::Random;

/// Integer types with their number of bits before the sign.
const INTEGERS: [(u8, u32); 8] =
    [(UINT8, 8), (UINT16, 16), (UINT32, 32), (UINT64, 64), (INT8, 7), (INT16, 15), (INT32, 31), (INT64, 63)];

/// What is joined with a Decimal.
const BESIDE_DECIMALS: [u8; 14] = [
    UINT8,
    UINT16,
    UINT32,
    UINT64,
    UINT128,
    INT8,
    INT32,
    INT64,
    FLOAT32,
    UNKNOWN_FLOAT,
    UNKNOWN_INT_POS,
    UNKNOWN_INT_NEG,
    DECIMAL,
    DECIMAL,
];

const TIMES: [u8; 9] = [DATE, DATETIME, DATETIME, DATETIME, DURATION, DURATION, TIME, INT64, FLOAT32];

const TEXTS: [u8; 6] = [STRING, STRING, BINARY, BINARY_OFFSET, UNKNOWN_STR, UNKNOWN_ANY];

/// Precisions and scales.
const DECIMALS: [(u64, u64); 10] =
    [(1, 1), (3, 0), (4, 0), (5, 0), (5, 2), (10, 2), (12, 2), (20, 1), (37, 30), (38, 20)];

/// The leaf of a kind, with an argument that others have too.
pub fn leaf_of(kind: u8, random: &mut Random) -> Tree {
    let arg = match kind {
        DECIMAL => {
            let (precision, scale) = random.pick(&DECIMALS);
            256 * scale + precision
        }
        DATETIME => 4 * random.pick(&[0, 0, 1, 2]) + random.below(3) as u64,
        DURATION => random.below(3) as u64,
        UNKNOWN_INT_POS | UNKNOWN_INT_NEG => value(random),
        _ => 0,
    };
    Tree::Leaf(kind, arg)
}

/// A leaf of any kind.
pub fn leaf(random: &mut Random) -> Tree {
    leaf_of(random.below(LIST.into()) as u8, random)
}

/// A leaf of a number type, dyn numbers among them.
pub fn number(random: &mut Random) -> Tree {
    let kinds: Vec<u8> = (UINT8..=FLOAT64).chain(UNKNOWN_FLOAT..=UNKNOWN_INT_NEG).collect();
    leaf_of(random.pick(&kinds), random)
}

/// A leaf of a number type that is no dyn number.
pub fn primitive_number(random: &mut Random) -> Tree {
    Tree::Leaf(random.between(UINT8.into(), FLOAT64.into()) as u8, 0)
}

/// A dyn number.
pub fn dyn_number(random: &mut Random) -> Tree {
    leaf_of(random.pick(&[UNKNOWN_FLOAT, UNKNOWN_INT_POS, UNKNOWN_INT_POS, UNKNOWN_INT_NEG]), random)
}

fn dyn_int(random: &mut Random) -> Tree {
    leaf_of(random.pick(&[UNKNOWN_INT_POS, UNKNOWN_INT_NEG]), random)
}

/// The argument of a dyn int: a small one, or one around a bound of an integer type.
fn value(random: &mut Random) -> u64 {
    let bits = random.pick(&INTEGERS).1;
    if random.chance(25) {
        random.below(8) as u64
    } else {
        around(bits, random)
    }
}

/// The last number of so many bits, or the next where there is one.
fn around(bits: u32, random: &mut Random) -> u64 {
    let last = u64::MAX >> (u64::BITS - bits);
    last.saturating_add(random.below(2) as u64)
}

/// Two leaves, in most cases of related kinds.
pub fn pair(random: &mut Random) -> (Tree, Tree) {
    let (left, right) = match random.below(13) {
        0..=2 => (number(random), number(random)),
        3 => integer_and_dyn(random),
        4 => (leaf_of(DECIMAL, random), leaf_of(random.pick(&BESIDE_DECIMALS), random)),
        5 | 6 => (leaf_of(random.pick(&TIMES), random), leaf_of(random.pick(&TIMES), random)),
        7 | 8 => (Tree::Leaf(STRING, 0), leaf(random)),
        9 => (leaf_of(random.pick(&TEXTS), random), leaf(random)),
        10 => (leaf(random), Tree::Leaf(random.pick(&[NULL, NULL, BOOLEAN]), 0)),
        11 => (dyn_int(random), dyn_int(random)),
        _ => (leaf(random), leaf(random)),
    };
    if random.chance(50) {
        (left, right)
    } else {
        (right, left)
    }
}

/// An integer type, and a dyn int around its bound.
fn integer_and_dyn(random: &mut Random) -> (Tree, Tree) {
    let (kind, bits) = random.pick(&INTEGERS);
    let sign = random.pick(&[UNKNOWN_INT_POS, UNKNOWN_INT_NEG]);
    (Tree::Leaf(kind, 0), Tree::Leaf(sign, around(bits, random)))
}
