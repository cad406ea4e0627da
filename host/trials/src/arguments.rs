//! Arguments to try at each kind.

use crate::random::Random;
use lomzegash::kind::{ARRAY, DATETIME, DECIMAL, DURATION, FIELD, STRUCT, UNKNOWN_INT_NEG, UNKNOWN_INT_POS};

const UP_TO_32_BITS: u64 = (1 << 32) - 1;

/// Arguments on both sides of every bound of a kind's rule.
pub fn boundaries(kind: u8) -> &'static [u64] {
    match kind {
        DECIMAL => &[
            0,
            1,
            38,
            39,
            256,
            256 + 1,
            2 * 256 + 1,
            38 * 256 + 37,
            38 * 256 + 38,
            39 * 256 + 38,
            39 * 256 + 39,
            (1 << 16) + 1,
            (1 << 32) + 1,
            u64::MAX,
        ],
        DATETIME => &[
            0,
            1,
            2,
            3,
            4,
            7,
            4 * UP_TO_32_BITS + 2,
            4 * UP_TO_32_BITS + 3,
            4 * (UP_TO_32_BITS + 1),
            1 << 63,
            u64::MAX,
        ],
        DURATION => &[0, 1, 2, 3, 256, u64::MAX],
        UNKNOWN_INT_POS | UNKNOWN_INT_NEG | ARRAY => &[0, 1, u64::MAX],
        STRUCT => &[0, 1, 2, 3, 255, 256, 257, u64::MAX],
        FIELD => &[0, 1, UP_TO_32_BITS, UP_TO_32_BITS + 1, u64::MAX],
        0..=FIELD => &[0, 1, u64::MAX],
        _ => &[0],
    }
}

/// An argument that keeps its kind's rule, where the kind is no Struct.
pub fn valid(kind: u8, random: &mut Random) -> u64 {
    match kind {
        DECIMAL => {
            let precision = random.between(1, 38);
            (256 * random.between(0, precision) + precision) as u64
        }
        DATETIME => 4 * (random.number() & UP_TO_32_BITS) + random.below(3) as u64,
        DURATION => random.below(3) as u64,
        UNKNOWN_INT_POS | UNKNOWN_INT_NEG if random.chance(30) => near_a_power_of_two(random),
        UNKNOWN_INT_POS | UNKNOWN_INT_NEG | ARRAY => random.number() >> random.below(64),
        FIELD => random.number() & UP_TO_32_BITS,
        _ => 0,
    }
}

/// Another argument that keeps its kind's rule, where the kind is no Struct: it differs in one bit, if it can.
pub fn nearest(kind: u8, arg: u64, random: &mut Random) -> u64 {
    match kind {
        DATETIME => arg ^ (4 << random.below(32)),
        UNKNOWN_INT_POS | UNKNOWN_INT_NEG | ARRAY => arg ^ (1 << random.below(64)),
        FIELD => arg ^ (1 << random.below(32)),
        _ => valid(kind, random),
    }
}

/// A power of two, one less or one more.
fn near_a_power_of_two(random: &mut Random) -> u64 {
    (1 << random.below(64)) + random.pick(&[0, 1]) - random.pick(&[0, 1])
}
