//! Types of one node.

use lomzegash::kind::*;

/// One of each behaviour: every rule treats the types of one node that are left out as it treats one of these.
pub const FEW: [(u8, u64); 26] = [
    (NULL, 0),
    (BOOLEAN, 0),
    (UINT8, 0),
    (UINT64, 0),
    (INT32, 0),
    (INT128, 0),
    (FLOAT64, 0),
    (DECIMAL, 256 * 2 + 10),
    (DECIMAL, 10),
    (STRING, 0),
    (BINARY, 0),
    (BINARY_OFFSET, 0),
    (DATE, 0),
    (DATETIME, 0),
    (DATETIME, 1),
    (DATETIME, 4),
    (DURATION, 0),
    (DURATION, 2),
    (TIME, 0),
    (UNKNOWN_ANY, 0),
    (UNKNOWN_STR, 0),
    (UNKNOWN_FLOAT, 0),
    (UNKNOWN_INT_POS, 0),
    (UNKNOWN_INT_POS, 1 << 31),
    (UNKNOWN_INT_NEG, 0),
    (STRUCT, 0),
];

/// Numbers of time zones; 0 is none.
const ZONES: [u64; 5] = [0, 1, 2, 1 << 31, (1 << 32) - 1];

/// Every type of one node, but of Datetimes the zones alone that are above and of unknown integers those alone that are a
/// power of two, one less or one more, of either sign.
pub fn every() -> Vec<(u8, u64)> {
    let with_argument = [DECIMAL, DATETIME, DURATION, UNKNOWN_INT_POS, UNKNOWN_INT_NEG];
    let mut leaves: Vec<_> =
        (NULL..=UNKNOWN_INT_NEG).filter(|kind| !with_argument.contains(kind)).map(|kind| (kind, 0)).collect();
    leaves.push((STRUCT, 0));
    for unit in 0..=2 {
        leaves.push((DURATION, unit));
        leaves.extend(ZONES.map(|zone| (DATETIME, 4 * zone + unit)));
    }
    leaves.extend(decimals());
    for value in around_powers_of_two() {
        leaves.push((UNKNOWN_INT_POS, value));
        leaves.extend(value.checked_sub(1).map(|arg| (UNKNOWN_INT_NEG, arg)));
    }
    leaves.push((UNKNOWN_INT_NEG, u64::MAX));
    leaves
}

/// Every Decimal: of each precision from 1 to 38 those with the scales from 0 to the precision.
pub fn decimals() -> Vec<(u8, u64)> {
    let of = |precision| (0..=precision).map(move |scale| (DECIMAL, 256 * scale + precision));
    (1..=38).flat_map(of).collect()
}

/// Every number of 64 bits that is a power of two, one less or one more.
fn around_powers_of_two() -> Vec<u64> {
    let mut numbers: Vec<u64> =
        (0..64).map(|bit| 1_u64 << bit).flat_map(|power| [power - 1, power, power + 1]).collect();
    numbers.push(u64::MAX);
    numbers.sort_unstable();
    numbers.dedup();
    numbers
}
