//! Which whole numbers a column of an integer type can hold, by Rust's own integers, and what a join keeps of them.

use lomzegash::kind::*;
use lomzegash::supertype::JoinReport;

/// All whole numbers from `low`, at most 0, to `high`, at least 0.
#[derive(Clone, Copy)]
struct Range {
    low: i128,
    high: u128,
}

macro_rules! ranges {
    ($($kind:ident $integer:ident)*) => {
        /// The integer types.
        const INTEGERS: [(u8, Range); 10] =
            [$(($kind, Range { low: $integer::MIN as i128, high: $integer::MAX as u128 })),*];
    };
}

ranges! {
    UINT8 u8 UINT16 u16 UINT32 u32 UINT64 u64 UINT128 u128
    INT8 i8 INT16 i16 INT32 i32 INT64 i64 INT128 i128
}

/// The range of a kind, if it is an integer type.
fn range(kind: u8) -> Option<Range> {
    INTEGERS.iter().find(|(integer, _)| *integer == kind).map(|(_, range)| *range)
}

impl Range {
    fn includes(self, other: Range) -> bool {
        self.low <= other.low && other.high <= self.high
    }

    /// Whether each number of the range is a Float64. The number next to 0 that is none is one more than a power of two,
    /// and what holds of a number holds of its negative.
    fn is_in_float64(self) -> bool {
        let farthest = self.high.max(self.low.unsigned_abs());
        (0..u128::BITS).map(|bit| (1 << bit) + 1).take_while(|&number| number <= farthest).all(is_float64)
    }
}

/// Whether a number is kept in the conversion to Float64 and back. The highest of 128 bits seems to be: the way back
/// saturates.
fn is_float64(number: u128) -> bool {
    number as f64 as u128 == number
}

/// Whether a kind is an integer type, UInt8 to Int128.
pub fn is_integer(kind: u8) -> bool {
    range(kind).is_some()
}

/// The report of two kinds, where `supertype` is the kind of their supertype, asked for two integer types alone.
pub fn join_report(left: u8, right: u8, supertype: impl FnOnce() -> u8) -> JoinReport {
    let (Some(left), Some(right)) = (range(left), range(right)) else { return JoinReport::NotIntegers };
    let keeps = match supertype() {
        FLOAT64 => left.is_in_float64() && right.is_in_float64(),
        kind => range(kind).is_some_and(|range| range.includes(left) && range.includes(right)),
    };
    let is_needless = INTEGERS.iter().any(|(_, range)| range.includes(left) && range.includes(right));
    match (keeps, is_needless) {
        (true, _) => JoinReport::Kept,
        (false, true) => JoinReport::Avoidable,
        (false, false) => JoinReport::Unavoidable,
    }
}

#[cfg(test)]
mod tests {
    use super::*;

    #[test]
    fn float64_keeps_whole_numbers_up_to_53_bits() {
        assert!((0..=1 << 20).chain((1 << 53) - (1 << 20)..=1 << 53).all(is_float64));
        assert!(!is_float64((1 << 53) + 1) && is_float64((1 << 53) + 2));
        let kept: Vec<u8> = INTEGERS.iter().filter(|(_, range)| range.is_in_float64()).map(|(kind, _)| *kind).collect();
        assert_eq!(kept, [UINT8, UINT16, UINT32, INT8, INT16, INT32]);
    }

    #[test]
    fn ranges_have_their_ends() {
        let ends = |kind| range(kind).map(|range| (range.low, range.high));
        assert_eq!(ends(UINT8), Some((0, 255)));
        assert_eq!(ends(INT8), Some((-128, 127)));
        assert_eq!(ends(UINT128), Some((0, u128::MAX)));
        assert_eq!(ends(INT128), Some((i128::MIN, u128::MAX / 2)));
        assert_eq!([BOOLEAN, FLOAT16, DECIMAL, UNKNOWN_INT_POS].map(ends), [None; 4]);
    }
}
