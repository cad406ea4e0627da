//! Change request Two in plain Rust: the join of a Decimal and a listed integer type.

/// What a precision becomes that doesn't stay.
const WIDE: u64 = 38;

/// How many digits the largest value of a listed type has, by its code; None of the 128-bit types, beside which no
/// precision stays.
fn digits(code: u8) -> Option<u64> {
    match code {
        2 | 7 => Some(3),
        3 | 8 => Some(5),
        4 | 9 => Some(10),
        10 => Some(19),
        5 => Some(20),
        6 | 11 => None,
        _ => panic!("{code} is no listed type's code"),
    }
}

/// Whether a Decimal keeps its precision beside the listed type of this code.
pub fn is_kept(precision: u64, scale: u64, code: u8) -> bool {
    digits(code).is_some_and(|digits| digits <= precision - scale)
}

/// The precision and the scale of a Decimal joined with the listed type of this code.
pub fn beside_integer(precision: u64, scale: u64, code: u8) -> (u64, u64) {
    (if is_kept(precision, scale, code) { precision } else { WIDE }, scale)
}

#[cfg(test)]
mod tests {
    use super::*;

    #[test]
    fn the_digits_are_those_of_the_largest_values() {
        let written = |largest: u128| Some(largest.to_string().len() as u64);
        let unsigned = [u8::MAX.into(), u16::MAX.into(), u32::MAX.into(), u64::MAX.into()];
        assert_eq!([2, 3, 4, 5].map(digits), unsigned.map(written));
        let signed = [i8::MAX as u128, i16::MAX as u128, i32::MAX as u128, i64::MAX as u128];
        assert_eq!([7, 8, 9, 10].map(digits), signed.map(written));
    }

    #[test]
    fn a_precision_stays_or_becomes_38() {
        assert_eq!(beside_integer(12, 2, 9), (12, 2));
        assert_eq!(beside_integer(11, 2, 9), (38, 2));
        assert_eq!([6, 11].map(|code| beside_integer(1, 1, code)), [(38, 1); 2]);
    }
}
