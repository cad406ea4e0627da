//! Decimals of 128 bits.

pub mod decimal {
    /// The most digits of a Decimal: so `DataType::Decimal` says in dtype.rs, and document 01. The supertype of a
    /// Decimal has this precision beside a dyn int, and beside an integer type that needs more room.
    pub const DEC128_MAX_PREC: usize = 38;

    /// A whole number as a Decimal of this precision and scale, value × 10^scale, if it has room: at most `precision`
    /// digits.
    ///
    /// Written from what Decimals are: the crate's own text of it isn't here. Runs rest on it, since the supertype of a
    /// Decimal and an integer type asks for it. Document 02 (Two) says that the oracle confirms the digit counts of
    /// that arm; it does so with this meaning, and nothing closer to the crate's is at hand.
    pub fn i128_to_dec128(value: i128, precision: usize, scale: usize) -> Option<i128> {
        let power = |digits| 10_i128.checked_pow(u32::try_from(digits).ok()?);
        let scaled = value.checked_mul(power(scale)?)?;
        (scaled.unsigned_abs() < power(precision)?.unsigned_abs()).then_some(scaled)
    }
}

#[cfg(test)]
mod tests {
    use super::decimal::{i128_to_dec128, DEC128_MAX_PREC};

    const TEN: i128 = 10;

    /// The largest number with `precision` − `scale` digits has room, and the next has none; on either side of 0.
    #[test]
    fn as_many_digits_have_room_as_stand_before_the_point() {
        for precision in 1..=DEC128_MAX_PREC {
            for scale in 0..=precision {
                let (past, unit) = (TEN.pow((precision - scale) as u32), TEN.pow(scale as u32));
                for sign in [1, -1] {
                    let decimal = |value| i128_to_dec128(sign * value, precision, scale);
                    assert_eq!(decimal(past - 1), Some(sign * (past - 1) * unit), "{precision} {scale}");
                    assert_eq!(decimal(past), None, "{precision} {scale}");
                }
                assert_eq!([i128::MIN, i128::MAX].map(|most| i128_to_dec128(most, precision, scale)), [None; 2]);
            }
        }
    }

    #[test]
    fn a_decimal_is_the_number_without_its_point() {
        assert_eq!(i128_to_dec128(7, 3, 2), Some(700));
        assert_eq!(i128_to_dec128(-7, 3, 0), Some(-7));
        assert_eq!(i128_to_dec128(0, 1, 1), Some(0));
        let of_255 = [(3, 0), (2, 0), (5, 2), (4, 2)].map(|(precision, scale)| i128_to_dec128(255, precision, scale));
        assert_eq!(of_255, [Some(255), None, Some(25_500), None]);
    }
}
