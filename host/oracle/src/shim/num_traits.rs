//! Traits of numbers.

pub trait Signed {
    /// Whether the number is below zero.
    fn is_negative(&self) -> bool;
}

impl Signed for i128 {
    fn is_negative(&self) -> bool {
        *self < 0
    }
}
