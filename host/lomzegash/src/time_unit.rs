//! Time units by their numbers: 0 ns, 1 µs, 2 ms.

use crate::{ffi, Error};

/// The coarser of two units. Refused by [`Error::Argument`], number 3, where either is no unit.
///
/// ```
/// use lomzegash::time_unit::get_time_units;
/// assert_eq!(get_time_units(0, 2), Ok(2));
/// assert_eq!(get_time_units(0, 3), Err(lomzegash::Error::Argument));
/// ```
#[inline]
pub fn get_time_units(left: u8, right: u8) -> Result<u8, Error> {
    ffi::get_time_units(left, right)
}
