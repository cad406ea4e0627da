//! The rules of polars-core's supertype.rs that join two types into one, on encoded types, by the names of the source,
//! and what is lost where they join two integer types.
//!
//! All are refused by [`Error::Length`] to [`Error::Depth`], numbers 1 to 5, where a type isn't one; the left is looked at
//! first. What else refuses a call is said where it does. Where a function writes a type to `out`, it gives the number of
//! bytes written; the other bytes keep what they held, and a None or a refused call writes nothing.

use crate::{ffi, Error};

/// The source's options of a supertype.
#[derive(Debug, Clone, Copy, PartialEq, Eq, Hash)]
pub struct SuperTypeOptions {
    /// Implode lists to match nesting types. It changes no answer of two types that aren't nested.
    pub allow_implode_list: bool,
    /// Allow casting of primitive types to strings.
    pub allow_primitive_to_string: bool,
}

impl SuperTypeOptions {
    /// Both flags off.
    pub const OFF: SuperTypeOptions = SuperTypeOptions { allow_implode_list: false, allow_primitive_to_string: false };

    /// The flags as the C interface takes them.
    #[inline]
    pub(crate) fn flags(self) -> (u8, u8) {
        (self.allow_implode_list.into(), self.allow_primitive_to_string.into())
    }
}

/// What the supertype of two types, both flags off, does to the whole numbers of two integer columns.
#[derive(Debug, Clone, Copy, PartialEq, Eq, Hash)]
pub enum JoinReport {
    /// It keeps every whole number of both.
    Kept = 0,
    /// It doesn't, and an integer type exists that holds both ranges: the lossless upcast.
    Avoidable = 1,
    /// It doesn't, and no integer type holds both ranges.
    Unavoidable = 2,
    /// The two aren't integer types, UInt8 to Int128.
    NotIntegers = 3,
}

impl JoinReport {
    /// Every report, in the order of their values.
    pub const ALL: [JoinReport; 4] =
        [JoinReport::Kept, JoinReport::Avoidable, JoinReport::Unavoidable, JoinReport::NotIntegers];
}

/// Writes the smallest numeric type that both can be cast to without loss; None where there is none, where the two are
/// equal, or where either isn't numeric.
///
/// Refused by numbers 1 to 5 of the left type, then of the right, then by [`Error::OutputTooShort`].
///
/// ```
/// use lomzegash::kind::{INT128, INT32, UINT64};
/// use lomzegash::supertype::get_numeric_upcast_supertype_lossless;
///
/// let [old, new] = [INT32, UINT64].map(|kind| lomzegash::encode_to_vec(&[kind], &[0]).unwrap());
/// let mut out = [9; 12];
/// assert_eq!(get_numeric_upcast_supertype_lossless(&old, &new, &mut out), Ok(Some(11)));
/// assert_eq!(out, [1, 0, INT128, 0, 0, 0, 0, 0, 0, 0, 0, 9]);
/// assert_eq!(get_numeric_upcast_supertype_lossless(&old, &old, &mut []), Ok(None));
/// ```
#[inline]
pub fn get_numeric_upcast_supertype_lossless(
    left: &[u8],
    right: &[u8],
    out: &mut [u8],
) -> Result<Option<usize>, Error> {
    ffi::supertype::get_numeric_upcast_supertype_lossless(left, right, out)
}

/// Writes the type that both can be cast to, with loss where the source takes it for reasonable; None where there is
/// none. Not every answer is the same with left and right exchanged.
///
/// Of a Decimal and an integer type, in either order, it is a Decimal of the same scale: of the same precision where
/// the type's largest number has at most as many digits as the Decimal has before its point, else of precision 38, as
/// always beside UInt128 and Int128. Where the type's largest number has more than 38 − scale digits, that number is
/// lost.
///
/// Refused by numbers 1 to 5 of the left type, then of the right, by [`Error::Nested`] where either is nested, then by
/// [`Error::OutputTooShort`].
///
/// ```
/// use lomzegash::kind::{FLOAT64, INT32, UINT64};
/// use lomzegash::supertype::{get_supertype_with_options, SuperTypeOptions};
///
/// let [old, new] = [INT32, UINT64].map(|kind| lomzegash::encode_to_vec(&[kind], &[0]).unwrap());
/// let mut out = [9; 12];
/// assert_eq!(get_supertype_with_options(&old, &new, SuperTypeOptions::OFF, &mut out), Ok(Some(11)));
/// assert_eq!(out, [1, 0, FLOAT64, 0, 0, 0, 0, 0, 0, 0, 0, 9]);
/// ```
///
/// Readings with two digits behind the point, joined with counters of 16 bits and of 32:
///
/// ```
/// use lomzegash::kind::{DECIMAL, INT32, UINT16};
/// use lomzegash::supertype::{get_supertype_with_options, SuperTypeOptions};
///
/// let [reading, small, large] = [(DECIMAL, 256 * 2 + 10), (UINT16, 0), (INT32, 0)]
///     .map(|(kind, arg)| lomzegash::encode_to_vec(&[kind], &[arg]).unwrap());
/// let mut out = [9; 11];
/// assert_eq!(get_supertype_with_options(&reading, &small, SuperTypeOptions::OFF, &mut out), Ok(Some(11)));
/// assert_eq!(out, [1, 0, DECIMAL, 10, 2, 0, 0, 0, 0, 0, 0]);
/// assert_eq!(get_supertype_with_options(&large, &reading, SuperTypeOptions::OFF, &mut out), Ok(Some(11)));
/// assert_eq!(out, [1, 0, DECIMAL, 38, 2, 0, 0, 0, 0, 0, 0]);
/// ```
#[inline]
pub fn get_supertype_with_options(
    left: &[u8],
    right: &[u8],
    options: SuperTypeOptions,
    out: &mut [u8],
) -> Result<Option<usize>, Error> {
    ffi::supertype::get_supertype_with_options(left, right, options.flags(), out)
}

/// What the supertype of two types, both flags off, does to the whole numbers of two integer columns.
///
/// Refused by numbers 1 to 5 of the left type, then of the right.
///
/// ```
/// use lomzegash::kind::{INT32, UINT128, UINT64};
/// use lomzegash::supertype::{join_report, JoinReport};
///
/// let [old, new, longest] = [INT32, UINT64, UINT128].map(|kind| lomzegash::encode_to_vec(&[kind], &[0]).unwrap());
/// assert_eq!(join_report(&old, &old), Ok(JoinReport::Kept));
/// assert_eq!(join_report(&old, &new), Ok(JoinReport::Avoidable));
/// assert_eq!(join_report(&old, &longest), Ok(JoinReport::Unavoidable));
/// ```
#[inline]
pub fn join_report(left: &[u8], right: &[u8]) -> Result<JoinReport, Error> {
    ffi::supertype::join_report(left, right)
}
