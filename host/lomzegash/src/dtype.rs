//! The rules of polars-core's dtype.rs, on encoded types. Each function has the name of the source's method.
//!
//! All are refused by [`Error::Length`] to [`Error::Depth`], numbers 1 to 5, where a type isn't one; of two types the
//! left is looked at first. What else refuses a call is said where it does. Where a function writes a type to `out`, it
//! gives the number of bytes written; the other bytes keep what they held, and a None or a refused call writes nothing.

use crate::{ffi, Error, Shape};

macro_rules! predicates {
    ($($(#[$doc:meta])* $name:ident)*) => {
        $(
            $(#[$doc])*
            ///
            /// Refused by numbers 1 to 5.
            #[inline]
            pub fn $name(encoded: &[u8]) -> Result<bool, Error> {
                ffi::dtype::$name(encoded)
            }
        )*
    };
}

predicates! {
    /// Whether the type is a List, an Array or a Struct.
    is_nested
    /// Whether no part of the type is unknown.
    ///
    /// ```
    /// use lomzegash::dtype::is_known;
    /// use lomzegash::kind::{LIST, UNKNOWN_STR};
    ///
    /// let list = lomzegash::encode_to_vec(&[LIST, UNKNOWN_STR], &[0, 0])?;
    /// assert_eq!(is_known(&list), Ok(false));
    /// assert_eq!(is_known(&list[1..]), Err(lomzegash::Error::Length));
    /// # Ok::<(), lomzegash::Error>(())
    /// ```
    is_known
    /// Whether the type isn't its own physical form, see [`to_physical`].
    is_logical
    /// Whether the type is primitive numeric, a Boolean, a String or Binary.
    is_primitive
    /// Whether the type is an integer or a float; Decimal isn't.
    is_primitive_numeric
    /// Whether the type is Date, Datetime, Duration or Time.
    is_temporal
    /// Whether the type is a float, the unknown one included.
    is_float
    /// Whether the type is an integer, an unknown one included.
    is_integer
    /// Whether the type is Int8 to Int128.
    is_signed_integer
    /// Whether the type is UInt8 to UInt128.
    is_unsigned_integer
    /// Whether the type is String, the unknown one included.
    is_string
    /// Whether the type itself is unknown, of any kind.
    is_unknown
    /// Whether the type is unknown or holds an unknown one: not [`is_known`].
    contains_unknown
    /// Whether the type is a List or holds one.
    contains_list_recursive
}

/// Whether two types are equal. Names count; unknown integers are equal whatever they hold.
///
/// Refused by numbers 1 to 5 of the left type, then of the right.
///
/// ```
/// use lomzegash::kind::{INT8, UNKNOWN_INT_NEG, UNKNOWN_INT_POS};
///
/// let [minus_1, plus_300, int8] = [(UNKNOWN_INT_NEG, 0), (UNKNOWN_INT_POS, 300), (INT8, 0)]
///     .map(|(kind, arg)| lomzegash::encode_to_vec(&[kind], &[arg]).unwrap());
/// assert_eq!(lomzegash::dtype::equal(&minus_1, &plus_300), Ok(true));
/// assert_eq!(lomzegash::dtype::equal(&minus_1, &int8), Ok(false));
/// ```
#[inline]
pub fn equal(left: &[u8], right: &[u8]) -> Result<bool, Error> {
    ffi::dtype::equal(left, right)
}

/// Whether the left type is equal to the right or holds one that is, by [`equal`].
///
/// Refused by numbers 1 to 5 of the left type, then of the right.
#[inline]
pub fn contains_dtype_recursive(left: &[u8], right: &[u8]) -> Result<bool, Error> {
    ffi::dtype::contains_dtype_recursive(left, right)
}

/// Whether a cast of the left type to the right makes sense; None is no verdict.
///
/// Refused by numbers 1 to 5 of the left type, then of the right.
///
/// ```
/// use lomzegash::dtype::can_cast_to;
/// use lomzegash::kind::{BOOLEAN, DATE, NULL};
///
/// let [null, boolean, date] = [NULL, BOOLEAN, DATE].map(|kind| lomzegash::encode_to_vec(&[kind], &[0]).unwrap());
/// assert_eq!(can_cast_to(&null, &boolean), Ok(Some(true)));
/// assert_eq!(can_cast_to(&boolean, &null), Ok(Some(false)));
/// assert_eq!(can_cast_to(&date, &null), Ok(None));
/// ```
#[inline]
pub fn can_cast_to(left: &[u8], right: &[u8]) -> Result<Option<bool>, Error> {
    ffi::dtype::can_cast_to(left, right)
}

/// Writes the type inside a List or an Array; None of any other type.
///
/// Refused by numbers 1 to 5, then by [`Error::OutputTooShort`].
///
/// ```
/// use lomzegash::kind::{INT16, LIST};
///
/// let list = lomzegash::encode_to_vec(&[LIST, INT16], &[0, 0])?;
/// let mut out = [9; 12];
/// assert_eq!(lomzegash::dtype::inner_dtype(&list, &mut out), Ok(Some(11)));
/// assert_eq!(out, [1, 0, INT16, 0, 0, 0, 0, 0, 0, 0, 0, 9]);
/// assert_eq!(lomzegash::dtype::inner_dtype(&out[..11], &mut []), Ok(None));
/// # Ok::<(), lomzegash::Error>(())
/// ```
#[inline]
pub fn inner_dtype(encoded: &[u8], out: &mut [u8]) -> Result<Option<usize>, Error> {
    ffi::dtype::inner_dtype(encoded, out)
}

/// Writes the type inside all Lists and Arrays at the front, the type itself where there are none.
///
/// Refused by numbers 1 to 5, then by [`Error::OutputTooShort`].
#[inline]
pub fn leaf_dtype(encoded: &[u8], out: &mut [u8]) -> Result<usize, Error> {
    ffi::dtype::leaf_dtype(encoded, out)
}

/// Writes the type inside all Arrays at the front; None where there are none.
///
/// Refused by numbers 1 to 5, then by [`Error::OutputTooShort`].
#[inline]
pub fn array_leaf_dtype(encoded: &[u8], out: &mut [u8]) -> Result<Option<usize>, Error> {
    ffi::dtype::array_leaf_dtype(encoded, out)
}

/// The widths of the Arrays at the front; None where there are none.
///
/// Refused by numbers 1 to 5.
///
/// ```
/// use lomzegash::kind::{ARRAY, INT16};
///
/// let array = lomzegash::encode_to_vec(&[ARRAY, ARRAY, INT16], &[3, 0, 0])?;
/// let shape = lomzegash::dtype::get_shape(&array)?;
/// assert_eq!(shape.map(|shape| shape.widths().to_vec()), Some(vec![3, 0]));
/// # Ok::<(), lomzegash::Error>(())
/// ```
#[inline]
pub fn get_shape(encoded: &[u8]) -> Result<Option<Shape>, Error> {
    ffi::dtype::get_shape(encoded)
}

/// Writes the type with every unknown part made known, but for `any`, which stays where `allow_unknown` is on.
///
/// Refused by numbers 1 to 5, then by [`Error::Unknown`] where `any` is a part and isn't allowed, then by
/// [`Error::OutputTooShort`].
///
/// ```
/// use lomzegash::dtype::materialize_unknown;
/// use lomzegash::kind::{INT64, UNKNOWN_ANY, UNKNOWN_INT_POS};
///
/// let [literal, any] = [(UNKNOWN_INT_POS, 1 << 31), (UNKNOWN_ANY, 0)]
///     .map(|(kind, arg)| lomzegash::encode_to_vec(&[kind], &[arg]).unwrap());
/// let mut out = [9; 11];
/// assert_eq!(materialize_unknown(&literal, false, &mut out), Ok(11));
/// assert_eq!(out, [1, 0, INT64, 0, 0, 0, 0, 0, 0, 0, 0]);
/// assert_eq!(materialize_unknown(&any, false, &mut out), Err(lomzegash::Error::Unknown));
/// ```
#[inline]
pub fn materialize_unknown(encoded: &[u8], allow_unknown: bool, out: &mut [u8]) -> Result<usize, Error> {
    ffi::dtype::materialize_unknown(encoded, allow_unknown.into(), out)
}

/// Writes the physical form of the type, in which its values are kept.
///
/// Refused by numbers 1 to 5, then by [`Error::OutputTooShort`].
#[inline]
pub fn to_physical(encoded: &[u8], out: &mut [u8]) -> Result<usize, Error> {
    ffi::dtype::to_physical(encoded, out)
}
