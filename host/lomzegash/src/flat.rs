//! Rules of polars-core's dtype.rs and supertype.rs on flat types, for callers that keep types so. [`crate::dtype`] and
//! [`crate::supertype`] have them all, on encoded types. And merges of flat types into channels, as those of
//! [`ChannelTypes`].
//!
//! All are refused by [`Error::Length`] to [`Error::Depth`], numbers 1 to 5, where two slices aren't a type; of two types
//! the left is looked at first.

use crate::supertype::SuperTypeOptions;
use crate::{ffi, ChannelTypes, Error};

/// A type's kinds and arguments.
pub type Nodes<'a> = (&'a [u8], &'a [u64]);

/// Where a type is to be written, its kinds and its arguments: to the front; what stands past them keeps what it held.
pub type Output<'a> = (&'a mut [u8], &'a mut [u64]);

/// Whether no part of the type is unknown.
///
/// ```
/// use lomzegash::flat::is_known;
/// use lomzegash::kind::{LIST, UNKNOWN_STR};
///
/// assert_eq!(is_known((&[LIST, UNKNOWN_STR], &[0, 0])), Ok(false));
/// assert_eq!(is_known((&[LIST], &[0])), Err(lomzegash::Error::Shape));
/// ```
#[inline]
pub fn is_known(dtype: Nodes) -> Result<bool, Error> {
    ffi::flat::is_known(dtype)
}

/// Whether two types are equal. Names count; unknown integers are equal whatever they hold.
#[inline]
pub fn equal(left: Nodes, right: Nodes) -> Result<bool, Error> {
    ffi::flat::equal(left, right)
}

/// Whether a cast makes sense; None is no verdict.
#[inline]
pub fn can_cast_to(from: Nodes, to: Nodes) -> Result<Option<bool>, Error> {
    ffi::flat::can_cast_to(from, to)
}

/// The type inside a List or an Array: that part of the slices themselves, not a copy. None of any other type.
///
/// Refused by numbers 1 to 5.
///
/// ```
/// use lomzegash::flat::inner_dtype;
/// use lomzegash::kind::{INT16, LIST};
///
/// let (kinds, args) = ([LIST, LIST, INT16], [0, 0, 0]);
/// let inner = inner_dtype((&kinds, &args))?;
/// assert_eq!(inner, Some((&kinds[1..], &args[1..])));
/// assert_eq!(inner_dtype((&kinds[2..], &args[2..])), Ok(None));
/// assert_eq!(inner_dtype((&kinds[..2], &args[..2])), Err(lomzegash::Error::Shape));
/// # Ok::<(), lomzegash::Error>(())
/// ```
#[inline]
pub fn inner_dtype(dtype: Nodes<'_>) -> Result<Option<Nodes<'_>>, Error> {
    ffi::flat::inner_dtype(dtype)
}

/// The type inside all Lists and Arrays at the front, the type itself where there are none: that part of the slices
/// themselves, not a copy.
///
/// Refused by numbers 1 to 5.
#[inline]
pub fn leaf_dtype(dtype: Nodes<'_>) -> Result<Nodes<'_>, Error> {
    ffi::flat::leaf_dtype(dtype)
}

/// The type inside all Arrays at the front: that part of the slices themselves, not a copy. None where there are none.
///
/// Refused by numbers 1 to 5.
#[inline]
pub fn array_leaf_dtype(dtype: Nodes<'_>) -> Result<Option<Nodes<'_>>, Error> {
    ffi::flat::array_leaf_dtype(dtype)
}

/// Writes the type with each unknown type made known, and gives its number of nodes.
///
/// Refused by numbers 1 to 5, by [`Error::Unknown`] where `any` is a part of it and isn't allowed, then by
/// [`Error::OutputTooShort`]; a refused call writes nothing.
#[inline]
pub fn materialize_unknown(dtype: Nodes, allow_unknown: bool, out: Output) -> Result<usize, Error> {
    ffi::flat::materialize_unknown(dtype, allow_unknown.into(), out)
}

/// Writes the type's physical form, and gives its number of nodes.
///
/// Refused by numbers 1 to 5, then by [`Error::OutputTooShort`]; a refused call writes nothing.
///
/// ```
/// use lomzegash::kind::{DATE, INT32, LIST};
///
/// let (mut kinds, mut args) = ([9; 3], [9; 3]);
/// assert_eq!(lomzegash::flat::to_physical((&[LIST, DATE], &[0, 0]), (&mut kinds, &mut args)), Ok(2));
/// assert_eq!((kinds, args), ([LIST, INT32, 9], [0, 0, 9]));
/// ```
#[inline]
pub fn to_physical(dtype: Nodes, out: Output) -> Result<usize, Error> {
    ffi::flat::to_physical(dtype, out)
}

/// Writes the smallest numeric type that both can be cast to without loss, and gives its number of nodes, as
/// [`crate::supertype::get_numeric_upcast_supertype_lossless`] does on encoded types.
///
/// Refused by numbers 1 to 5 of the left type, then of the right, then by [`Error::OutputTooShort`]; a None or a refused
/// call writes nothing.
///
/// ```
/// use lomzegash::flat::get_numeric_upcast_supertype_lossless;
/// use lomzegash::kind::{INT128, INT32, UINT64};
///
/// let (mut kinds, mut args) = ([9; 2], [9; 2]);
/// let (old, new) = ((&[INT32][..], &[0][..]), (&[UINT64][..], &[0][..]));
/// assert_eq!(get_numeric_upcast_supertype_lossless(old, new, (&mut kinds, &mut args)), Ok(Some(1)));
/// assert_eq!((kinds, args), ([INT128, 9], [0, 9]));
/// ```
#[inline]
pub fn get_numeric_upcast_supertype_lossless(left: Nodes, right: Nodes, out: Output) -> Result<Option<usize>, Error> {
    ffi::flat::get_numeric_upcast_supertype_lossless(left, right, out)
}

/// Writes the type that both can be cast to, and gives its number of nodes, as
/// [`crate::supertype::get_supertype_with_options`] does on encoded types.
///
/// Refused by numbers 1 to 5 of the left type, then of the right, by [`Error::Nested`] where either is nested, then by
/// [`Error::OutputTooShort`]; a None or a refused call writes nothing.
///
/// ```
/// use lomzegash::flat::get_supertype_with_options;
/// use lomzegash::kind::{DECIMAL, INT32};
/// use lomzegash::supertype::SuperTypeOptions;
///
/// let (mut kinds, mut args) = ([9; 2], [9; 2]);
/// let (reading, counter) = ((&[DECIMAL][..], &[256 * 2 + 10][..]), (&[INT32][..], &[0][..]));
/// let out = (&mut kinds[..], &mut args[..]);
/// assert_eq!(get_supertype_with_options(reading, counter, SuperTypeOptions::OFF, out), Ok(Some(1)));
/// assert_eq!((kinds, args), ([DECIMAL, 9], [256 * 2 + 38, 9]));
/// ```
#[inline]
pub fn get_supertype_with_options(
    left: Nodes,
    right: Nodes,
    options: SuperTypeOptions,
    out: Output,
) -> Result<Option<usize>, Error> {
    ffi::flat::get_supertype_with_options(left, right, options.flags(), out)
}

/// Merges the type of a column into a channel, as [`ChannelTypes::merge`] does on encoded types, and gives the code that
/// the channel then holds: 0 where the column is of type Null, which changes nothing, and the channel is empty.
///
/// Refused by numbers 1 to 5, by [`Error::Channel`], by [`Error::ChannelCode`], by [`Error::NotAnInteger`], then by
/// [`Error::NoUpcast`]; a refused call changes nothing.
///
/// ```
/// use lomzegash::flat::merge;
/// use lomzegash::kind::{INT16, INT8, NULL, UINT128, UINT8};
/// use lomzegash::{ChannelTypes, Error};
///
/// let mut types = ChannelTypes::new();
/// assert_eq!(merge(&mut types, 3, (&[NULL], &[0])), Ok(0));
/// assert_eq!(merge(&mut types, 3, (&[INT8], &[0])), Ok(INT8));
/// assert_eq!(merge(&mut types, 3, (&[NULL], &[0])), Ok(INT8));
/// assert_eq!(merge(&mut types, 3, (&[UINT8], &[0])), Ok(INT16));
/// assert_eq!(merge(&mut types, 3, (&[UINT128], &[0])), Err(Error::NoUpcast));
/// assert_eq!(types.get(3), Some(INT16));
/// ```
#[inline]
pub fn merge(types: &mut ChannelTypes, channel: usize, column: Nodes) -> Result<u8, Error> {
    ffi::channels::flat_merge(types, channel, column)
}

/// The same with the types by value: the code that the channel then holds, beside the types as the call leaves them.
///
/// Refused as [`merge`] is; a refused call gives the types back as they were.
///
/// ```
/// use lomzegash::flat::merged;
/// use lomzegash::kind::{INT16, INT8, NULL, UINT128, UINT8};
/// use lomzegash::{ChannelTypes, Error};
///
/// assert_eq!(merged(ChannelTypes::new(), 3, (&[NULL], &[0])), (Ok(0), ChannelTypes::new()));
/// let (_, types) = merged(ChannelTypes::new(), 3, (&[INT8], &[0]));
/// let (answer, types) = merged(types, 3, (&[UINT8], &[0]));
/// assert_eq!((answer, types.get(3)), (Ok(INT16), Some(INT16)));
/// assert_eq!(merged(types, 3, (&[UINT128], &[0])), (Err(Error::NoUpcast), types));
/// ```
#[inline]
pub fn merged(types: ChannelTypes, channel: usize, column: Nodes) -> (Result<u8, Error>, ChannelTypes) {
    ffi::channels::flat_merged(types, channel, column)
}
