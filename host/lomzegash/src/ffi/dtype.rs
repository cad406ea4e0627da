//! The rules of dtype.rs.

use super::reply::{Reply, ShapeReply};
use crate::{Error, Shape};

macro_rules! of_one_type {
    ($($symbol:ident $name:ident)*) => {
        extern "C" {
            $(fn $symbol(encoded: *const u8, encoded_len: usize) -> Reply;)*
        }

        $(
            #[inline]
            pub(crate) fn $name(encoded: &[u8]) -> Result<bool, Error> {
                // SAFETY: pointer and length are those of one slice, which is only read.
                unsafe { $symbol(encoded.as_ptr(), encoded.len()) }.yes_or_no()
            }
        )*
    };
}

macro_rules! of_two_types {
    ($($symbol:ident $name:ident $answer:ty, $result:ident;)*) => {
        extern "C" {
            $(fn $symbol(left: *const u8, left_len: usize, right: *const u8, right_len: usize) -> Reply;)*
        }

        $(
            #[inline]
            pub(crate) fn $name(left: &[u8], right: &[u8]) -> Result<$answer, Error> {
                // SAFETY: each pointer and length are those of one slice, which is only read.
                unsafe { $symbol(left.as_ptr(), left.len(), right.as_ptr(), right.len()) }.$result()
            }
        )*
    };
}

macro_rules! to_a_type {
    ($($symbol:ident $name:ident $answer:ty, $result:ident;)*) => {
        extern "C" {
            $(fn $symbol(encoded: *const u8, encoded_len: usize, out: *mut u8, out_len: usize) -> Reply;)*
        }

        $(
            #[inline]
            pub(crate) fn $name(encoded: &[u8], out: &mut [u8]) -> Result<$answer, Error> {
                // SAFETY: each pointer and length are those of one slice; the one written is borrowed mutably, so they
                // don't overlap.
                unsafe { $symbol(encoded.as_ptr(), encoded.len(), out.as_mut_ptr(), out.len()) }.$result()
            }
        )*
    };
}

of_one_type! {
    lz_is_nested is_nested
    lz_is_known is_known
    lz_is_logical is_logical
    lz_is_primitive is_primitive
    lz_is_primitive_numeric is_primitive_numeric
    lz_is_temporal is_temporal
    lz_is_float is_float
    lz_is_integer is_integer
    lz_is_signed_integer is_signed_integer
    lz_is_unsigned_integer is_unsigned_integer
    lz_is_string is_string
    lz_is_unknown is_unknown
    lz_contains_unknown contains_unknown
    lz_contains_list_recursive contains_list_recursive
}

of_two_types! {
    lz_equal equal bool, yes_or_no;
    lz_contains_dtype_recursive contains_dtype_recursive bool, yes_or_no;
    lz_can_cast_to can_cast_to Option<bool>, verdict;
}

to_a_type! {
    lz_inner_dtype inner_dtype Option<usize>, written;
    lz_leaf_dtype leaf_dtype usize, always_written;
    lz_array_leaf_dtype array_leaf_dtype Option<usize>, written;
    lz_to_physical to_physical usize, always_written;
}

extern "C" {
    fn lz_get_shape(encoded: *const u8, encoded_len: usize) -> ShapeReply;
    fn lz_materialize_unknown(
        encoded: *const u8,
        encoded_len: usize,
        allow_unknown: u8,
        out: *mut u8,
        out_len: usize,
    ) -> Reply;
}

#[inline]
pub(crate) fn get_shape(encoded: &[u8]) -> Result<Option<Shape>, Error> {
    // SAFETY: pointer and length are those of one slice, which is only read.
    unsafe { lz_get_shape(encoded.as_ptr(), encoded.len()) }.result()
}

/// `allow_unknown` is off where it is 0 and else on.
#[inline]
pub(crate) fn materialize_unknown(encoded: &[u8], allow_unknown: u8, out: &mut [u8]) -> Result<usize, Error> {
    // SAFETY: each pointer and length are those of one slice; the one written is borrowed mutably, so they don't overlap.
    unsafe { lz_materialize_unknown(encoded.as_ptr(), encoded.len(), allow_unknown, out.as_mut_ptr(), out.len()) }
        .always_written()
}

#[cfg(test)]
mod tests {
    use super::*;
    use std::ptr::{null, null_mut};

    /// The unknown type `any`.
    const ANY: [u8; 11] = [1, 0, 23, 0, 0, 0, 0, 0, 0, 0, 0];

    #[test]
    fn null_pointers_of_length_0_are_empty_slices() {
        // SAFETY: every null pointer comes with length 0.
        let replies = unsafe {
            [
                lz_is_known(null(), 0),
                lz_equal(null(), 0, null(), 0),
                lz_can_cast_to(null(), 0, ANY.as_ptr(), ANY.len()),
                lz_can_cast_to(ANY.as_ptr(), ANY.len(), null(), 0),
                lz_leaf_dtype(null(), 0, null_mut(), 0),
                lz_materialize_unknown(null(), 0, 1, null_mut(), 0),
            ]
        };
        assert!(replies.iter().all(|reply| (reply.number, reply.value) == (1, 0)), "{replies:?}");
        // SAFETY: every null pointer comes with length 0.
        let short = unsafe { lz_to_physical(ANY.as_ptr(), ANY.len(), null_mut(), 0) };
        assert_eq!((short.number, short.value), (8, 0));
        // SAFETY: the null pointer comes with length 0.
        let shape = unsafe { lz_get_shape(null(), 0) };
        assert_eq!((shape.number, shape.count, shape.widths), (1, 0, [0; Shape::MOST]));
    }

    #[test]
    fn a_flag_is_off_at_0_and_on_at_every_other_byte() {
        for allow_unknown in 0..=u8::MAX {
            let mut out = [9; 12];
            let answer = materialize_unknown(&ANY, allow_unknown, &mut out);
            if allow_unknown == 0 {
                assert_eq!((answer, out), (Err(Error::Unknown), [9; 12]));
            } else {
                assert_eq!((answer, &out[..11], out[11]), (Ok(11), &ANY[..], 9));
            }
        }
    }
}
