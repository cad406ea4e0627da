//! The rules of supertype.rs.

use super::reply::Reply;
use crate::supertype::JoinReport;
use crate::Error;

extern "C" {
    fn lz_get_numeric_upcast_supertype_lossless(
        left: *const u8,
        left_len: usize,
        right: *const u8,
        right_len: usize,
        out: *mut u8,
        out_len: usize,
    ) -> Reply;
    fn lz_get_supertype_with_options(
        left: *const u8,
        left_len: usize,
        right: *const u8,
        right_len: usize,
        allow_implode_list: u8,
        allow_primitive_to_string: u8,
        out: *mut u8,
        out_len: usize,
    ) -> Reply;
    fn lz_join_report(left: *const u8, left_len: usize, right: *const u8, right_len: usize) -> Reply;
}

#[inline]
pub(crate) fn get_numeric_upcast_supertype_lossless(
    left: &[u8],
    right: &[u8],
    out: &mut [u8],
) -> Result<Option<usize>, Error> {
    // SAFETY: each pointer and length are those of one slice; the one written is borrowed mutably, so none overlap it.
    unsafe {
        lz_get_numeric_upcast_supertype_lossless(
            left.as_ptr(),
            left.len(),
            right.as_ptr(),
            right.len(),
            out.as_mut_ptr(),
            out.len(),
        )
    }
    .written()
}

/// Either flag is off where it is 0 and else on.
#[inline]
pub(crate) fn get_supertype_with_options(
    left: &[u8],
    right: &[u8],
    (allow_implode_list, allow_primitive_to_string): (u8, u8),
    out: &mut [u8],
) -> Result<Option<usize>, Error> {
    // SAFETY: each pointer and length are those of one slice; the one written is borrowed mutably, so none overlap it.
    unsafe {
        lz_get_supertype_with_options(
            left.as_ptr(),
            left.len(),
            right.as_ptr(),
            right.len(),
            allow_implode_list,
            allow_primitive_to_string,
            out.as_mut_ptr(),
            out.len(),
        )
    }
    .written()
}

#[inline]
pub(crate) fn join_report(left: &[u8], right: &[u8]) -> Result<JoinReport, Error> {
    // SAFETY: each pointer and length are those of one slice, which is only read.
    unsafe { lz_join_report(left.as_ptr(), left.len(), right.as_ptr(), right.len()) }.join_report()
}

#[cfg(test)]
mod tests {
    use super::*;
    use std::ptr::{null, null_mut};

    const INT8: [u8; 11] = [1, 0, 7, 0, 0, 0, 0, 0, 0, 0, 0];
    const INT16: [u8; 11] = [1, 0, 8, 0, 0, 0, 0, 0, 0, 0, 0];
    const ANY: [u8; 11] = [1, 0, 23, 0, 0, 0, 0, 0, 0, 0, 0];
    const STR: [u8; 11] = [1, 0, 24, 0, 0, 0, 0, 0, 0, 0, 0];
    const DYN_5: [u8; 11] = [1, 0, 26, 5, 0, 0, 0, 0, 0, 0, 0];

    #[test]
    fn null_pointers_of_length_0_are_empty_slices() {
        let (int8, int16) = (INT8.as_ptr(), INT16.as_ptr());
        // SAFETY: every null pointer comes with length 0.
        let replies = unsafe {
            [
                lz_get_numeric_upcast_supertype_lossless(null(), 0, null(), 0, null_mut(), 0),
                lz_get_numeric_upcast_supertype_lossless(int8, 11, null(), 0, null_mut(), 0),
                lz_get_supertype_with_options(null(), 0, int8, 11, 0, 0, null_mut(), 0),
                lz_get_supertype_with_options(int8, 11, null(), 0, 1, 1, null_mut(), 0),
                lz_join_report(null(), 0, int8, 11),
                lz_join_report(int8, 11, null(), 0),
            ]
        };
        assert!(replies.iter().all(|reply| (reply.number, reply.value) == (1, 0)), "{replies:?}");
        // SAFETY: every null pointer comes with length 0.
        let short = unsafe {
            [
                lz_get_numeric_upcast_supertype_lossless(int8, 11, int16, 11, null_mut(), 0),
                lz_get_supertype_with_options(int8, 11, int16, 11, 0, 0, null_mut(), 0),
            ]
        };
        assert!(short.iter().all(|reply| (reply.number, reply.value) == (8, 0)), "{short:?}");
        // SAFETY: the null pointer comes with length 0.
        let none = unsafe { lz_get_numeric_upcast_supertype_lossless(int8, 11, int8, 11, null_mut(), 0) };
        assert_eq!((none.number, none.value), (0, 0));
    }

    #[test]
    fn flags_are_off_at_0_and_on_at_every_other_byte() {
        for implode in [0, 1, u8::MAX] {
            for to_string in 0..=u8::MAX {
                let mut out = [9; 12];
                let answer = get_supertype_with_options(&STR, &DYN_5, (implode, to_string), &mut out);
                let expected = if to_string == 0 { ANY } else { STR };
                assert_eq!((answer, &out[..11], out[11]), (Ok(Some(11)), &expected[..], 9), "{implode} {to_string}");
            }
        }
    }
}
