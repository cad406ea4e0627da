//! The archive's C interface, as include/lomzegash.h declares it, behind safe functions. All unsafe code is here.

pub(crate) mod channels;
pub(crate) mod dtype;
pub(crate) mod flat;
mod reply;
pub(crate) mod supertype;

use crate::Error;
use reply::Reply;

extern "C" {
    fn lz_check(encoded: *const u8, encoded_len: usize) -> Reply;
    fn lz_decode(
        encoded: *const u8,
        encoded_len: usize,
        kinds: *mut u8,
        kinds_len: usize,
        args: *mut u64,
        args_len: usize,
    ) -> Reply;
    fn lz_encode(
        kinds: *const u8,
        kinds_len: usize,
        args: *const u64,
        args_len: usize,
        out: *mut u8,
        out_len: usize,
    ) -> Reply;
    fn lz_get_time_units(left: u8, right: u8) -> Reply;
}

#[inline]
pub(crate) fn check(encoded: &[u8]) -> Result<(), Error> {
    // SAFETY: pointer and length are those of one slice, which is only read.
    unsafe { lz_check(encoded.as_ptr(), encoded.len()) }.nothing()
}

#[inline]
pub(crate) fn decode(encoded: &[u8], kinds: &mut [u8], args: &mut [u64]) -> Result<usize, Error> {
    // SAFETY: each pointer and length are those of one slice; the two written are borrowed mutably, so none overlap.
    unsafe {
        lz_decode(encoded.as_ptr(), encoded.len(), kinds.as_mut_ptr(), kinds.len(), args.as_mut_ptr(), args.len())
    }
    .result()
}

#[inline]
pub(crate) fn encode(kinds: &[u8], args: &[u64], out: &mut [u8]) -> Result<usize, Error> {
    // SAFETY: each pointer and length are those of one slice; the one written is borrowed mutably, so none overlap.
    unsafe { lz_encode(kinds.as_ptr(), kinds.len(), args.as_ptr(), args.len(), out.as_mut_ptr(), out.len()) }.result()
}

#[inline]
pub(crate) fn get_time_units(left: u8, right: u8) -> Result<u8, Error> {
    // SAFETY: there is no pointer, and any two numbers are allowed.
    unsafe { lz_get_time_units(left, right) }.unit()
}

#[cfg(test)]
mod tests {
    use super::*;
    use std::ptr::{null, null_mut};

    const INT8: [u8; 11] = [1, 0, 7, 0, 0, 0, 0, 0, 0, 0, 0];

    fn parts(reply: Reply) -> (u64, u64) {
        (reply.number, reply.value)
    }

    #[test]
    fn null_pointers_of_length_0_are_empty_slices() {
        // SAFETY: every null pointer comes with length 0.
        unsafe {
            assert_eq!(parts(lz_check(null(), 0)), (1, 0));
            assert_eq!(parts(lz_decode(null(), 0, null_mut(), 0, null_mut(), 0)), (1, 0));
            assert_eq!(parts(lz_encode(null(), 0, null(), 0, null_mut(), 0)), (1, 0));
            let (encoded, len) = (INT8.as_ptr(), INT8.len());
            assert_eq!(parts(lz_decode(encoded, len, null_mut(), 0, null_mut(), 0)), (8, 0));
            assert_eq!(parts(lz_encode([7].as_ptr(), 1, [0].as_ptr(), 1, null_mut(), 0)), (8, 0));
            assert_eq!(parts(lz_encode([7].as_ptr(), 1, null(), 0, null_mut(), 0)), (1, 0));
            assert_eq!(parts(lz_encode(null(), 0, [0].as_ptr(), 1, null_mut(), 0)), (1, 0));
        }
    }
}
