//! The rules on flat types.

use super::reply::Reply;
use crate::flat::{Nodes, Output};
use crate::Error;

extern "C" {
    fn lz_flat_is_known(kinds: *const u8, kinds_len: usize, args: *const u64, args_len: usize) -> Reply;
    fn lz_flat_equal(
        left_kinds: *const u8,
        left_kinds_len: usize,
        left_args: *const u64,
        left_args_len: usize,
        right_kinds: *const u8,
        right_kinds_len: usize,
        right_args: *const u64,
        right_args_len: usize,
    ) -> Reply;
    fn lz_flat_can_cast_to(
        from_kinds: *const u8,
        from_kinds_len: usize,
        from_args: *const u64,
        from_args_len: usize,
        to_kinds: *const u8,
        to_kinds_len: usize,
        to_args: *const u64,
        to_args_len: usize,
    ) -> Reply;
    fn lz_flat_materialize_unknown(
        kinds: *const u8,
        kinds_len: usize,
        args: *const u64,
        args_len: usize,
        allow_unknown: u8,
        out_kinds: *mut u8,
        out_kinds_len: usize,
        out_args: *mut u64,
        out_args_len: usize,
    ) -> Reply;
    fn lz_flat_to_physical(
        kinds: *const u8,
        kinds_len: usize,
        args: *const u64,
        args_len: usize,
        out_kinds: *mut u8,
        out_kinds_len: usize,
        out_args: *mut u64,
        out_args_len: usize,
    ) -> Reply;
    fn lz_flat_get_numeric_upcast_supertype_lossless(
        left_kinds: *const u8,
        left_kinds_len: usize,
        left_args: *const u64,
        left_args_len: usize,
        right_kinds: *const u8,
        right_kinds_len: usize,
        right_args: *const u64,
        right_args_len: usize,
        out_kinds: *mut u8,
        out_kinds_len: usize,
        out_args: *mut u64,
        out_args_len: usize,
    ) -> Reply;
    fn lz_flat_get_supertype_with_options(
        left_kinds: *const u8,
        left_kinds_len: usize,
        left_args: *const u64,
        left_args_len: usize,
        right_kinds: *const u8,
        right_kinds_len: usize,
        right_args: *const u64,
        right_args_len: usize,
        allow_implode_list: u8,
        allow_primitive_to_string: u8,
        out_kinds: *mut u8,
        out_kinds_len: usize,
        out_args: *mut u64,
        out_args_len: usize,
    ) -> Reply;
}

macro_rules! to_a_part {
    ($($symbol:ident $name:ident $answer:ty, $result:ident;)*) => {
        extern "C" {
            $(fn $symbol(kinds: *const u8, kinds_len: usize, args: *const u64, args_len: usize) -> Reply;)*
        }

        $(
            #[inline]
            pub(crate) fn $name<'a>((kinds, args): Nodes<'a>) -> Result<$answer, Error> {
                // SAFETY: each pointer and length are those of one slice, which is only read.
                unsafe { $symbol(kinds.as_ptr(), kinds.len(), args.as_ptr(), args.len()) }.$result((kinds, args))
            }
        )*
    };
}

to_a_part! {
    lz_flat_inner_dtype inner_dtype Option<Nodes<'a>>, part;
    lz_flat_leaf_dtype leaf_dtype Nodes<'a>, always_part;
    lz_flat_array_leaf_dtype array_leaf_dtype Option<Nodes<'a>>, part;
}

#[inline]
pub(crate) fn is_known((kinds, args): Nodes) -> Result<bool, Error> {
    // SAFETY: each pointer and length are those of one slice, which is only read.
    unsafe { lz_flat_is_known(kinds.as_ptr(), kinds.len(), args.as_ptr(), args.len()) }.yes_or_no()
}

#[inline]
pub(crate) fn equal((lk, la): Nodes, (rk, ra): Nodes) -> Result<bool, Error> {
    // SAFETY: each pointer and length are those of one slice, which is only read.
    unsafe { lz_flat_equal(lk.as_ptr(), lk.len(), la.as_ptr(), la.len(), rk.as_ptr(), rk.len(), ra.as_ptr(), ra.len()) }
        .yes_or_no()
}

#[inline]
pub(crate) fn can_cast_to((fk, fa): Nodes, (tk, ta): Nodes) -> Result<Option<bool>, Error> {
    // SAFETY: each pointer and length are those of one slice, which is only read.
    unsafe {
        lz_flat_can_cast_to(fk.as_ptr(), fk.len(), fa.as_ptr(), fa.len(), tk.as_ptr(), tk.len(), ta.as_ptr(), ta.len())
    }
    .verdict()
}

/// `allow_unknown` is off where it is 0 and else on.
#[inline]
pub(crate) fn materialize_unknown((kinds, args): Nodes, allow_unknown: u8, (ok, oa): Output) -> Result<usize, Error> {
    // SAFETY: each pointer and length are those of one slice; the two written are borrowed mutably, so none overlap.
    unsafe {
        lz_flat_materialize_unknown(
            kinds.as_ptr(),
            kinds.len(),
            args.as_ptr(),
            args.len(),
            allow_unknown,
            ok.as_mut_ptr(),
            ok.len(),
            oa.as_mut_ptr(),
            oa.len(),
        )
    }
    .always_written()
}

#[inline]
pub(crate) fn to_physical((kinds, args): Nodes, (ok, oa): Output) -> Result<usize, Error> {
    // SAFETY: each pointer and length are those of one slice; the two written are borrowed mutably, so none overlap.
    unsafe {
        lz_flat_to_physical(
            kinds.as_ptr(),
            kinds.len(),
            args.as_ptr(),
            args.len(),
            ok.as_mut_ptr(),
            ok.len(),
            oa.as_mut_ptr(),
            oa.len(),
        )
    }
    .always_written()
}

#[inline]
pub(crate) fn get_numeric_upcast_supertype_lossless(
    (lk, la): Nodes,
    (rk, ra): Nodes,
    (ok, oa): Output,
) -> Result<Option<usize>, Error> {
    // SAFETY: each pointer and length are those of one slice; the two written are borrowed mutably, so none overlap.
    unsafe {
        lz_flat_get_numeric_upcast_supertype_lossless(
            lk.as_ptr(),
            lk.len(),
            la.as_ptr(),
            la.len(),
            rk.as_ptr(),
            rk.len(),
            ra.as_ptr(),
            ra.len(),
            ok.as_mut_ptr(),
            ok.len(),
            oa.as_mut_ptr(),
            oa.len(),
        )
    }
    .written()
}

/// Either flag is off where it is 0 and else on.
#[inline]
pub(crate) fn get_supertype_with_options(
    (lk, la): Nodes,
    (rk, ra): Nodes,
    (allow_implode_list, allow_primitive_to_string): (u8, u8),
    (ok, oa): Output,
) -> Result<Option<usize>, Error> {
    // SAFETY: each pointer and length are those of one slice; the two written are borrowed mutably, so none overlap.
    unsafe {
        lz_flat_get_supertype_with_options(
            lk.as_ptr(),
            lk.len(),
            la.as_ptr(),
            la.len(),
            rk.as_ptr(),
            rk.len(),
            ra.as_ptr(),
            ra.len(),
            allow_implode_list,
            allow_primitive_to_string,
            ok.as_mut_ptr(),
            ok.len(),
            oa.as_mut_ptr(),
            oa.len(),
        )
    }
    .written()
}

#[cfg(test)]
mod tests {
    use super::*;
    use std::ptr::{null, null_mut};

    #[test]
    fn null_pointers_of_length_0_are_empty_slices() {
        let (int8, int16, zero) = ([7], [8], [0]);
        let (l, r, a) = (int8.as_ptr(), int16.as_ptr(), zero.as_ptr());
        let (none, no_args, out, out_args) = (null(), null(), null_mut(), null_mut());
        // SAFETY: every null pointer comes with length 0, and every other one with 1.
        let replies = unsafe {
            [
                lz_flat_get_numeric_upcast_supertype_lossless(none, 0, no_args, 0, r, 1, a, 1, out, 0, out_args, 0),
                lz_flat_get_numeric_upcast_supertype_lossless(l, 1, a, 1, r, 1, no_args, 0, out, 0, out_args, 0),
                lz_flat_get_supertype_with_options(l, 1, a, 1, none, 0, a, 1, 0, 0, out, 0, out_args, 0),
                lz_flat_get_supertype_with_options(l, 1, no_args, 0, r, 1, a, 1, 0, 0, out, 0, out_args, 0),
                lz_flat_get_numeric_upcast_supertype_lossless(l, 1, a, 1, r, 1, a, 1, out, 0, out_args, 0),
                lz_flat_get_supertype_with_options(l, 1, a, 1, r, 1, a, 1, 0, 0, out, 0, out_args, 0),
            ]
        };
        let replies = replies.map(|reply| (reply.number, reply.value));
        assert_eq!(replies, [(1, 0), (1, 0), (1, 0), (1, 0), (8, 0), (8, 0)]);
    }

    #[test]
    fn null_pointers_of_length_0_have_no_part() {
        let (kind, arg) = ([7], [0]);
        for part in [lz_flat_inner_dtype, lz_flat_leaf_dtype, lz_flat_array_leaf_dtype] {
            // SAFETY: every null pointer comes with length 0, and every other one with 1.
            let replies = unsafe {
                [part(null(), 0, null(), 0), part(kind.as_ptr(), 1, null(), 0), part(null(), 0, arg.as_ptr(), 1)]
            };
            assert_eq!(replies.map(|reply| (reply.number, reply.value)), [(1, 0); 3]);
        }
    }

    #[test]
    fn flags_are_off_at_0_and_on_at_every_other_byte() {
        let (any, str, five) = (23, 24, (&[26][..], &[5][..]));
        for implode in [0, 1, u8::MAX] {
            for to_string in 0..=u8::MAX {
                let (mut kinds, mut args) = ([9; 2], [9; 2]);
                let out = (&mut kinds[..], &mut args[..]);
                let answer = get_supertype_with_options((&[str], &[0]), five, (implode, to_string), out);
                let expected = if to_string == 0 { any } else { str };
                assert_eq!((answer, kinds, args), (Ok(Some(1)), [expected, 9], [0, 9]), "{implode} {to_string}");
            }
        }
    }
}
