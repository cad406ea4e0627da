//! What merges a column's type into a channel.

use super::reply::{Reply, TypesReply};
use crate::flat::Nodes;
use crate::{ChannelTypes, Error};

extern "C" {
    fn lz_channel_merge(codes: *mut u8, channel: usize, column: *const u8, column_len: usize) -> Reply;
    fn lz_flat_channel_merge(
        types: *mut ChannelTypes,
        channel: usize,
        kinds: *const u8,
        kinds_len: usize,
        args: *const u64,
        args_len: usize,
    ) -> Reply;
    fn lz_flat_channel_merged(
        types: ChannelTypes,
        channel: usize,
        kinds: *const u8,
        kinds_len: usize,
        args: *const u64,
        args_len: usize,
    ) -> TypesReply;
}

#[inline]
pub(crate) fn merge(codes: &mut [u8; ChannelTypes::CHANNELS], channel: usize, column: &[u8]) -> Result<u8, Error> {
    // SAFETY: there are as many codes as the interface has channels, borrowed mutably, so nothing overlaps them; pointer
    // and length are those of one slice, which is only read.
    unsafe { lz_channel_merge(codes.as_mut_ptr(), channel, column.as_ptr(), column.len()) }.code()
}

#[inline]
pub(crate) fn flat_merge(types: &mut ChannelTypes, channel: usize, (kinds, args): Nodes) -> Result<u8, Error> {
    // SAFETY: the types have the interface's layout and are borrowed mutably, so nothing overlaps them; each pointer and
    // length are those of one slice, which is only read.
    unsafe { lz_flat_channel_merge(types, channel, kinds.as_ptr(), kinds.len(), args.as_ptr(), args.len()) }.code()
}

#[inline]
pub(crate) fn flat_merged(
    types: ChannelTypes,
    channel: usize,
    (kinds, args): Nodes,
) -> (Result<u8, Error>, ChannelTypes) {
    // SAFETY: each pointer and length are those of one slice, which is only read.
    unsafe { lz_flat_channel_merged(types, channel, kinds.as_ptr(), kinds.len(), args.as_ptr(), args.len()) }.parts()
}

#[cfg(test)]
mod tests {
    use super::*;
    use std::ptr::null;

    const INT8: [u8; 11] = [1, 0, 7, 0, 0, 0, 0, 0, 0, 0, 0];

    #[test]
    fn null_pointers_of_length_0_are_empty_slices() {
        let before = ChannelTypes::from_codes([3; ChannelTypes::CHANNELS]);
        let (mut types, kind, zero) = (before, [INT8[2]], [0]);
        let (kind, arg) = (kind.as_ptr(), zero.as_ptr());
        // SAFETY: every null pointer comes with length 0, every other one of a column with 1, and there are as many codes
        // as channels.
        let (lent, by_value) = unsafe {
            let lent = [
                lz_channel_merge(types.codes.as_mut_ptr(), 0, null(), 0),
                lz_flat_channel_merge(&mut types, 0, null(), 0, null(), 0),
                lz_flat_channel_merge(&mut types, 0, null(), 0, arg, 1),
                lz_flat_channel_merge(&mut types, 0, kind, 1, null(), 0),
            ];
            let by_value = [
                lz_flat_channel_merged(before, 0, null(), 0, null(), 0),
                lz_flat_channel_merged(before, 0, null(), 0, arg, 1),
                lz_flat_channel_merged(before, 0, kind, 1, null(), 0),
            ];
            (lent, by_value)
        };
        assert_eq!(types, before);
        for reply in lent {
            assert_eq!((reply.number, reply.value), (1, 0));
        }
        for TypesReply { reply, types } in by_value {
            assert_eq!((reply.number, reply.value, types), (1, 0, before));
        }
    }

    #[test]
    fn each_channel_has_its_own_byte() {
        for channel in 0..ChannelTypes::CHANNELS {
            let mut expected = [0; ChannelTypes::CHANNELS];
            expected[channel] = INT8[2];
            let mut codes = [0; ChannelTypes::CHANNELS];
            assert_eq!((merge(&mut codes, channel, &INT8), codes), (Ok(INT8[2]), expected));
            let (expected, column): (_, Nodes) = (ChannelTypes::from_codes(expected), (&INT8[2..3], &[0]));
            let mut types = ChannelTypes::new();
            assert_eq!((flat_merge(&mut types, channel, column), types), (Ok(INT8[2]), expected));
            assert_eq!(flat_merged(ChannelTypes::new(), channel, column), (Ok(INT8[2]), expected));
        }
    }
}
