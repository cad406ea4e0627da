//! Merges with the rule of [`crate::channels`] written by kinds, without a search: what the benchmark times merges beside.
//!
//! They are calls as those of the C interface, in arguments and answers, and never a part of their caller.

#![allow(improper_ctypes_definitions)] // a slice passes as a pointer and a length, as it does there

use crate::channels::CHANNELS;
use crate::{check, check_encoded, Refusal};

/// The codes of the integer types: unsigned from 8 to 128 bits, then signed likewise.
const UINT8: u8 = 2;
const UINT128: u8 = 6;
const INT8: u8 = 7;
const INT128: u8 = 11;

/// The code of each channel.
#[repr(C)]
#[derive(Clone, Copy)]
pub struct Types {
    /// Any bytes.
    pub codes: [u8; CHANNELS],
}

/// The answer to a merge.
#[repr(C)]
pub struct Reply {
    /// 0, or the refusal's number.
    pub number: u64,
    /// The code that the channel now holds, or 0.
    pub value: u64,
}

/// The answer beside the types as the call leaves them.
#[repr(C)]
pub struct TypesReply {
    /// The answer.
    pub reply: Reply,
    /// The types.
    pub types: Types,
}

/// Merges a stored sheet into a channel of lent codes.
#[inline(never)]
pub extern "C" fn merge_encoded(codes: &mut [u8; CHANNELS], channel: usize, column: &[u8]) -> Reply {
    reply(check_encoded(column).and_then(|()| merge_kind(codes, channel, column[2])))
}

/// Merges a flat type into a channel of lent types.
#[inline(never)]
pub extern "C" fn merge(types: &mut Types, channel: usize, kinds: &[u8], args: &[u64]) -> Reply {
    reply(check(kinds, args).and_then(|()| merge_kind(&mut types.codes, channel, kinds[0])))
}

/// The same with the types by value.
#[inline(never)]
pub extern "C" fn merged(mut types: Types, channel: usize, kinds: &[u8], args: &[u64]) -> TypesReply {
    let answer = check(kinds, args).and_then(|()| merge_kind(&mut types.codes, channel, kinds[0]));
    TypesReply { reply: reply(answer), types }
}

fn reply(answer: Result<u8, Refusal>) -> Reply {
    match answer {
        Ok(code) => Reply { number: 0, value: code.into() },
        Err(refusal) => Reply { number: refusal as u64, value: 0 },
    }
}

fn merge_kind(codes: &mut [u8; CHANNELS], channel: usize, kind: u8) -> Result<u8, Refusal> {
    let held = codes.get_mut(channel).ok_or(Refusal::Channel)?;
    *held = code_after(*held, kind)?;
    Ok(*held)
}

/// The code that a channel which holds this byte holds after a merge of this kind. 0 is an empty channel's code and
/// Null's kind: with either of them it is the other one.
fn code_after(held: u8, kind: u8) -> Result<u8, Refusal> {
    let is_taken = |code| code == 0 || (UINT8..=INT128).contains(&code);
    if !is_taken(held) {
        return Err(Refusal::ChannelCode);
    }
    if !is_taken(kind) {
        return Err(Refusal::NotInteger);
    }
    let (low, high) = (held.min(kind), held.max(kind));
    match low {
        UINT128 if high != UINT128 => Err(Refusal::NoUpcast),
        UINT8..=UINT128 if high >= INT8 => Ok(high.max(low + 6)),
        _ => Ok(high),
    }
}

#[cfg(test)]
mod tests {
    use super::*;
    use crate::channels;
    use crate::sheet::lay_out;

    #[test]
    fn the_rule_is_that_of_the_search() {
        for held in 0..=u8::MAX {
            for kind in 0..=u8::MAX {
                assert_eq!(code_after(held, kind), channels::merged(held, kind), "{kind} into {held}");
            }
        }
    }

    /// Every kind into a channel that there is and one that there isn't, in each form.
    #[test]
    fn the_calls_merge_and_refuse() {
        for kind in 0..=u8::MAX {
            for channel in [CHANNELS - 1, CHANNELS] {
                let before = [UINT8; CHANNELS];
                let mut after = before;
                let expected = match channels::merge(&mut after, channel, &[kind], &[0]) {
                    Ok(code) => (0, code.into()),
                    Err(refusal) => (refusal as u64, 0),
                };
                let (mut codes, mut types) = (before, Types { codes: before });
                let by_value = merged(types, channel, &[kind], &[0]);
                let replies = [
                    (merge_encoded(&mut codes, channel, &lay_out(&[kind], &[0])), codes),
                    (merge(&mut types, channel, &[kind], &[0]), types.codes),
                    (by_value.reply, by_value.types.codes),
                ];
                for (Reply { number, value }, codes) in replies {
                    assert_eq!(((number, value), codes), (expected, after), "{kind} into {channel}");
                }
            }
        }
    }
}
