//! Flat types and encoded types, checked, decoded and encoded by proved code, and the type rules of polars-core 0.55.2
//! on encoded types: [`dtype`], [`supertype`] and [`time_unit`]; some of them on flat types too: [`flat`]. [`ChannelTypes`]
//! keeps for each channel the type that holds every number of the columns merged into it.
//!
//! A *flat type* is a type as a tree in preorder: two slices of equal length, one kind ([`kind`]) and one argument for
//! each node. An *encoded type* (a stored sheet, in the rules) is the same in bytes: the number of nodes n (2 bytes, low
//! byte first), n kinds, then n arguments of 8 bytes each, low byte first: 2 + 9 × n bytes.
//!
//! Arguments: Decimal has 256 × scale + precision; Datetime 4 × zone + unit, zone 0 for none; Duration the unit (0 ns,
//! 1 µs, 2 ms); Unknown(Int(v)) has v, or −1 − v where v is below zero; Array the width, Struct the number of its
//! fields, field a name's number. All others have 0. List, Array and field have one child; a Struct's children are its
//! fields.
//!
//! Any input gets an answer or an [`Error`], and a refused call writes nothing. No call needs more than 16384 bytes of stack,
//! whatever the arrays say.
//!
//! ```
//! use lomzegash::kind::{INT16, LIST};
//!
//! let mut encoded = [0; 20];
//! assert_eq!(lomzegash::encode(&[LIST, INT16], &[0, 0], &mut encoded), Ok(20));
//! assert_eq!(encoded[..4], [0x02, 0x00, 0x1C, 0x08]);
//! assert_eq!(encoded[4..], [0; 16]);
//! ```

#![deny(missing_docs, unsafe_code)]

mod channels;
pub mod dtype;
mod error;
#[allow(unsafe_code)]
mod ffi;
pub mod flat;
pub mod kind;
mod shape;
pub mod supertype;
pub mod time_unit;

pub use channels::ChannelTypes;
pub use error::Error;
pub use shape::Shape;

/// Checks an encoded type. Refused by [`Error::Length`] to [`Error::Depth`], numbers 1 to 5.
///
/// ```
/// // List(Int16)
/// let mut encoded = [0; 20];
/// encoded[..4].copy_from_slice(&[0x02, 0x00, 0x1C, 0x08]);
/// assert_eq!(lomzegash::check(&encoded), Ok(()));
/// assert_eq!(lomzegash::check(&encoded[..19]), Err(lomzegash::Error::Length));
/// ```
#[inline]
pub fn check(encoded: &[u8]) -> Result<(), Error> {
    ffi::check(encoded)
}

/// Decodes an encoded type into `kinds` and `args` and gives its number of nodes n.
///
/// The first n elements of each output are written; the others keep what they held. Refused by numbers 1 to 5, then by
/// [`Error::OutputTooShort`] where either output is shorter than n.
///
/// ```
/// let mut encoded = [0; 20];
/// encoded[..4].copy_from_slice(&[0x02, 0x00, 0x1C, 0x08]);
/// let (mut kinds, mut args) = ([9; 3], [9; 3]);
/// assert_eq!(lomzegash::decode(&encoded, &mut kinds, &mut args), Ok(2));
/// assert_eq!((kinds, args), ([28, 8, 9], [0, 0, 9]));
/// ```
#[inline]
pub fn decode(encoded: &[u8], kinds: &mut [u8], args: &mut [u64]) -> Result<usize, Error> {
    ffi::decode(encoded, kinds, args)
}

/// Encodes a flat type into `out` and gives the number of bytes written, [`encoded_len`] of its number of nodes.
///
/// The other bytes of `out` keep what they held. Refused by numbers 1 to 5, then by [`Error::OutputTooShort`].
///
/// ```
/// let mut out = [9; 21];
/// assert_eq!(lomzegash::encode(&[28, 8], &[0, 0], &mut out), Ok(20));
/// assert_eq!(out[..4], [0x02, 0x00, 0x1C, 0x08]);
/// assert_eq!(out[20], 9);
/// assert_eq!(lomzegash::encode(&[28], &[0], &mut out), Err(lomzegash::Error::Shape));
/// ```
#[inline]
pub fn encode(kinds: &[u8], args: &[u64], out: &mut [u8]) -> Result<usize, Error> {
    ffi::encode(kinds, args, out)
}

/// The number of bytes in which a type of so many nodes is encoded.
///
/// ```
/// assert_eq!(lomzegash::encoded_len(2), 20);
/// ```
pub const fn encoded_len(nodes: usize) -> usize {
    nodes.saturating_mul(9).saturating_add(2)
}

/// Decodes an encoded type into new kinds and arguments. Refused by numbers 1 to 5.
///
/// ```
/// let mut encoded = [0; 20];
/// encoded[..4].copy_from_slice(&[0x02, 0x00, 0x1C, 0x08]);
/// assert_eq!(lomzegash::decode_to_vec(&encoded), Ok((vec![28, 8], vec![0, 0])));
/// ```
#[inline]
pub fn decode_to_vec(encoded: &[u8]) -> Result<(Vec<u8>, Vec<u64>), Error> {
    // Nine bytes a node: no encoded type of this length has more nodes.
    let room = encoded.len() / 9;
    let (mut kinds, mut args) = (vec![0; room], vec![0; room]);
    let nodes = decode(encoded, &mut kinds, &mut args)?;
    kinds.truncate(nodes);
    args.truncate(nodes);
    Ok((kinds, args))
}

/// Encodes a flat type into new bytes. Refused by numbers 1 to 5.
///
/// ```
/// let encoded = lomzegash::encode_to_vec(&[28, 8], &[0, 0])?;
/// assert_eq!(encoded[..4], [0x02, 0x00, 0x1C, 0x08]);
/// assert_eq!(encoded.len(), 20);
/// # Ok::<(), lomzegash::Error>(())
/// ```
#[inline]
pub fn encode_to_vec(kinds: &[u8], args: &[u64]) -> Result<Vec<u8>, Error> {
    let mut encoded = vec![0; encoded_len(kinds.len())];
    let written = encode(kinds, args, &mut encoded)?;
    encoded.truncate(written);
    Ok(encoded)
}
