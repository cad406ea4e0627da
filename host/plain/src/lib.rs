//! Document 01's rules for flat types, stored sheets, inner types and the season record, in plain Rust, the last with
//! what change request One makes of it; change request Two's Decimals beside integer types; and change request Three's
//! nested arms of supertype.rs.
//!
//! Written from the documents and the source alone, with limits, codes and refusals of its own: the tests compare the
//! proved code with it, and the benchmark times the two side by side.

#![forbid(unsafe_code)]
#![deny(missing_docs)]

pub mod by_kinds;
pub mod channels;
pub mod decimals;
pub mod inner;
pub mod nested;
pub mod sheet;
pub mod tree;

use sheet::{Argument, StoredArgument};

const MAX_NODES: usize = 512;
const MAX_DEPTH: usize = 32;

const DECIMAL: u8 = 15;
const DATETIME: u8 = 20;
const DURATION: u8 = 21;
const DYN_NONNEGATIVE: u8 = 26;
const DYN_NEGATIVE: u8 = 27;
const LIST: u8 = 28;
const ARRAY: u8 = 29;
const STRUCT: u8 = 30;
const FIELD: u8 = 31;

/// Why a call is turned down; the discriminant is the number.
#[derive(Debug, Clone, Copy, PartialEq, Eq)]
pub enum Refusal {
    /// No node, over 512, lengths that differ, or a stored length that doesn't match.
    Length = 1,
    /// Kind above 31.
    Kind = 2,
    /// Argument outside its rule.
    Argument = 3,
    /// Nodes don't form exactly one type.
    Shape = 4,
    /// Depth over 32.
    Depth = 5,
    /// An output array shorter than the result.
    Output = 8,
    /// Channel 32 or more.
    Channel = 9,
    /// The addressed channel holds neither 0 nor 2 to 11.
    ChannelCode = 10,
    /// The offered type is neither Null nor an integer code 2 to 11.
    NotInteger = 11,
    /// Held and offered are unequal integers whose upcast is None.
    NoUpcast = 12,
}

/// Checks a flat type.
pub fn check(kinds: &[u8], args: &[u64]) -> Result<(), Refusal> {
    if kinds.len() != args.len() || !(1..=MAX_NODES).contains(&kinds.len()) {
        return Err(Refusal::Length);
    }
    check_nodes(kinds, args)
}

/// Checks a stored sheet.
pub fn check_encoded(encoded: &[u8]) -> Result<(), Refusal> {
    let (kinds, args) = split(encoded).ok_or(Refusal::Length)?;
    check_nodes(kinds, args)
}

/// Reads a stored sheet into two arrays and gives its number of nodes.
pub fn decode(encoded: &[u8], kinds: &mut [u8], args: &mut [u64]) -> Result<usize, Refusal> {
    let (from_kinds, from_args) = split(encoded).ok_or(Refusal::Length)?;
    check_nodes(from_kinds, from_args)?;
    let nodes = from_kinds.len();
    let (Some(kinds), Some(args)) = (kinds.get_mut(..nodes), args.get_mut(..nodes)) else {
        return Err(Refusal::Output);
    };
    kinds.copy_from_slice(from_kinds);
    for (arg, from) in args.iter_mut().zip(from_args) {
        *arg = from.value();
    }
    Ok(nodes)
}

/// Writes a flat type as a stored sheet and gives its length.
pub fn encode(kinds: &[u8], args: &[u64], out: &mut [u8]) -> Result<usize, Refusal> {
    check(kinds, args)?;
    let len = sheet::len(kinds, args);
    sheet::write(kinds, args, out.get_mut(..len).ok_or(Refusal::Output)?);
    Ok(len)
}

/// The kinds and arguments of a stored sheet whose length is right.
fn split(encoded: &[u8]) -> Option<(&[u8], &[StoredArgument])> {
    sheet::split(encoded).filter(|(kinds, _)| (1..=MAX_NODES).contains(&kinds.len()))
}

/// Refusals 2 to 5 of as many kinds as arguments. Each looks at all nodes before the next.
fn check_nodes<A: Argument>(kinds: &[u8], args: &[A]) -> Result<(), Refusal> {
    if kinds.iter().fold(0, |most, &kind| most.max(kind)) > FIELD {
        return Err(Refusal::Kind);
    }
    if !kinds.iter().zip(args).all(|(&kind, arg)| fits(kind, arg.value())) {
        return Err(Refusal::Argument);
    }
    let (end, depth) = whole_type(kinds, args, 0, 0).ok_or(Refusal::Shape)?;
    if end < kinds.len() {
        return Err(Refusal::Shape);
    }
    if depth > MAX_DEPTH {
        return Err(Refusal::Depth);
    }
    Ok(())
}

/// The largest argument of each kind.
const LARGEST: [u64; 32] = {
    let mut largest = [0; 32];
    largest[DECIMAL as usize] = 256 * 38 + 38;
    largest[DATETIME as usize] = 4 * ((1 << 32) - 1) + 2;
    largest[DURATION as usize] = 2;
    largest[DYN_NONNEGATIVE as usize] = u64::MAX;
    largest[DYN_NEGATIVE as usize] = u64::MAX;
    largest[ARRAY as usize] = u64::MAX;
    largest[STRUCT as usize] = 255;
    largest[FIELD as usize] = (1 << 32) - 1;
    largest
};

/// Whether an argument keeps its kind's rule.
fn fits(kind: u8, arg: u64) -> bool {
    arg <= LARGEST[usize::from(kind)]
        && match kind {
            DECIMAL => (1..=38).contains(&(arg % 256)) && arg / 256 <= arg % 256,
            DATETIME => arg % 4 <= 2,
            _ => true,
        }
}

/// Passes over the type at node `at`, which has `depth` nodes above it. Gives the place behind it and the largest depth
/// in it, or None where the nodes end too early, a Struct's child is no field or a field stands elsewhere.
fn whole_type<A: Argument>(kinds: &[u8], args: &[A], mut at: usize, mut depth: usize) -> Option<(usize, usize)> {
    loop {
        let kind = *kinds.get(at)?;
        match kind {
            LIST | ARRAY => {
                at += 1;
                depth += 1;
            }
            STRUCT => return fields(kinds, args, at, depth),
            FIELD => return None,
            _ => return Some((at + 1, depth)),
        }
    }
}

/// The same for the Struct at node `at`.
fn fields<A: Argument>(kinds: &[u8], args: &[A], at: usize, depth: usize) -> Option<(usize, usize)> {
    let (mut next, mut deepest) = (at + 1, depth);
    for _ in 0..args[at].value() {
        if *kinds.get(next)? != FIELD {
            return None;
        }
        let (end, depth) = whole_type(kinds, args, next + 1, depth + 2)?;
        next = end;
        deepest = deepest.max(depth);
    }
    Some((next, deepest))
}
