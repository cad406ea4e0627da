//! The rules of the port, beside the crate's own text.
//!
//! Each is timed twice. From bytes: the crate's text reads them into its own types, is called, and writes the result as
//! bytes; to read bytes is also to make the texts of the names, which the port keeps as numbers. And from what either
//! keeps a type in: the port from flat types, which it checks at every call, and the crate's text from its `DataType`,
//! which is a type by construction.

use crate::rows::{Call, BYTES, CRATE, FLAT};
use crate::timing::{best, Times};
use lomzegash::flat::{self, Nodes, Output};
use lomzegash::kind::*;
use lomzegash::{dtype, Error};
use oracle::Type;
use std::hint::black_box;
use trials::flat::Flat;

/// Every timed call, on a type that is known.
pub const CALLS: [Call; 10] = [
    from_bytes("equal", |of| two_encoded(of, of, dtype::equal, Type::equal)),
    from_kept("equal", |of| two_flat(of, &of.clone(), flat::equal, Type::equal)),
    from_bytes("is_known", known_encoded),
    from_kept("is_known", known_flat),
    from_bytes("can_cast_to", |of| {
        let port = |from: &[u8], to: &[u8]| dtype::can_cast_to(from, to).map(|verdict| verdict == Some(true));
        two_encoded(of, &with_leaves(of, cast), port, casts)
    }),
    from_kept("can_cast_to", |of| {
        let port = |from: Nodes, to: Nodes| flat::can_cast_to(from, to).map(|verdict| verdict == Some(true));
        two_flat(of, &with_leaves(of, cast), port, casts)
    }),
    from_bytes("materialize_unknown", |of| {
        let port = |encoded: &[u8], out: &mut [u8]| dtype::materialize_unknown(encoded, false, out);
        written_encoded(&with_leaves(of, forget), port, materialized)
    }),
    from_kept("materialize_unknown", |of| {
        let port = |nodes: Nodes, out: Output| flat::materialize_unknown(nodes, false, out);
        written_flat(&with_leaves(of, forget), port, materialized)
    }),
    from_bytes("to_physical", |of| written_encoded(of, dtype::to_physical, Type::to_physical)),
    from_kept("to_physical", |of| written_flat(of, flat::to_physical, Type::to_physical)),
];

const fn from_bytes(name: &'static str, time: fn(&Flat) -> Times) -> Call {
    Call { name, form: BYTES, beside: CRATE, time }
}

/// From what either keeps a type in.
const fn from_kept(name: &'static str, time: fn(&Flat) -> Times) -> Call {
    Call { name, form: FLAT, beside: CRATE, time }
}

fn casts(from: &Type, to: &Type) -> bool {
    from.can_cast_to(to) == Some(true)
}

/// The crate's call takes its type, so where the type is ready a clone is a part of it.
fn materialized(dtype: &Type) -> Type {
    dtype.clone().materialize_unknown(false).expect("there is no any")
}

fn known_encoded(flat: &Flat) -> Times {
    let encoded = &flat.laid_out()[..];
    best(|| dtype::is_known(black_box(encoded)) == Ok(true), || Type::decode(black_box(encoded)).is_known())
}

fn known_flat(flat: &Flat) -> Times {
    let ready = Type::decode(&flat.laid_out());
    best(|| flat::is_known(black_box(flat).parts()) == Ok(true), || black_box(&ready).is_known())
}

/// A call that says yes of these two types.
fn two_encoded(
    left: &Flat,
    right: &Flat,
    port: impl Fn(&[u8], &[u8]) -> Result<bool, Error>,
    crates: impl Fn(&Type, &Type) -> bool,
) -> Times {
    let (l, r) = (&left.laid_out()[..], &right.laid_out()[..]);
    best(
        || port(black_box(l), black_box(r)) == Ok(true),
        || crates(&Type::decode(black_box(l)), &Type::decode(black_box(r))),
    )
}

fn two_flat(
    left: &Flat,
    right: &Flat,
    port: impl Fn(Nodes, Nodes) -> Result<bool, Error>,
    crates: impl Fn(&Type, &Type) -> bool,
) -> Times {
    let [l, r] = [left, right].map(|flat| Type::decode(&flat.laid_out()));
    best(
        || port(black_box(left).parts(), black_box(right).parts()) == Ok(true),
        || crates(black_box(&l), black_box(&r)),
    )
}

/// A call that writes a type of as many nodes as it was given.
fn written_encoded(
    flat: &Flat,
    port: impl Fn(&[u8], &mut [u8]) -> Result<usize, Error>,
    crates: impl Fn(&Type) -> Type,
) -> Times {
    let encoded = &flat.laid_out()[..];
    let mut out = encoded.to_vec();
    best(
        || port(black_box(encoded), black_box(&mut out)) == Ok(encoded.len()),
        || crates(&Type::decode(black_box(encoded))).encode().len() == encoded.len(),
    )
}

fn written_flat(
    flat: &Flat,
    port: impl Fn(Nodes, Output) -> Result<usize, Error>,
    crates: impl Fn(&Type) -> Type,
) -> Times {
    let (mut new, ready) = (flat.clone(), Type::decode(&flat.laid_out()));
    best(
        || {
            let new = black_box(&mut new);
            port(black_box(flat).parts(), (&mut new.kinds, &mut new.args)) == Ok(flat.kinds.len())
        },
        || {
            black_box(crates(black_box(&ready)));
            true
        },
    )
}

/// The type with other leaves.
fn with_leaves(flat: &Flat, change: fn(u8) -> u8) -> Flat {
    let mut flat = flat.clone();
    flat.kinds.iter_mut().for_each(|kind| *kind = change(*kind));
    flat
}

/// A kind to which a cast of this one makes sense, another one where it is a number.
fn cast(kind: u8) -> u8 {
    match kind {
        INT32 => INT64,
        INT64 => FLOAT64,
        FLOAT32 | FLOAT64 | UINT32 => INT32,
        _ => kind,
    }
}

/// The kind of a literal, where there is one.
fn forget(kind: u8) -> u8 {
    match kind {
        INT32 | INT64 | UINT32 => UNKNOWN_INT_POS,
        FLOAT32 | FLOAT64 => UNKNOWN_FLOAT,
        STRING => UNKNOWN_STR,
        _ => kind,
    }
}
