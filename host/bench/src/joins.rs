//! The rules that join two types, on types of one node, beside the crate's own text.
//!
//! Each is timed as those of `rules` are, from bytes and from what either keeps a type in; where there is no result, none
//! is made. A time is that of one pair, over all pairs of the set in turn.

use crate::rows::{Row, BYTES, CRATE, FLAT};
use crate::timing::{best_of_each, Times};
use lomzegash::kind::*;
use oracle::Type;
use std::hint::black_box;
use trials::flat::Flat;
use trials::joins::{supertype, Join};

/// A rule of the crate.
type OfCrate = fn(&Type, &Type) -> Option<Type>;

/// Times a rule from one form of these pairs.
type Time = fn(Join, OfCrate, &[Pair]) -> Times;

/// A rule by its name, of the port and of the crate.
type Rule = (&'static str, Join, OfCrate);

/// Both rules, the supertype with the source's own default of its flags.
const RULES: [Rule; 2] = [
    ("supertype", supertype(false, true), |l, r| l.get_supertype_with_options(r, false, true)),
    ("lossless upcast", Join::Lossless, Type::get_numeric_upcast_supertype_lossless),
];

/// Pairs by their name.
type Set = (&'static str, Vec<Pair>);

/// Both rules from either form on every set of pairs; a Decimal has no lossless upcast.
pub fn rows() -> Vec<Row> {
    let sets = [
        ("Int32 with UInt64", vec![Pair::new((INT32, 0), (UINT64, 0))]),
        ("every two kinds of leaves", every_two_kinds()),
        ("Decimal with integers", decimal_with_integers()),
    ];
    let [supertype, lossless] = RULES;
    [rows_of(supertype, &sets), rows_of(lossless, &sets[..2])].into_iter().flatten().collect()
}

/// A rule from either form on these sets.
fn rows_of((call, join, crates): Rule, sets: &[Set]) -> Vec<Row> {
    let mut rows = vec![];
    for (form, time) in [(BYTES, from_bytes as Time), (FLAT, from_kept)] {
        for (input, pairs) in sets {
            rows.push(Row { call, form, input, nodes: 1, beside: CRATE, times: time(join, crates, pairs) });
        }
    }
    rows
}

/// Two types of one node, in every form that is timed.
struct Pair {
    flat: [Flat; 2],
    bytes: [Vec<u8>; 2],
    ready: [Type; 2],
}

impl Pair {
    fn new(left: (u8, u64), right: (u8, u64)) -> Pair {
        let flat = [left, right].map(|leaf| Flat::new(&[leaf]));
        let bytes = flat.each_ref().map(Flat::laid_out);
        let ready = bytes.each_ref().map(|bytes| Type::decode(bytes));
        Pair { flat, bytes, ready }
    }
}

/// Every two kinds that have no child, but for a Decimal with an integer type, which have rows of their own.
fn every_two_kinds() -> Vec<Pair> {
    let is_apart = |l: u8, r: u8| l == DECIMAL && (UINT8..=INT128).contains(&r);
    let kinds = || NULL..=UNKNOWN_INT_NEG;
    let pairs = kinds().flat_map(|l| kinds().map(move |r| (l, r)));
    let pairs = pairs.filter(|&(l, r)| !is_apart(l, r) && !is_apart(r, l));
    pairs.map(|(l, r)| Pair::new((l, argument(l)), (r, argument(r)))).collect()
}

/// A Decimal with each integer type, in either order: it stays beside four of them.
fn decimal_with_integers() -> Vec<Pair> {
    let decimal = (DECIMAL, argument(DECIMAL));
    let pairs = (UINT8..=INT128).flat_map(|kind| [(decimal, (kind, 0)), ((kind, 0), decimal)]);
    pairs.map(|(left, right)| Pair::new(left, right)).collect()
}

/// An ordinary argument.
fn argument(kind: u8) -> u64 {
    match kind {
        DECIMAL => 256 * 2 + 10,
        DATETIME => 4 * 3 + 1,
        DURATION => 2,
        UNKNOWN_INT_POS => 300,
        _ => 0,
    }
}

fn from_bytes(join: Join, crates: OfCrate, pairs: &[Pair]) -> Times {
    let mut out = [0; 11];
    best_of_each(
        pairs.len(),
        || pairs.iter().all(|Pair { bytes: [l, r], .. }| join.on_bytes(black_box(l), black_box(r), &mut out).is_ok()),
        || {
            pairs.iter().for_each(|Pair { bytes: [l, r], .. }| {
                let dtype = crates(&Type::decode(black_box(l)), &Type::decode(black_box(r)));
                black_box(dtype.map(|dtype| dtype.encode()));
            });
            true
        },
    )
}

fn from_kept(join: Join, crates: OfCrate, pairs: &[Pair]) -> Times {
    let (mut kinds, mut args) = ([0; 1], [0; 1]);
    best_of_each(
        pairs.len(),
        || {
            pairs.iter().all(|Pair { flat: [l, r], .. }| {
                join.on_nodes(black_box(l).parts(), black_box(r).parts(), (&mut kinds, &mut args)).is_ok()
            })
        },
        || {
            pairs.iter().for_each(|Pair { ready: [l, r], .. }| {
                black_box(crates(black_box(l), black_box(r)));
            });
            true
        },
    )
}
