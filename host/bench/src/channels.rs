//! Merges of columns into channels, in each form, beside plain Rust of the same rule behind calls like the port's.
//!
//! A time is that of one merge, over a list of them from empty channels.

use crate::rows::{Row, BYTES, PLAIN};
use crate::timing::{best_of_each, Times};
use lomzegash::flat;
use lomzegash::kind::*;
use lomzegash::ChannelTypes;
use plain::by_kinds::{self, Types};
use std::hint::black_box;
use trials::merges::{Column, Merge};
use trials::random::Random;

/// How many merges a list has.
const MERGES: usize = 1024;

/// Integer types of which any two have a common one.
const WIDENING: [u8; 9] = [UINT8, UINT16, UINT32, UINT64, INT8, INT16, INT32, INT64, INT128];

/// Times a form of the call on a list of merges.
type Time = fn(&[Merge]) -> Times;

/// Each form on every list, of whose merges none is refused.
pub fn rows() -> Vec<Row> {
    let half_null = [WIDENING, [NULL; WIDENING.len()]].concat();
    let lists = [
        ("columns of 9 integer types", list(&WIDENING)),
        ("columns of one type", list(&[INT32])),
        ("columns, half of them Null", list(&half_null)),
    ];
    let forms: [(&str, Time); 3] = [("flat by value", by_value), ("flat lent", lent), (BYTES, of_bytes)];
    let mut rows = vec![];
    for (form, time) in forms {
        for (input, merges) in &lists {
            rows.push(Row { call: "merge", form, input, nodes: 1, beside: PLAIN, times: time(merges) });
        }
    }
    rows
}

/// Columns of these kinds, each as often as it is given, at random, into all channels.
fn list(kinds: &[u8]) -> Vec<Merge> {
    let mut random = Random::new(7);
    let mut merge = || {
        let (channel, kind) = (random.below(ChannelTypes::CHANNELS), kinds[random.below(kinds.len())]);
        Merge { channel, column: Column::leaf(kind, 0) }
    };
    (0..MERGES).map(|_| merge()).collect()
}

fn by_value(merges: &[Merge]) -> Times {
    times(
        merges,
        |types, Merge { channel, column }| {
            let answer;
            (answer, *types) = flat::merged(*types, black_box(*channel), black_box(column.flat.parts()));
            answer.is_ok()
        },
        |types, Merge { channel, column }| {
            let (kinds, args) = black_box(column.flat.parts());
            let next = by_kinds::merged(*types, black_box(*channel), kinds, args);
            *types = next.types;
            next.reply.number == 0
        },
    )
}

fn lent(merges: &[Merge]) -> Times {
    times(
        merges,
        |types, Merge { channel, column }| {
            flat::merge(types, black_box(*channel), black_box(column.flat.parts())).is_ok()
        },
        |types, Merge { channel, column }| {
            let (kinds, args) = black_box(column.flat.parts());
            by_kinds::merge(types, black_box(*channel), kinds, args).number == 0
        },
    )
}

fn of_bytes(merges: &[Merge]) -> Times {
    times(
        merges,
        |types, Merge { channel, column }| types.merge(black_box(*channel), black_box(&column.bytes)).is_ok(),
        |types, Merge { channel, column }| {
            by_kinds::merge_encoded(&mut types.codes, black_box(*channel), black_box(&column.bytes)).number == 0
        },
    )
}

/// The times of one merge, of the port and of the plain Rust.
fn times(
    merges: &[Merge],
    port: impl Fn(&mut ChannelTypes, &Merge) -> bool,
    plain: impl Fn(&mut Types, &Merge) -> bool,
) -> Times {
    best_of_each(
        merges.len(),
        || {
            let mut types = ChannelTypes::new();
            merges.iter().all(|merge| port(black_box(&mut types), merge))
        },
        || {
            let mut types = Types { codes: [0; ChannelTypes::CHANNELS] };
            merges.iter().all(|merge| plain(black_box(&mut types), merge))
        },
    )
}
