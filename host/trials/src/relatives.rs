//! Types that are nearly another one.

use crate::arguments;
use crate::flat::Flat;
use crate::grow::{grow, LEAST_ROOM, LEAVES};
use crate::random::Random;
use lomzegash::kind::*;

/// A way to change a type into a near one. Where the type has no place for it, nothing changes. A type that grows may
/// pass a limit.
pub type Change = fn(&mut Flat, &mut Random);

/// Every way to change a type.
pub const CHANGES: [Change; 10] = [
    other_leaf,
    other_name,
    other_width,
    other_dyn,
    other_argument,
    other_wrap,
    one_field_less,
    one_field_more,
    other_part,
    one_list_more,
];

/// The types that casts between numbers connect.
const NUMERIC: [u8; 16] = [
    UINT8,
    UINT16,
    UINT32,
    UINT64,
    UINT128,
    INT8,
    INT16,
    INT32,
    INT64,
    INT128,
    FLOAT16,
    FLOAT32,
    FLOAT64,
    UNKNOWN_FLOAT,
    UNKNOWN_INT_POS,
    UNKNOWN_INT_NEG,
];

/// A type to which `from` casts, but for what the crate has no verdict on: many leaves and names are others.
pub fn castable(from: &Flat, random: &mut Random) -> Flat {
    let mut to = Flat::default();
    let share = random.pick(&[5, 30, 80]);
    for (&kind, &arg) in from.kinds.iter().zip(&from.args) {
        if !random.chance(share) {
            to.push(kind, arg);
        } else if kind == FIELD {
            push_node(&mut to, FIELD, random);
        } else if kind == NULL {
            to.extend(&small(random));
        } else if (kind, arg) == (STRUCT, 0) {
            to.extend(&Flat::wide_struct(random.below(4)));
        } else if NUMERIC.contains(&kind) {
            let kind = random.pick(&NUMERIC);
            push_node(&mut to, kind, random);
        } else {
            to.push(kind, arg);
        }
    }
    to
}

/// A part of a type.
pub fn part(flat: &Flat, random: &mut Random) -> Flat {
    let at = place(flat, random, |kind, _| kind != FIELD).expect("a type has a root");
    let end = end_of(flat, at);
    Flat { kinds: flat.kinds[at..end].to_vec(), args: flat.args[at..end].to_vec() }
}

/// A type of a few nodes.
fn small(random: &mut Random) -> Flat {
    let size = random.between(1, 6);
    grow(random, size, LEAST_ROOM).flat
}

fn push_node(flat: &mut Flat, kind: u8, random: &mut Random) {
    flat.push(kind, arguments::valid(kind, random));
}

/// Some node of which `fits` holds.
fn place(flat: &Flat, random: &mut Random, fits: impl Fn(u8, u64) -> bool) -> Option<usize> {
    let nodes = flat.kinds.len();
    let start = random.below(nodes);
    (start..nodes).chain(0..start).find(|&at| fits(flat.kinds[at], flat.args[at]))
}

/// The place behind the type or field at node `at`.
fn end_of(flat: &Flat, at: usize) -> usize {
    let (mut end, mut open) = (at, 1);
    while open > 0 {
        open -= 1;
        open += match flat.kinds[end] {
            LIST | ARRAY | FIELD => 1,
            STRUCT => flat.args[end],
            _ => 0,
        };
        end += 1;
    }
    end
}

/// Puts `nodes` in the place of those from `at` to `end`.
fn replace(flat: &mut Flat, at: usize, end: usize, nodes: &Flat) {
    flat.kinds.splice(at..end, nodes.kinds.iter().copied());
    flat.args.splice(at..end, nodes.args.iter().copied());
}

fn other_leaf(flat: &mut Flat, random: &mut Random) {
    if let Some(at) = place(flat, random, |kind, arg| kind < LIST || (kind, arg) == (STRUCT, 0)) {
        flat.kinds[at] = random.pick(&LEAVES);
        flat.args[at] = arguments::valid(flat.kinds[at], random);
    }
}

/// Gives some node of these kinds another argument, one bit away at times.
fn other_argument_of(flat: &mut Flat, random: &mut Random, kinds: &[u8]) {
    if let Some(at) = place(flat, random, |kind, _| kinds.contains(&kind)) {
        let kind = flat.kinds[at];
        let near = random.chance(50);
        flat.args[at] =
            if near { arguments::nearest(kind, flat.args[at], random) } else { arguments::valid(kind, random) };
    }
}

fn other_name(flat: &mut Flat, random: &mut Random) {
    other_argument_of(flat, random, &[FIELD]);
}

fn other_width(flat: &mut Flat, random: &mut Random) {
    other_argument_of(flat, random, &[ARRAY]);
}

fn other_argument(flat: &mut Flat, random: &mut Random) {
    other_argument_of(flat, random, &[DECIMAL, DATETIME, DURATION]);
}

/// The sign may change too.
fn other_dyn(flat: &mut Flat, random: &mut Random) {
    let dyns = [UNKNOWN_INT_POS, UNKNOWN_INT_NEG];
    if let Some(at) = place(flat, random, |kind, _| dyns.contains(&kind)) {
        flat.kinds[at] = random.pick(&dyns);
        flat.args[at] = arguments::valid(flat.kinds[at], random);
    }
}

fn other_wrap(flat: &mut Flat, random: &mut Random) {
    if let Some(at) = place(flat, random, |kind, _| kind == LIST || kind == ARRAY) {
        let (kind, arg) = if flat.kinds[at] == LIST { (ARRAY, 1) } else { (LIST, 0) };
        flat.kinds[at] = kind;
        flat.args[at] = arg;
    }
}

/// Takes the first field of some Struct away.
fn one_field_less(flat: &mut Flat, random: &mut Random) {
    if let Some(at) = place(flat, random, |kind, arg| kind == STRUCT && arg > 0) {
        let end = end_of(flat, at + 1);
        replace(flat, at + 1, end, &Flat::default());
        flat.args[at] -= 1;
    }
}

fn one_field_more(flat: &mut Flat, random: &mut Random) {
    if let Some(at) = place(flat, random, |kind, arg| kind == STRUCT && arg < 255) {
        let mut field = Flat::default();
        push_node(&mut field, FIELD, random);
        field.extend(&small(random));
        replace(flat, at + 1, at + 1, &field);
        flat.args[at] += 1;
    }
}

fn other_part(flat: &mut Flat, random: &mut Random) {
    if let Some(at) = place(flat, random, |kind, _| kind != FIELD) {
        let end = end_of(flat, at);
        replace(flat, at, end, &small(random));
    }
}

fn one_list_more(flat: &mut Flat, random: &mut Random) {
    if let Some(at) = place(flat, random, |kind, _| kind != FIELD) {
        replace(flat, at, at, &Flat::new(&[(LIST, 0)]));
    }
}
