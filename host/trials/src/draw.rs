//! Random inputs of the differential runs.

use crate::arguments;
use crate::damage;
use crate::differential::Differential;
use crate::flat::Flat;
use crate::grow::{grow_of, LEAST_ROOM, LEAVES};
use crate::input::Input;
use crate::join_calls::PLACES;
use crate::joins::{Join, JOINS};
use crate::random::Random;
use crate::relatives::{castable, part, CHANGES};
use lomzegash::kind::*;

/// The least and the most nodes of a type, one of these as likely as another: most types are small, since there a
/// difference shows as well and sooner.
const SIZES: [(usize, usize); 16] = [
    (1, 1),
    (1, 1),
    (1, 4),
    (1, 4),
    (1, 4),
    (1, 4),
    (1, 4),
    (2, 12),
    (2, 12),
    (2, 12),
    (2, 12),
    (2, 12),
    (5, 24),
    (5, 24),
    (13, 100),
    (100, 512),
];

/// Leaves that are known and physical: the types of these hold neither what is materialised nor what is logical.
const PHYSICAL: [u8; 19] = [
    NULL,
    BOOLEAN,
    UINT8,
    UINT16,
    UINT32,
    UINT64,
    UINT128,
    INT8,
    INT16,
    INT32,
    INT64,
    INT128,
    FLOAT16,
    FLOAT32,
    FLOAT64,
    STRING,
    BINARY,
    BINARY_OFFSET,
    STRUCT,
];

/// Leaves that materialising or the physical form changes.
const CHANGING: [u8; 9] =
    [DECIMAL, DATE, DATETIME, DURATION, TIME, UNKNOWN_STR, UNKNOWN_FLOAT, UNKNOWN_INT_POS, UNKNOWN_INT_NEG];

/// A valid type of a size as they are drawn.
fn flat(random: &mut Random) -> Flat {
    let (least, most) = random.pick(&SIZES);
    let size = random.between(least, most);
    flat_of(random, size)
}

/// A valid type of `size` nodes, from 1 to 512: with leaves of all kinds, or of fewer, so that a large type can lack one.
pub fn flat_of(random: &mut Random, size: usize) -> Flat {
    let room = random.pick(&[LEAST_ROOM, 8, 16, 32, 32]);
    let leaves = random.pick(&[&LEAVES[..], &PHYSICAL, &CHANGING, &[NULL, STRUCT, INT8, UNKNOWN_INT_POS]]);
    grow_of(random, size, room, leaves).flat
}

/// One round of the long run: every entry point, those of two types four times, the joins of leaves four times more.
pub fn round(differential: &mut Differential, random: &mut Random) {
    differential.one(&input(random));
    for _ in 0..4 {
        let (left, right) = pair(random);
        differential.two(&left, &right);
        join(differential, random, &left, &right);
        join_leaves(differential, random);
    }
    differential.time_units(random.below(5) as u8, random.below(5) as u8);
}

/// One round of the run of joins: both rules on two types of one node, in most cases, and the report.
pub fn join_leaves(differential: &mut Differential, random: &mut Random) {
    let (left, right) = leaf_pair(random);
    let (left, right) = (damaged_at_times(left, random, 2), damaged_at_times(right, random, 2));
    join(differential, random, &left, &right);
}

/// Two types of one node, in most cases.
pub fn leaf_pair(random: &mut Random) -> (Flat, Flat) {
    let (left, right) = leaves(random);
    (nested_at_times(left, random), nested_at_times(right, random))
}

/// Both rules and the report, with some flags and lengths of output.
fn join(differential: &mut Differential, random: &mut Random, left: &Input, right: &Input) {
    let supertype = random.pick(&JOINS[1..]);
    let place = if random.chance(60) { 0 } else { random.below(PLACES) };
    differential.joins(left, right, &[Join::Lossless, supertype], place..place + 1);
}

/// Two types of one node: of any kinds, or of one kind with arguments that are near at times.
fn leaves(random: &mut Random) -> ((u8, u64), (u8, u64)) {
    let left = leaf(random);
    if random.chance(80) {
        return (left, leaf(random));
    }
    let (kind, arg) = left;
    let right = match (kind, random.chance(50)) {
        (DATETIME, true) => arg - arg % 4 + random.below(3) as u64,
        (_, true) => arguments::nearest(kind, arg, random),
        (_, false) => argument(kind, random),
    };
    (left, (kind, right))
}

fn leaf(random: &mut Random) -> (u8, u64) {
    let kind = random.below(LIST as usize) as u8;
    (kind, argument(kind, random))
}

/// An argument that keeps its kind's rule; of Datetimes often a zone that others have.
fn argument(kind: u8, random: &mut Random) -> u64 {
    match kind {
        DATETIME if random.chance(80) => 4 * random.pick(&[0, 1, 2, (1 << 32) - 1]) + random.below(3) as u64,
        _ => arguments::valid(kind, random),
    }
}

/// The type of one node, in four of a hundred cases inside a nested type or exchanged for an empty Struct.
fn nested_at_times(leaf: (u8, u64), random: &mut Random) -> Flat {
    if !random.chance(4) {
        return Flat::new(&[leaf]);
    }
    let around = random.pick(&[&[(LIST, 0)][..], &[(ARRAY, 1)], &[(STRUCT, 1), (FIELD, 1)], &[(STRUCT, 0)]]);
    let mut flat = Flat::new(around);
    if around != [(STRUCT, 0)] {
        flat.push(leaf.0, leaf.1);
    }
    flat
}

/// A type, or one of ten times something damaged.
fn input(random: &mut Random) -> Input {
    let flat = flat(random);
    damaged_at_times(flat, random, 10)
}

/// Two types: related in most cases, or one of them or both damaged.
fn pair(random: &mut Random) -> (Input, Input) {
    let flat = flat(random);
    let other = if random.chance(5) { self::flat(random) } else { relative(&flat, random) };
    let (left, right) = if random.chance(70) { (flat, other) } else { (other, flat) };
    (damaged_at_times(left, random, 4), damaged_at_times(right, random, 4))
}

/// A type related to this one: it, a part of it or one to which it casts, with a change or without.
pub fn relative(flat: &Flat, random: &mut Random) -> Flat {
    let mut other = match random.below(5) {
        0 => part(flat, random),
        1 | 2 => castable(flat, random),
        _ => flat.clone(),
    };
    for _ in 0..random.pick(&[0, 1, 1, 1, 2, 3]) {
        random.pick(&CHANGES)(&mut other, random);
    }
    other
}

/// The encoded type, damaged in so many of a hundred cases.
fn damaged_at_times(mut flat: Flat, random: &mut Random, percent: usize) -> Input {
    if !random.chance(percent) {
        return Input::from(&flat);
    }
    if random.chance(60) {
        random.pick(&damage::NODES)(&mut flat, random);
        return Input::from(&flat);
    }
    let mut bytes = flat.laid_out();
    random.pick(&damage::BYTES)(&mut bytes, random);
    Input::new(bytes)
}
