//! Beside the crate's own text: the rules that join two types, and the report of what is lost.

use lomzegash::kind::*;
use lomzegash::supertype::JoinReport;
use lomzegash::Error;
use std::ops::Range;
use trials::damage;
use trials::differential::{Differential, Numbers};
use trials::draw;
use trials::flat::Flat;
use trials::input::Input;
use trials::join_calls::{ENOUGH, EVERY_LENGTH};
use trials::joins::{Join, JOINS};
use trials::leaves;
use trials::random::Random;
use trials::trees::Parts;

/// A List, an Array and, by the trees' own making, Structs.
const WRAPS: [(u8, u64); 2] = [(LIST, 0), (ARRAY, 1)];

fn one_node(leaves: &[(u8, u64)]) -> Vec<Flat> {
    leaves.iter().map(|&leaf| Flat::new(&[leaf])).collect()
}

/// Joins each two of these, by both rules, with the flags in every state and the outputs at these places.
fn each_pair(what: &str, flats: &[Flat], places: Range<usize>) -> (Differential, Numbers) {
    let mut differential = Differential::default();
    let inputs: Vec<Input> = flats.iter().map(Input::from).collect();
    for left in &inputs {
        for right in &inputs {
            differential.joins(left, right, &JOINS, places.clone());
        }
    }
    let of_number = differential.report(&format!("{what}, {} types", flats.len()));
    (differential, of_number)
}

#[test]
#[cfg_attr(not(polars_src), ignore = "no text of polars-core 0.55.2")]
fn every_pair_of_types_of_one_node() {
    let leaves = leaves::every();
    let (differential, of_number) = each_pair("joins of types of one node", &one_node(&leaves), ENOUGH);
    let count = |fits: fn(u8) -> bool| leaves.iter().filter(|(kind, _)| fits(*kind)).count() as u64;
    let (all, nested) = (count(|_| true), count(|kind| kind == STRUCT));
    // The supertype is asked for eight times: on encoded types and on flat ones, with two flags.
    assert_eq!(of_number[6], 8 * (2 * all * nested - nested * nested));
    assert_eq!(of_number[0] + of_number[6], 11 * all * all);
    // Int8 to Int64 with UInt64; Int8 to Int128 with UInt128.
    assert_eq!(differential.reported(), [100 - 8 - 10, 8, 10, all * all - 100]);
    // Each Decimal with each integer type, in either order, with two flags.
    assert_eq!(differential.decimals().iter().sum::<u64>(), 2 * 4 * 10 * count(|kind| kind == DECIMAL));
}

/// One of each behaviour, and the arguments on which a rule turns.
#[test]
#[cfg_attr(not(polars_src), ignore = "no text of polars-core 0.55.2")]
fn every_length_of_output() {
    let integers = (UINT8..=INT128).map(|kind| (kind, 0));
    let dyns = [(UNKNOWN_INT_POS, 300), (UNKNOWN_INT_POS, 1 << 63), (UNKNOWN_INT_NEG, 1 << 63)];
    let all: Vec<_> = leaves::FEW.into_iter().chain(integers).chain(dyns).collect();
    let (differential, of_number) = each_pair("joins into every length", &one_node(&all), EVERY_LENGTH);
    assert!([0, 6, 8].iter().all(|&number| of_number[number] > 1000));
    assert!(of_number[1..6] == [0; 5] && of_number[13] == 0);
    assert!(differential.decimals().iter().all(|&count| count > 100));
}

/// Nested types with leaves and with each other; what stands inside them counts for nothing.
#[test]
#[cfg_attr(not(polars_src), ignore = "no text of polars-core 0.55.2")]
fn every_pair_of_trees_of_up_to_three_nodes() {
    let leaves = [(NULL, 0), (INT8, 0), (UINT64, 0), (DECIMAL, 10), (STRING, 0), (UNKNOWN_INT_POS, 1), (STRUCT, 0)];
    let trees = Parts { leaves: &leaves, wraps: &WRAPS, names: &[0] }.trees(3);
    let (_, of_number) = each_pair("joins of trees of up to three nodes", &trees, EVERY_LENGTH);
    assert!(of_number[6] > 100_000 && of_number[1..6] == [0; 5]);
}

/// Each refusal of a type from 1 to 5 on the left, on the right and on both sides, beside every other.
#[test]
#[cfg_attr(not(polars_src), ignore = "no text of polars-core 0.55.2")]
fn what_is_no_type_is_refused_the_left_first() {
    let no_types = [
        Flat::default(),
        Flat::new(&[(FIELD + 1, 0)]),
        Flat::new(&[(INT8, 1)]),
        Flat::new(&[(DECIMAL, 39)]),
        Flat::new(&[(INT8, 0), (INT8, 0)]),
        Flat::lists(33),
    ];
    let types = [Flat::int8(), Flat::new(&[(DECIMAL, 10)]), Flat::lists(1)];
    let all: Vec<Flat> = no_types.into_iter().chain(types).collect();
    let (differential, of_number) = each_pair("joins of what is no type", &all, EVERY_LENGTH);
    assert!(of_number[..7].iter().all(|&count| count > 100) && of_number[13] == 0);
    assert_eq!(differential.decimals(), [2 * 4, 0]);
}

/// Flat types have a refusal that encoded ones don't have: kinds and arguments of unequal number.
#[test]
fn unequal_lengths_of_flat_types() {
    let sound = [Flat::int8(), Flat::new(&[(UINT64, 0)]), Flat::lists(2)];
    let mut random = Random::new(21);
    for flat in &sound {
        for damage in damage::LENGTHS {
            let mut damaged = flat.clone();
            damage(&mut damaged, &mut random);
            for other in sound.iter().chain([&damaged, &Flat::new(&[(FIELD + 1, 0)])]) {
                refused_by_1(&damaged, other);
            }
            sound.iter().for_each(|other| refused_by_1(other, &damaged));
        }
    }
}

fn refused_by_1(left: &Flat, right: &Flat) {
    for join in JOINS {
        let (mut kinds, mut args) = ([9; 2], [9; 2]);
        let answer = join.on_nodes(left.parts(), right.parts(), (&mut kinds, &mut args));
        assert_eq!((answer, kinds, args), (Err(Error::Length), [9; 2], [9; 2]), "{join:?} of {left:?} and {right:?}");
    }
}

#[test]
#[cfg_attr(not(polars_src), ignore = "no text of polars-core 0.55.2")]
fn joins_as_the_long_run_draws_them() {
    let (mut differential, mut random) = (Differential::default(), Random::new(22));
    for _ in 0..500_000 {
        draw::join_leaves(&mut differential, &mut random);
    }
    let of_number = differential.report("joins as the long run draws them");
    assert!([0, 1, 2, 3, 4, 6, 8].iter().all(|&number| of_number[number] > 500) && of_number[13] == 0);
    assert!(differential.reported().iter().all(|&count| count > 500));
    assert!(differential.decimals().iter().all(|&count| count > 500));
}

/// Both rules in one state of the flags, and the report, of random types of every size and of damaged ones.
#[test]
#[cfg_attr(not(polars_src), ignore = "no text of polars-core 0.55.2")]
fn types_of_every_size() {
    let (mut differential, mut random) = (Differential::default(), Random::new(23));
    let leaf = Input::from(&Flat::int8());
    for size in 1..=512 {
        let flat = draw::flat_of(&mut random, size);
        let sound = Input::from(&flat);
        for damage in damage::NODES {
            let mut damaged = flat.clone();
            damage(&mut damaged, &mut random);
            let damaged = Input::from(&damaged);
            for (left, right) in [(&sound, &damaged), (&damaged, &sound), (&damaged, &damaged), (&leaf, &damaged)] {
                let joins = [Join::Lossless, random.pick(&JOINS[1..])];
                differential.joins(left, right, &joins, ENOUGH);
            }
        }
    }
    let of_number = differential.report("joins of types of every size");
    assert!([0, 2, 3, 4, 6].iter().all(|&number| of_number[number] > 1000));
}

/// The reports of all integer types, by name.
#[test]
fn the_reports_of_two_integer_types() {
    let is_signed = |kind| kind >= INT8;
    for left in UINT8..=INT128 {
        for right in UINT8..=INT128 {
            let (signed, unsigned) = (left.max(right), left.min(right));
            let expected = match unsigned {
                UINT128 if is_signed(signed) => JoinReport::Unavoidable,
                UINT64 if is_signed(signed) && signed < INT128 => JoinReport::Avoidable,
                _ => JoinReport::Kept,
            };
            let [l, r] = [left, right].map(|kind| Flat::new(&[(kind, 0)]).laid_out());
            assert_eq!(lomzegash::supertype::join_report(&l, &r), Ok(expected), "{left} and {right}");
        }
    }
}
