//! Beside the crate's own text: every small type and every pair of them.

use lomzegash::kind::*;
use trials::differential::{Differential, Numbers};
use trials::flat::Flat;
use trials::input::Input;
use trials::leaves;
use trials::trees::Parts;

/// A List, and Arrays of the widths at both ends.
const WRAPS: [(u8, u64); 3] = [(LIST, 0), (ARRAY, 0), (ARRAY, u64::MAX)];

fn inputs(flats: &[Flat]) -> Vec<Input> {
    flats.iter().map(Input::from).collect()
}

/// Compares each input, and gives how many comparisons came to a number other than 0, 7 and 8.
fn each(what: &str, flats: &[Flat]) -> u64 {
    let mut differential = Differential::default();
    for input in inputs(flats) {
        differential.one(&input);
    }
    refusals(&differential.report(&format!("{what}, {} types", flats.len())))
}

/// Compares each pair of inputs, a type with itself included, and gives the same.
fn each_pair(what: &str, flats: &[Flat]) -> u64 {
    let mut differential = Differential::default();
    let inputs = inputs(flats);
    for left in &inputs {
        for right in &inputs {
            differential.two(left, right);
        }
    }
    refusals(&differential.report(&format!("{what}, {} types", flats.len())))
}

fn refusals(of_number: &Numbers) -> u64 {
    of_number[1..=6].iter().sum()
}

fn one_node() -> Vec<Flat> {
    leaves::every().into_iter().map(|leaf| Flat::new(&[leaf])).collect()
}

#[test]
#[cfg_attr(not(polars_src), ignore = "no text of polars-core 0.55.2")]
fn every_type_of_one_node() {
    assert_eq!(each("types of one node", &one_node()), 0);
}

#[test]
#[cfg_attr(not(polars_src), ignore = "no text of polars-core 0.55.2")]
fn every_pair_of_types_of_one_node() {
    assert_eq!(each_pair("pairs of types of one node", &one_node()), 0);
}

#[test]
#[cfg_attr(not(polars_src), ignore = "no text of polars-core 0.55.2")]
fn every_tree_of_up_to_five_nodes() {
    let trees = Parts { leaves: &leaves::FEW, wraps: &WRAPS, names: &[0, 1] }.trees(5);
    assert_eq!(each("trees of up to five nodes", &trees), 0);
}

#[test]
#[cfg_attr(not(polars_src), ignore = "no text of polars-core 0.55.2")]
fn every_pair_of_trees_of_up_to_four_nodes() {
    let trees = Parts { leaves: &leaves::FEW, wraps: &WRAPS, names: &[0, 1] }.trees(4);
    assert_eq!(each_pair("pairs of trees of up to four nodes", &trees), 0);
}

/// With few leaves, but with two fields in a Struct, and nested types in these.
#[test]
#[cfg_attr(not(polars_src), ignore = "no text of polars-core 0.55.2")]
fn every_pair_of_trees_of_up_to_six_nodes() {
    let leaves = [(NULL, 0), (BOOLEAN, 0), (INT8, 0), (STRING, 0), (STRUCT, 0)];
    let trees = Parts { leaves: &leaves, wraps: &[(LIST, 0), (ARRAY, 1)], names: &[0] }.trees(6);
    assert_eq!(each_pair("pairs of trees of up to six nodes", &trees), 0);
}

#[test]
#[cfg_attr(not(polars_src), ignore = "no text of polars-core 0.55.2")]
fn every_pair_of_time_units_and_of_other_bytes() {
    let mut differential = Differential::default();
    for left in 0..=u8::MAX {
        for right in 0..=u8::MAX {
            differential.time_units(left, right);
        }
    }
    let of_number = differential.report("pairs of time units and of other bytes");
    assert_eq!((of_number[0], of_number[3], differential.count()), (9, 65536 - 9, 65536));
}
