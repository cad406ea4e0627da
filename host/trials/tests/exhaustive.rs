//! Every small array: all kinds with the arguments around each rule's bounds, and all shapes of more nodes.

use lomzegash::kind::{ARRAY, FIELD, INT8, LIST, STRUCT};
use trials::arguments::boundaries;
use trials::compare::Comparison;
use trials::flat::Flat;

/// Compares every array of up to `most` of these nodes that starts with `flat`.
fn every_array(comparison: &mut Comparison, nodes: &[(u8, u64)], flat: &mut Flat, most: usize) {
    comparison.both(flat);
    if most == 0 {
        return;
    }
    for &(kind, arg) in nodes {
        flat.push(kind, arg);
        every_array(comparison, nodes, flat, most - 1);
        flat.pop();
    }
}

/// How many arrays of one to three nodes there are, with so many nodes to choose from.
fn arrays(nodes: u64) -> u64 {
    nodes + nodes.pow(2) + nodes.pow(3)
}

#[test]
fn every_array_of_up_to_three_nodes() {
    let kinds = (0..=FIELD).chain([FIELD + 1, u8::MAX]);
    let nodes: Vec<_> = kinds.flat_map(|kind| boundaries(kind).iter().map(move |&arg| (kind, arg))).collect();
    let mut comparison = Comparison::default();
    every_array(&mut comparison, &nodes, &mut Flat::default(), 3);
    let (cases, of_number) = comparison.report("every array of up to three nodes");
    // Of 127 nodes 125 have a kind, and of these 53 an argument that fits; 42 of them are types by themselves, 4 are a
    // List or an Array, 3 a field. Each array is compared flat and encoded.
    let valid = 42 + 4 * 42 + (4 * 4 + 3) * 42;
    let expected =
        [valid, 1, arrays(127) - arrays(125), arrays(125) - arrays(53), arrays(53) - valid, 0].map(|count| 2 * count);
    assert_eq!(of_number, expected);
    assert_eq!(cases, 4_129_280);
}

#[test]
fn every_shape_of_up_to_seven_nodes() {
    let nodes = [(INT8, 0), (LIST, 0), (ARRAY, 9), (STRUCT, 0), (STRUCT, 1), (STRUCT, 2), (FIELD, 9)];
    let mut comparison = Comparison::default();
    every_array(&mut comparison, &nodes, &mut Flat::default(), 7);
    let (cases, of_number) = comparison.report("every shape of up to seven nodes");
    assert_eq!(cases, 2 * (0..=7).map(|len| 7_u64.pow(len)).sum::<u64>());
    // Types of n nodes: 2, then each List or Array over one of n - 1, each Struct of one field over one of n - 2 and
    // each Struct of two fields over two of n - 3 together.
    let mut types = vec![0, 2];
    for n in 2..=7_usize {
        let pairs: u64 = (1..n.saturating_sub(3)).map(|left| types[left] * types[n - 3 - left]).sum();
        types.push(2 * types[n - 1] + types[n - 2] + pairs);
    }
    let valid: u64 = types.iter().sum();
    assert_eq!(of_number, [2 * valid, 2, 0, 0, cases - 2 * valid - 2, 0]);
}
