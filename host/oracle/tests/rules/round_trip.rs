//! A type that is read and written again is the same. The trials do so with random types.

use crate::types::*;
use ::plain::sheet;
use oracle::Type;

/// Reads and writes a type in both forms.
fn round_trip(nodes: &[(u8, u64)]) {
    let (kinds, args): (Vec<u8>, Vec<u64>) = nodes.iter().copied().unzip();
    assert_eq!(plain::check(&kinds, &args), Ok(()), "{nodes:?}");
    let flat = (kinds, args);
    let bytes = sheet::lay_out(&flat.0, &flat.1);
    let from_flat = Type::from_flat(&flat.0, &flat.1);
    let decoded = Type::decode(&bytes);
    assert_eq!(from_flat.to_flat(), flat);
    assert_eq!(decoded.to_flat(), flat);
    assert_eq!(from_flat.encode(), bytes);
    assert_eq!(decoded.clone().encode(), bytes);
}

/// Every type of one node, with the smallest and largest arguments and some between.
fn leaves() -> Vec<Nodes> {
    let mut leaves: Vec<Nodes> = (NULL..=FLOAT64).chain(STRING..=DATE).chain(TIME..=DYN_FLOAT).map(plain).collect();
    leaves.push(structure(&[]));
    for (precision, scale) in [(1, 0), (1, 1), (10, 2), (38, 0), (38, 38)] {
        leaves.push(decimal(precision, scale));
    }
    for unit in 0..=2 {
        leaves.push(duration(unit));
        leaves.extend([0, 1, 7, (1 << 32) - 1].map(|zone| datetime(unit, zone)));
    }
    for value in [0, 1, 127, 1 << 63, (1 << 64) - 1] {
        leaves.extend([dyn_int(value), dyn_int(-1 - value)]);
    }
    leaves
}

#[test]
#[cfg_attr(not(polars_src), ignore = "no text of polars-core 0.55.2")]
fn types_of_one_node() {
    leaves().iter().for_each(|leaf| round_trip(leaf));
}

#[test]
#[cfg_attr(not(polars_src), ignore = "no text of polars-core 0.55.2")]
fn nested_types() {
    for leaf in leaves() {
        let fields =
            structure(&[(0, leaf.clone()), (7, list(&leaf)), (7, array(2, &leaf)), ((1 << 32) - 1, leaf.clone())]);
        round_trip(&list(&leaf));
        round_trip(&array(0, &array(u64::MAX, &leaf)));
        round_trip(&fields);
        round_trip(&structure(&[(1, fields.clone()), (2, list(&fields)), (3, leaf)]));
    }
}

#[test]
#[cfg_attr(not(polars_src), ignore = "no text of polars-core 0.55.2")]
fn types_at_the_limits() {
    let deep = (0..32).fold(plain(INT8), |inner, _| list(&inner));
    let deep_structs = (0..16).fold(plain(INT8), |inner, name| structure(&[(name, inner)]));
    let wide: Vec<_> = (0..255).map(|name| (name, plain(INT8))).collect();
    round_trip(&deep);
    round_trip(&deep_structs);
    round_trip(&structure(&wide));
    round_trip(&list(&structure(&wide)));
}

#[test]
#[cfg_attr(not(polars_src), ignore = "no text of polars-core 0.55.2")]
fn list_of_int16_is_these_bytes() {
    let mut bytes = vec![0x02, 0x00, 0x1C, 0x08];
    bytes.extend([0; 16]);
    assert_eq!(nodes(&Type::decode(&bytes)), list(&plain(INT16)));
}
