//! Corners 11 to 17, equality and the predicates.

use crate::types::*;
use oracle::Type;

const YES: Option<bool> = Some(true);
const NO: Option<bool> = Some(false);
const NO_VERDICT: Option<bool> = None;

fn can_cast(from: &Nodes, to: &Nodes) -> Option<bool> {
    of(from).can_cast_to(&of(to))
}

fn materialized(dtype: &Nodes, allow_unknown: bool) -> Option<Nodes> {
    of(dtype).materialize_unknown(allow_unknown).map(|dtype| nodes(&dtype))
}

fn physical(dtype: &Nodes) -> Nodes {
    nodes(&of(dtype).to_physical())
}

fn structure_of(types: &[Nodes]) -> Nodes {
    let fields: Vec<_> = types.iter().cloned().enumerate().map(|(name, inner)| (name as u64, inner)).collect();
    structure(&fields)
}

#[test]
#[cfg_attr(not(polars_src), ignore = "no text of polars-core 0.55.2")]
fn corner_11_casts_of_structs_by_length() {
    let (empty, one, two) =
        (structure(&[]), structure(&[(1, plain(INT8))]), structure(&[(1, plain(INT8)), (2, plain(INT8))]));
    assert_eq!([&empty, &one, &two].map(|to| can_cast(&empty, to)), [YES; 3]);
    assert_eq!([&empty, &two].map(|to| can_cast(&one, to)), [NO; 2]);
}

#[test]
#[cfg_attr(not(polars_src), ignore = "no text of polars-core 0.55.2")]
fn corner_12_casts_of_structs_by_field() {
    let from = structure_of(&[plain(BOOLEAN), plain(INT8)]);
    assert_eq!(can_cast(&from, &structure_of(&[plain(NULL), plain(STRING)])), NO);
    // Int8 to String has no verdict, and comes first here.
    let turned = structure_of(&[plain(INT8), plain(BOOLEAN)]);
    assert_eq!(can_cast(&turned, &structure_of(&[plain(STRING), plain(NULL)])), NO_VERDICT);
    let (named, renamed) = (structure(&[(1, plain(INT8))]), structure(&[(2, plain(INT16))]));
    assert_eq!(can_cast(&named, &renamed), YES);
}

#[test]
#[cfg_attr(not(polars_src), ignore = "no text of polars-core 0.55.2")]
fn corner_13_casts_of_arrays_and_lists() {
    let (int8, string) = (plain(INT8), plain(STRING));
    assert_eq!(can_cast(&array(2, &int8), &array(3, &string)), NO);
    assert_eq!(can_cast(&array(2, &int8), &array(2, &string)), NO_VERDICT);
    assert_eq!(can_cast(&list(&int8), &list(&string)), NO_VERDICT);
}

#[test]
#[cfg_attr(not(polars_src), ignore = "no text of polars-core 0.55.2")]
fn corner_14_casts_of_null() {
    assert_eq!(can_cast(&plain(BOOLEAN), &plain(NULL)), NO);
    assert_eq!(can_cast(&plain(NULL), &plain(BOOLEAN)), YES);
}

#[test]
#[cfg_attr(not(polars_src), ignore = "no text of polars-core 0.55.2")]
fn corner_15_materialized_types() {
    let cases = [
        (dyn_int((1 << 31) - 1), plain(INT32)),
        (dyn_int(1 << 31), plain(INT64)),
        (dyn_int(1 << 63), plain(UINT64)),
        (dyn_int(-(1 << 63) - 1), plain(INT128)),
        (plain(DYN_FLOAT), plain(FLOAT64)),
        (plain(STR), plain(STRING)),
    ];
    for (dtype, expected) in cases {
        assert_eq!(materialized(&dtype, false), Some(expected.clone()));
        assert_eq!(materialized(&dtype, true), Some(expected));
    }
    for dtype in [plain(ANY), list(&plain(ANY)), structure_of(&[plain(INT8), array(2, &plain(ANY))])] {
        assert_eq!(materialized(&dtype, true), Some(dtype.clone()));
        assert_eq!(materialized(&dtype, false), None);
    }
    let mixed = structure_of(&[plain(STR), list(&dyn_int(5)), plain(ANY)]);
    let known = structure_of(&[plain(STRING), list(&plain(INT32)), plain(ANY)]);
    assert_eq!(materialized(&mixed, true), Some(known));
    assert_eq!(materialized(&mixed, false), None);
}

#[test]
#[cfg_attr(not(polars_src), ignore = "no text of polars-core 0.55.2")]
fn corner_16_physical_types() {
    let changed = [
        (plain(DATE), plain(INT32)),
        (datetime(1, 7), plain(INT64)),
        (duration(2), plain(INT64)),
        (plain(TIME), plain(INT64)),
        (decimal(10, 2), plain(INT128)),
    ];
    for (dtype, expected) in &changed {
        assert_eq!(&physical(dtype), expected);
        assert_eq!(physical(&list(&array(3, dtype))), list(&array(3, expected)));
        assert_eq!(
            physical(&structure_of(&[dtype.clone(), plain(ANY)])),
            structure_of(&[expected.clone(), plain(ANY)])
        );
    }
    let kept = (NULL..=FLOAT64).chain(STRING..=BINARY_OFFSET).chain(ANY..=DYN_FLOAT).map(plain);
    for dtype in kept.chain([dyn_int(5), dyn_int(-5), structure(&[])]) {
        assert_eq!(physical(&dtype), dtype);
    }
}

#[test]
#[cfg_attr(not(polars_src), ignore = "no text of polars-core 0.55.2")]
fn corner_17_leaves_and_shapes() {
    let inner = structure_of(&[list(&plain(INT8))]);
    let nested = list(&array(2, &inner));
    assert_eq!(nodes(&of(&nested).leaf_dtype()), inner);
    assert_eq!(of(&nested).inner_dtype().map(|dtype| nodes(&dtype)), Some(array(2, &inner)));
    assert!(of(&inner).inner_dtype().is_none());
    assert_eq!(nodes(&of(&inner).leaf_dtype()), inner);
    let arrays = array(2, &array(u64::MAX, &list(&array(4, &plain(INT8)))));
    assert_eq!(of(&arrays).get_shape(), Some(vec![2, u64::MAX]));
    assert_eq!(of(&arrays).array_leaf_dtype().map(|dtype| nodes(&dtype)), Some(list(&array(4, &plain(INT8)))));
    for dtype in [plain(INT8), list(&arrays), inner] {
        assert_eq!(of(&dtype).get_shape(), None);
        assert!(of(&dtype).array_leaf_dtype().is_none());
    }
}

#[test]
#[cfg_attr(not(polars_src), ignore = "no text of polars-core 0.55.2")]
fn dyn_ints_are_equal_whatever_they_hold() {
    let equal = |left: &Nodes, right: &Nodes| of(left).equal(&of(right));
    assert!(equal(&dyn_int(1), &dyn_int(-300)));
    assert!(equal(&list(&dyn_int(1)), &list(&dyn_int(2))));
    assert!(!equal(&dyn_int(1), &plain(DYN_FLOAT)));
    assert!(!equal(&decimal(10, 2), &decimal(10, 3)));
    assert!(!equal(&datetime(0, 1), &datetime(0, 2)));
    assert!(!equal(&datetime(0, 1), &datetime(0, 0)));
    assert!(!equal(&array(1, &plain(INT8)), &array(2, &plain(INT8))));
    assert!(!equal(&structure(&[(1, plain(INT8))]), &structure(&[(2, plain(INT8))])));
    let holder = of(&structure_of(&[list(&dyn_int(1))]));
    assert!(holder.contains_dtype_recursive(&of(&dyn_int(2))));
    assert!(!holder.contains_dtype_recursive(&of(&plain(INT8))));
}

/// A predicate and the types of one node that have it, with dyn ints of either sign for kinds 26 and 27.
type Predicate = (fn(&Type) -> bool, &'static [u8]);

#[test]
#[cfg_attr(not(polars_src), ignore = "no text of polars-core 0.55.2")]
fn predicates_of_types_of_one_node() {
    let one_node = |kind| of(&[(kind, u64::from(kind == DECIMAL))]);
    let predicates: [Predicate; 14] = [
        (Type::is_nested, &[STRUCT]),
        (Type::is_known, &[0, 1, 2, 3, 4, 5, 6, 7, 8, 9, 10, 11, 12, 13, 14, 15, 16, 17, 18, 19, 20, 21, 22, STRUCT]),
        (Type::is_logical, &[DECIMAL, DATE, DATETIME, DURATION, TIME]),
        (Type::is_primitive, &[1, 2, 3, 4, 5, 6, 7, 8, 9, 10, 11, 12, 13, 14, STRING, BINARY, DYN_FLOAT, 26, 27]),
        (Type::is_primitive_numeric, &[2, 3, 4, 5, 6, 7, 8, 9, 10, 11, 12, 13, 14, DYN_FLOAT, 26, 27]),
        (Type::is_temporal, &[DATE, DATETIME, DURATION, TIME]),
        (Type::is_float, &[FLOAT16, FLOAT32, FLOAT64, DYN_FLOAT]),
        (Type::is_integer, &[2, 3, 4, 5, 6, 7, 8, 9, 10, 11, 26, 27]),
        (Type::is_signed_integer, &[7, 8, 9, 10, 11]),
        (Type::is_unsigned_integer, &[2, 3, 4, 5, 6]),
        (Type::is_string, &[STRING, STR]),
        (Type::is_unknown, &[ANY, STR, DYN_FLOAT, 26, 27]),
        (Type::contains_unknown, &[ANY, STR, DYN_FLOAT, 26, 27]),
        (Type::contains_list_recursive, &[]),
    ];
    for (at, (predicate, expected)) in predicates.iter().enumerate() {
        let kinds = (NULL..LIST).chain([STRUCT]);
        let found: Vec<u8> = kinds.filter(|&kind| predicate(&one_node(kind))).collect();
        assert_eq!(&found, expected, "predicate {at}");
    }
}

#[test]
#[cfg_attr(not(polars_src), ignore = "no text of polars-core 0.55.2")]
fn predicates_of_nested_types() {
    let wrap = |inner: &Nodes| {
        [list(inner), array(2, inner), structure_of(&[plain(INT8), inner.clone()])].map(|nodes| of(&nodes))
    };
    for dtype in wrap(&plain(ANY)) {
        assert!(dtype.is_nested() && dtype.contains_unknown() && !dtype.is_known() && !dtype.is_unknown());
    }
    for dtype in wrap(&plain(DATE)) {
        assert!(dtype.is_logical() && dtype.is_known() && !dtype.is_temporal() && !dtype.is_primitive());
    }
    for dtype in wrap(&list(&plain(INT8))) {
        assert!(dtype.contains_list_recursive() && !dtype.is_logical() && !dtype.contains_unknown());
    }
}
