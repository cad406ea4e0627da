//! Change request Three's nested joins, of the text whose inner flags can be set.

use crate::types::*;
use oracle::Type;

/// A pair of flags: allow_implode_list and allow_primitive_to_string.
pub type Flags = [bool; 2];

const OFF: Flags = [false, false];
const STRINGS: Flags = [false, true];
const IMPLODE: Flags = [true, false];
const BOTH: Flags = [true, true];
pub const EVERY: [Flags; 4] = [OFF, STRINGS, IMPLODE, BOTH];

/// The crate's default.
pub const DEFAULT: Flags = STRINGS;

fn supertype(left: &Nodes, right: &Nodes, outer: Flags, inner: Flags) -> Option<Nodes> {
    of(left).get_supertype_with_inner_options(&of(right), outer, inner).map(|dtype| nodes(&dtype))
}

/// The supertype of each pair is the type beside it, whatever the outer flags, with these inner ones.
fn supertypes(inner: Flags, cases: &[(Nodes, Nodes, Option<Nodes>)]) {
    for (left, right, expected) in cases {
        for outer in EVERY {
            let found = supertype(left, right, outer, inner);
            assert_eq!(&found, expected, "{left:?} with {right:?}, {outer:?} and {inner:?}");
        }
    }
}

/// The supertype of each pair is the type beside it in either order, whatever the outer flags, with these inner ones.
fn in_either_order(inner: Flags, cases: &[(Nodes, Nodes, Option<Nodes>)]) {
    let turned = |(left, right, expected): &(Nodes, Nodes, Option<Nodes>)| {
        [(left.clone(), right.clone(), expected.clone()), (right.clone(), left.clone(), expected.clone())]
    };
    supertypes(inner, &cases.iter().flat_map(turned).collect::<Vec<_>>());
}

/// A Struct of leaves without arguments, each a name and a kind.
fn fields(fields: &[(u64, u8)]) -> Nodes {
    structure(&fields.iter().map(|&(name, kind)| (name, plain(kind))).collect::<Vec<_>>())
}

/// Leaves that the arms treat in different ways.
fn leaves() -> Vec<Nodes> {
    let kinds = [NULL, UINT8, INT16, FLOAT32, STRING, BINARY_OFFSET, DATE, ANY, STR, DYN_FLOAT];
    let others = [decimal(4, 2), datetime(1, 0), datetime(0, 7), duration(2), dyn_int(300), dyn_int(-1)];
    kinds.into_iter().map(plain).chain(others).collect()
}

/// The leaves, each in every sort of nested type, and some more of these in one another.
pub fn types() -> Vec<Nodes> {
    let mut types = leaves();
    for (at, leaf) in leaves().into_iter().enumerate() {
        let other = &leaves()[(at * 7 + 3) % leaves().len()];
        let pair = structure(&[(0, leaf.clone()), (1, other.clone())]);
        let repeated = structure(&[(1, leaf.clone()), (0, other.clone()), (1, list(other))]);
        types.extend([list(&leaf), array(0, &leaf), array(2, &list(&leaf)), structure(&[(1, leaf.clone())])]);
        types.extend([list(&list(other)), list(&pair), structure(&[(0, repeated.clone()), (2, leaf)])]);
        types.extend([pair, repeated]);
    }
    types.push(structure(&[]));
    types
}

/// On every pair of these types and with all outer flags.
#[test]
#[cfg_attr(not(polars_src), ignore = "no text of polars-core 0.55.2")]
fn with_the_default_inside_it_is_the_unchanged_text() {
    let types: Vec<Type> = types().iter().map(|nodes| of(nodes)).collect();
    let (mut pairs, mut answers) = (0, 0);
    for left in &types {
        for right in &types {
            for outer in EVERY {
                let unchanged = left.get_supertype_with_options(right, outer[0], outer[1]);
                let edited = left.get_supertype_with_inner_options(right, outer, DEFAULT);
                let [unchanged, edited] = [unchanged, edited].map(|answer| answer.map(|dtype| dtype.to_flat()));
                assert_eq!(unchanged, edited, "{:?} with {:?}, {outer:?}", nodes(left), nodes(right));
                answers += usize::from(edited.is_some());
            }
            pairs += 1;
        }
    }
    assert!(pairs == 25_921 && answers > pairs, "{pairs} pairs and {answers} answers");
}

#[test]
#[cfg_attr(not(polars_src), ignore = "no text of polars-core 0.55.2")]
fn a_list_with_string_is_string() {
    let (ints, string) = (list(&plain(INT8)), plain(STRING));
    EVERY.into_iter().for_each(|inner| supertypes(inner, &[(ints.clone(), string.clone(), Some(string.clone()))]));
}

/// Where the list has no supertype, the second order answers.
#[test]
#[cfg_attr(not(polars_src), ignore = "no text of polars-core 0.55.2")]
fn string_with_a_list_tries_the_list_first_where_it_may_implode() {
    let (string, ints) = (plain(STRING), list(&plain(INT8)));
    for outer in EVERY {
        for inner in EVERY {
            let list_has_one = outer[0] && inner[1];
            let expected = if list_has_one { list(&string) } else { string.clone() };
            assert_eq!(supertype(&string, &ints, outer, inner), Some(expected), "{outer:?} and {inner:?}");
        }
    }
}

#[test]
#[cfg_attr(not(polars_src), ignore = "no text of polars-core 0.55.2")]
fn imploding_needs_the_outer_flag() {
    let (int, ints, wider) = (plain(INT16), list(&plain(INT8)), list(&plain(INT16)));
    for inner in EVERY {
        for (left, right) in [(&int, &ints), (&ints, &int)] {
            let found = EVERY.map(|outer| supertype(left, right, outer, inner));
            assert_eq!(found, [None, None, Some(wider.clone()), Some(wider.clone())]);
        }
    }
}

#[test]
#[cfg_attr(not(polars_src), ignore = "no text of polars-core 0.55.2")]
fn arrays_of_one_width_are_an_array_and_others_a_list() {
    let (int8, int16) = (plain(INT8), plain(INT16));
    let wider = Some(list(&int16));
    let cases = [
        (array(2, &int8), array(2, &int16), Some(array(2, &int16))),
        (array(0, &int8), array(0, &int16), Some(array(0, &int16))),
        (array(2, &int8), array(3, &int16), wider.clone()),
        (array(2, &int8), list(&int16), wider.clone()),
        (list(&int8), array(2, &int16), wider.clone()),
        (list(&int8), list(&int16), wider),
        (array(2, &plain(DATE)), array(2, &plain(TIME)), None),
        (array(2, &plain(DATE)), array(3, &plain(TIME)), None),
    ];
    EVERY.into_iter().for_each(|inner| in_either_order(inner, &cases));
}

/// The crate takes all dyn ints for one type, also in a nested one.
#[test]
#[cfg_attr(not(polars_src), ignore = "no text of polars-core 0.55.2")]
fn of_equal_types_the_left_returns() {
    let [small, large] = [1, 300].map(|value| structure(&[(0, list(&dyn_int(value)))]));
    for inner in EVERY {
        supertypes(inner, &[(small.clone(), large.clone(), Some(small.clone()))]);
        supertypes(inner, &[(large.clone(), small.clone(), Some(large.clone()))]);
    }
}

#[test]
#[cfg_attr(not(polars_src), ignore = "no text of polars-core 0.55.2")]
fn a_repeated_name_of_the_longer_struct_has_its_first_place_and_its_last_type() {
    let longer = fields(&[(0, INT8), (1, INT8), (0, INT16)]);
    let cases = [
        (longer.clone(), fields(&[(1, INT32)]), Some(fields(&[(0, INT16), (1, INT32)]))),
        (longer.clone(), fields(&[(2, DATE), (0, INT8)]), Some(fields(&[(0, INT16), (1, INT8), (2, DATE)]))),
        (longer, structure(&[]), Some(fields(&[(0, INT16), (1, INT8)]))),
    ];
    EVERY.into_iter().for_each(|inner| in_either_order(inner, &cases));
}

/// The second of them is joined with what the first has left.
#[test]
#[cfg_attr(not(polars_src), ignore = "no text of polars-core 0.55.2")]
fn a_repeated_name_of_the_shorter_struct_is_joined_twice() {
    let shorter = fields(&[(1, INT16), (1, UINT16)]);
    let cases = [
        (fields(&[(0, DATE), (1, INT8), (2, DATE)]), Some(fields(&[(0, DATE), (1, INT32), (2, DATE)]))),
        (fields(&[(0, DATE), (2, DATE), (3, DATE)]), Some(fields(&[(0, DATE), (2, DATE), (3, DATE), (1, INT32)]))),
    ];
    let cases = cases.map(|(longer, expected)| (longer, shorter.clone(), expected));
    EVERY.into_iter().for_each(|inner| in_either_order(inner, &cases));
}

/// String with any is any, and any with String is String.
#[test]
#[cfg_attr(not(polars_src), ignore = "no text of polars-core 0.55.2")]
fn the_shorter_struct_is_on_the_left_of_a_join() {
    let cases = [
        (fields(&[(0, ANY), (1, INT8)]), fields(&[(0, STRING)]), Some(fields(&[(0, ANY), (1, INT8)]))),
        (fields(&[(0, STRING), (1, INT8)]), fields(&[(0, ANY)]), Some(fields(&[(0, STRING), (1, INT8)]))),
    ];
    EVERY.into_iter().for_each(|inner| in_either_order(inner, &cases));
}

/// Whichever side it stands on. String with any is any, and any with String is String.
#[test]
#[cfg_attr(not(polars_src), ignore = "no text of polars-core 0.55.2")]
fn a_list_that_implodes_is_on_the_left_of_a_join() {
    let (any, strings) = (plain(ANY), list(&plain(STRING)));
    for (left, right) in [(&any, &strings), (&strings, &any)] {
        assert_eq!(supertype(left, right, IMPLODE, DEFAULT), Some(list(&any)));
        assert_eq!(supertype(left, right, OFF, DEFAULT), Some(any.clone()));
    }
    assert_eq!(supertype(&plain(STRING), &list(&any), IMPLODE, DEFAULT), Some(strings));
}

/// Names that are repeated stay, since there is no union.
#[test]
#[cfg_attr(not(polars_src), ignore = "no text of polars-core 0.55.2")]
fn structs_of_the_same_names_are_joined_field_by_field() {
    let cases = [
        (fields(&[(0, INT8), (1, INT16)]), fields(&[(0, INT16), (1, INT8)]), Some(fields(&[(0, INT16), (1, INT16)]))),
        (fields(&[(0, INT8), (0, INT16)]), fields(&[(0, INT16), (0, UINT8)]), Some(fields(&[(0, INT16), (0, INT16)]))),
        (fields(&[(0, INT8), (1, DATE)]), fields(&[(0, INT16), (1, TIME)]), None),
    ];
    EVERY.into_iter().for_each(|inner| in_either_order(inner, &cases));
}

#[test]
#[cfg_attr(not(polars_src), ignore = "no text of polars-core 0.55.2")]
fn at_a_differing_name_structs_are_united_and_the_left_is_the_longer() {
    let (left, right) = (fields(&[(0, INT8), (1, DATE)]), fields(&[(0, INT16), (2, TIME)]));
    for inner in EVERY {
        let (first, second) =
            (fields(&[(0, INT16), (1, DATE), (2, TIME)]), fields(&[(0, INT16), (2, TIME), (1, DATE)]));
        supertypes(inner, &[(left.clone(), right.clone(), Some(first)), (right.clone(), left.clone(), Some(second))]);
    }
}

/// A union has an answer, since the last type of the name in the longer Struct is String.
#[test]
#[cfg_attr(not(polars_src), ignore = "no text of polars-core 0.55.2")]
fn no_supertype_before_the_first_differing_name_is_none_in_either_order() {
    let (dates, times) = (fields(&[(0, DATE), (0, STRING), (1, INT8)]), fields(&[(0, TIME), (0, STRING), (2, INT8)]));
    in_either_order(DEFAULT, &[(dates.clone(), times, None)]);
    let times = fields(&[(2, INT8), (0, TIME), (0, STRING)]);
    let united = fields(&[(0, STRING), (1, INT8), (2, INT8)]);
    supertypes(DEFAULT, &[(dates, times, Some(united))]);
}

/// In the first order the left is the longer: its last type of the name is Time, which has no supertype with Date.
#[test]
#[cfg_attr(not(polars_src), ignore = "no text of polars-core 0.55.2")]
fn a_union_without_an_answer_is_tried_in_the_other_order() {
    let (left, right) = (fields(&[(0, STRING), (0, TIME)]), fields(&[(1, INT8), (0, DATE)]));
    in_either_order(DEFAULT, &[(left.clone(), right.clone(), Some(fields(&[(1, INT8), (0, STRING)])))]);
    in_either_order(OFF, &[(left, right, None)]);
}

#[test]
#[cfg_attr(not(polars_src), ignore = "no text of polars-core 0.55.2")]
fn a_struct_with_a_dyn_number_is_its_first_field_with_it() {
    let (numbers, dates) = (fields(&[(0, INT8), (1, BINARY)]), fields(&[(0, DATE), (1, INT8)]));
    let cases = [
        (numbers.clone(), dyn_int(300), Some(plain(INT16))),
        (numbers, plain(DYN_FLOAT), Some(plain(FLOAT64))),
        (dates, dyn_int(300), Some(plain(ANY))),
        (structure(&[]), dyn_int(300), None),
        (structure(&[]), plain(DYN_FLOAT), None),
    ];
    EVERY.into_iter().for_each(|inner| in_either_order(inner, &cases));
}

#[test]
#[cfg_attr(not(polars_src), ignore = "no text of polars-core 0.55.2")]
fn a_struct_with_a_primitive_number_is_each_field_with_it() {
    let numbers = fields(&[(0, INT8), (0, UINT8), (1, DYN_FLOAT)]);
    let cases = [
        (numbers.clone(), plain(INT16), Some(fields(&[(0, INT16), (0, INT16), (1, FLOAT64)]))),
        (structure(&[]), plain(INT16), Some(structure(&[]))),
        (fields(&[(0, INT8), (1, BINARY)]), plain(INT16), None),
        (numbers.clone(), plain(BOOLEAN), None),
        (numbers, decimal(10, 2), None),
    ];
    EVERY.into_iter().for_each(|inner| in_either_order(inner, &cases));
}

/// Each is asked of a List, an Array, a Struct's fields, its first field and its union.
#[test]
#[cfg_attr(not(polars_src), ignore = "no text of polars-core 0.55.2")]
fn primitives_become_strings_by_the_inner_flag() {
    let (int8, string) = (plain(INT8), plain(STRING));
    let cases = [
        (list(&int8), list(&string), Some(list(&string))),
        (array(1, &int8), array(1, &string), Some(array(1, &string))),
        (fields(&[(0, INT8)]), fields(&[(0, STRING)]), Some(fields(&[(0, STRING)]))),
        (fields(&[(0, STRING), (1, INT8)]), int8.clone(), Some(fields(&[(0, STRING), (1, INT8)]))),
        (fields(&[(0, STRING)]), dyn_int(5), Some(string)),
        (fields(&[(0, INT8), (1, INT8)]), fields(&[(1, STRING)]), Some(fields(&[(0, INT8), (1, STRING)]))),
    ];
    [STRINGS, BOTH].into_iter().for_each(|inner| in_either_order(inner, &cases));
    let without = cases.map(|(left, right, _)| (left, right, None));
    [OFF, IMPLODE].into_iter().for_each(|inner| in_either_order(inner, &without));
}

#[test]
#[cfg_attr(not(polars_src), ignore = "no text of polars-core 0.55.2")]
fn inner_lists_implode_by_the_inner_flag() {
    let (int8, ints) = (plain(INT8), list(&plain(INT8)));
    let cases = [
        (list(&ints), ints.clone(), Some(list(&ints))),
        (array(1, &ints), array(2, &int8), Some(list(&ints))),
        (structure(&[(0, ints.clone())]), structure(&[(0, int8.clone())]), Some(structure(&[(0, ints.clone())]))),
        (structure(&[(0, ints.clone())]), plain(UINT8), Some(structure(&[(0, list(&plain(INT16)))]))),
    ];
    // Without the outer flag, which would implode the outer list as well.
    for (left, right, expected) in &cases {
        for (inner, expected) in [(IMPLODE, expected), (BOTH, expected), (OFF, &None), (STRINGS, &None)] {
            assert_eq!(&supertype(left, right, STRINGS, inner), expected, "{left:?} with {right:?}, {inner:?}");
            assert_eq!(&supertype(right, left, STRINGS, inner), expected, "{right:?} with {left:?}, {inner:?}");
        }
    }
}
