//! Every limit and rule that document 01 names, with the number that it gives.

use lomzegash::kind::*;
use trials::compare::Comparison;
use trials::flat::Flat;

/// Each type, flat and encoded, gets the number beside it.
fn types(what: &str, cases: &[(u64, Flat)]) {
    let mut comparison = Comparison::default();
    for (number, flat) in cases {
        assert_eq!(comparison.both(flat), *number, "{flat:?}");
    }
    assert_eq!(comparison.report(what).0, 2 * cases.len() as u64);
}

/// Each encoded type gets the number beside it.
fn bytes(what: &str, cases: &[(u64, Vec<u8>)]) {
    let mut comparison = Comparison::default();
    for (number, bytes) in cases {
        assert_eq!(comparison.encoded(bytes), *number, "{bytes:02x?}");
    }
    assert_eq!(comparison.report(what).0, cases.len() as u64);
}

/// A List over a type.
fn list(inner: &Flat) -> Flat {
    Flat::repeated(&[(LIST, 0)], 1, inner)
}

/// List(Int16) as document 01 has it.
fn list_of_int16() -> Vec<u8> {
    let mut bytes = vec![0x02, 0x00, 0x1C, 0x08];
    bytes.extend([0; 16]);
    bytes
}

#[test]
fn list_of_int16_is_these_bytes() {
    let (kinds, args) = ([28, 8], [0, 0]);
    assert_eq!(lomzegash::encode_to_vec(&kinds, &args), Ok(list_of_int16()));
    assert_eq!(lomzegash::decode_to_vec(&list_of_int16()), Ok((kinds.to_vec(), args.to_vec())));
    bytes("List(Int16)", &[(0, list_of_int16())]);
}

#[test]
fn thirty_two_lists_pass_and_thirty_three_do_not() {
    types("Lists over Int8", &[(0, Flat::lists(0)), (0, Flat::lists(32)), (5, Flat::lists(33)), (5, Flat::lists(511))]);
}

#[test]
fn five_hundred_and_twelve_nodes_pass_and_513_do_not() {
    let of_511 = Flat::wide_struct(255);
    let of_512 = list(&of_511);
    let of_513 = list(&of_512);
    assert_eq!([&of_511, &of_512, &of_513].map(|flat| flat.kinds.len()), [511, 512, 513]);
    types("511, 512 and 513 nodes", &[(0, of_511), (0, of_512), (1, of_513), (1, Flat::lists(512))]);
}

#[test]
fn a_struct_has_0_to_255_fields() {
    let mut stated = Flat::wide_struct(255);
    stated.args[0] = 256;
    let cases = [
        (0, Flat::wide_struct(0)),
        (0, Flat::wide_struct(1)),
        (0, Flat::wide_struct(255)),
        (1, Flat::wide_struct(256)), // 513 nodes
        (3, stated),
        (3, Flat::new(&[(STRUCT, 256)])),
        (4, Flat::new(&[(STRUCT, 255)])),
    ];
    types("fields of a Struct", &cases);
}

/// Each Struct but the last has its field and the field's type below it: two levels.
#[test]
fn sixteen_structs_over_int8_pass_and_seventeen_do_not() {
    let empty = Flat::wide_struct(0);
    let cases = [
        (0, Flat::structs(16, &Flat::int8())),    // depth 32
        (5, Flat::structs(16, &Flat::lists(1))),  // depth 33
        (5, Flat::structs(17, &Flat::int8())),    // depth 34
        (0, Flat::structs(16, &empty)),           // depth 32, with 17 Structs
        (5, Flat::structs(17, &empty)),           // depth 34, with 18 Structs
        (0, Flat::structs(15, &Flat::lists(2))),  // depth 32
        (5, list(&Flat::structs(16, &empty))),    // depth 33
        (5, Flat::structs(255, &Flat::lists(1))), // 512 nodes
    ];
    types("nested Structs", &cases);
}

#[test]
fn no_node_is_refused_by_1() {
    types("no node", &[(1, Flat::default())]);
    bytes("no node", &[(1, vec![0, 0]), (1, vec![0; 11])]);
}

#[test]
fn a_stored_length_that_does_not_match_is_refused_by_1() {
    let whole = list_of_int16();
    let mut longer = whole.clone();
    longer.push(0);
    let mut swapped = whole.clone();
    swapped.swap(0, 1);
    let cases = [
        (1, vec![]),
        (1, vec![1]),
        (1, vec![1, 0]),
        (1, whole[..19].to_vec()),
        (1, longer),
        (1, swapped),
        (1, vec![255, 255]),
    ];
    bytes("stored lengths", &cases);
}

#[test]
fn array_lengths_that_differ_are_refused_by_1() {
    let mut kinds_longer = Flat::lists(1);
    kinds_longer.args.pop();
    let mut args_longer = Flat::lists(1);
    args_longer.args.push(0);
    let no_kinds = Flat { kinds: vec![], args: vec![0] };
    let no_args = Flat { kinds: vec![INT8], args: vec![] };
    types("array lengths", &[(1, kinds_longer), (1, args_longer), (1, no_kinds), (1, no_args)]);
}

#[test]
fn a_kind_above_31_is_refused_by_2() {
    let mut cases: Vec<_> = (32..=255).map(|kind| (2, Flat::new(&[(kind, 0)]))).collect();
    cases.push((2, Flat::new(&[(LIST, 0), (32, 0)])));
    types("kinds above 31", &cases);
}

/// A leaf whose argument fits passes; a nested kind whose argument fits has no child here.
#[test]
fn every_kind_has_its_argument_rule() {
    let four_gig = 1 << 32;
    let mut cases = vec![];
    for kind in (NULL..=FLOAT64).chain(STRING..=DATE).chain([TIME]).chain(UNKNOWN_ANY..=UNKNOWN_FLOAT) {
        cases.extend([(kind, 0, 0), (kind, 1, 3), (kind, u64::MAX, 3)]);
    }
    for precision in 1..=38 {
        cases.extend([(DECIMAL, precision, 0), (DECIMAL, 256 * precision + precision, 0)]);
        cases.extend([(DECIMAL, 256 * (precision + 1) + precision, 3)]);
    }
    cases.extend([(DECIMAL, 0, 3), (DECIMAL, 39, 3), (DECIMAL, 255, 3), (DECIMAL, (1 << 16) + 1, 3)]);
    for unit in 0..=2 {
        cases.extend([(DURATION, unit, 0), (DATETIME, unit, 0), (DATETIME, 4 + unit, 0)]);
        cases.extend([(DATETIME, 4 * (four_gig - 1) + unit, 0), (DATETIME, 4 * four_gig + unit, 3)]);
    }
    cases.extend([(DURATION, 3, 3), (DURATION, 4, 3), (DATETIME, 3, 3), (DATETIME, 4 * (four_gig - 1) + 3, 3)]);
    for arg in [0, 1, four_gig, u64::MAX] {
        cases.extend([(UNKNOWN_INT_POS, arg, 0), (UNKNOWN_INT_NEG, arg, 0), (ARRAY, arg, 4)]);
    }
    cases.extend([(LIST, 0, 4), (LIST, 1, 3), (STRUCT, 0, 0), (STRUCT, 255, 4), (STRUCT, 256, 3)]);
    cases.extend([(FIELD, 0, 4), (FIELD, four_gig - 1, 4), (FIELD, four_gig, 3)]);
    let cases: Vec<_> = cases.iter().map(|&(kind, arg, number)| (number, Flat::new(&[(kind, arg)]))).collect();
    assert_eq!(cases.len(), 23 * 3 + 38 * 3 + 4 + 3 * 5 + 4 + 4 * 3 + 5 + 3);
    types("argument rules", &cases);
}

#[test]
fn nodes_that_do_not_form_exactly_one_type_are_refused_by_4() {
    let cases = [
        (4, Flat::new(&[(INT8, 0), (INT8, 0)])),
        (4, Flat::new(&[(LIST, 0)])),
        (4, Flat::new(&[(LIST, 0), (INT8, 0), (INT8, 0)])),
        (4, Flat::new(&[(STRUCT, 0), (INT8, 0)])),
        (4, Flat::new(&[(STRUCT, 2), (FIELD, 0), (INT8, 0)])),
        (4, Flat::new(&[(STRUCT, 1), (FIELD, 0), (INT8, 0), (FIELD, 0), (INT8, 0)])),
        (4, Flat::new(&[(STRUCT, 1), (FIELD, 0)])),
    ];
    types("not one type", &cases);
}

#[test]
fn a_field_outside_a_struct_is_refused_by_4() {
    let cases = [
        (4, Flat::new(&[(FIELD, 0)])),
        (4, Flat::new(&[(FIELD, 0), (INT8, 0)])),
        (4, Flat::new(&[(LIST, 0), (FIELD, 0), (INT8, 0)])),
        (4, Flat::new(&[(ARRAY, 1), (FIELD, 0), (INT8, 0)])),
        (4, Flat::new(&[(STRUCT, 1), (FIELD, 0), (FIELD, 0), (INT8, 0)])),
        (4, Flat::new(&[(STRUCT, 1), (INT8, 0)])),
        (4, Flat::new(&[(STRUCT, 1), (LIST, 0), (INT8, 0)])),
    ];
    types("fields outside a Struct", &cases);
}

#[test]
fn of_several_faults_the_lowest_number_is_given() {
    let mut long_with_a_bad_kind = Flat::lists(512);
    long_with_a_bad_kind.kinds[0] = 32;
    let mut unequal_with_a_bad_kind = Flat::new(&[(32, 0)]);
    unequal_with_a_bad_kind.args.push(0);
    let mut deep_with_a_bad_kind = Flat::lists(33);
    deep_with_a_bad_kind.kinds[33] = 32;
    let mut deep_with_a_bad_arg = Flat::lists(33);
    deep_with_a_bad_arg.args[33] = 1;
    let mut deep_without_end = Flat::lists(33);
    deep_without_end.pop();
    let mut deep_with_one_more = Flat::lists(33);
    deep_with_one_more.push(INT8, 0);
    let mut deep_in_a_field = Flat::new(&[(FIELD, 0)]);
    deep_in_a_field.extend(&Flat::lists(33));
    let cases = [
        (1, long_with_a_bad_kind),
        (1, unequal_with_a_bad_kind),
        (2, Flat::new(&[(NULL, 1), (INT8, 0), (32, 0)])), // an argument in the first node, a kind in the last
        (2, Flat::new(&[(FIELD, 0), (255, u64::MAX)])),
        (2, deep_with_a_bad_kind),
        (3, Flat::new(&[(FIELD, 0), (INT8, 0), (INT8, 1)])), // the shape in the first node, an argument in the last
        (3, deep_with_a_bad_arg),
        (4, deep_without_end),
        (4, deep_with_one_more),
        (4, deep_in_a_field),
    ];
    types("several faults", &cases);
}

/// Refusals 1 to 5 come before 8, whatever room there is; a refused call writes nothing.
#[test]
fn an_output_shorter_than_the_result_is_refused_by_8() {
    let too_short = Err(lomzegash::Error::OutputTooShort);
    let encoded = list_of_int16();
    let rooms = [((0, 0), too_short), ((1, 2), too_short), ((2, 1), too_short), ((2, 2), Ok(2)), ((3, 5), Ok(2))];
    for ((kinds_len, args_len), expected) in rooms {
        let (mut kinds, mut args) = (vec![9; kinds_len], vec![9; args_len]);
        assert_eq!(lomzegash::decode(&encoded, &mut kinds, &mut args), expected);
        let written = expected.unwrap_or(0);
        assert_eq!(kinds, [&[28, 8][..written], &vec![9; kinds_len - written]].concat());
        assert_eq!(args, [&[0, 0][..written], &vec![9; args_len - written]].concat());
    }
    for (room, expected) in [(0, too_short), (19, too_short), (20, Ok(20)), (25, Ok(20))] {
        let mut out = vec![9; room];
        assert_eq!(lomzegash::encode(&[28, 8], &[0, 0], &mut out), expected);
        let written = expected.unwrap_or(0);
        assert_eq!(out, [&encoded[..written], &vec![9; room - written]].concat());
    }
    assert_eq!(lomzegash::decode(&encoded[..19], &mut [], &mut []), Err(lomzegash::Error::Length));
    assert_eq!(lomzegash::encode(&[28], &[0], &mut []), Err(lomzegash::Error::Shape));
}
