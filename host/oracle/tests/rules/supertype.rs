//! Corners 1 to 10, the lossless upcast and the time units; and change request Two's Decimals beside integer types.

use crate::types::*;

/// The supertype of two types that aren't nested. The implode flag changes none.
fn supertype(left: &Nodes, right: &Nodes, to_string: bool) -> Option<Nodes> {
    let answer =
        |implode| of(left).get_supertype_with_options(&of(right), implode, to_string).map(|dtype| nodes(&dtype));
    let off = answer(false);
    assert_eq!(answer(true), off, "{left:?} with {right:?}, imploding");
    off
}

/// Each pair has the supertype beside it, with primitive-to-string off and on.
fn supertypes(cases: &[(Nodes, Nodes, Nodes)]) {
    for (left, right, expected) in cases {
        for to_string in [false, true] {
            let found = supertype(left, right, to_string);
            assert_eq!(found.as_ref(), Some(expected), "{left:?} with {right:?}, {to_string}");
        }
    }
}

/// The lossless upcast of two types, by their kinds.
fn upcast(left: &Nodes, right: &Nodes) -> Option<Nodes> {
    of(left).get_numeric_upcast_supertype_lossless(&of(right)).map(|dtype| nodes(&dtype))
}

#[test]
#[cfg_attr(not(polars_src), ignore = "no text of polars-core 0.55.2")]
fn corner_1_the_left_of_two_dyn_ints_returns() {
    supertypes(&[(dyn_int(1), dyn_int(300), dyn_int(1)), (dyn_int(300), dyn_int(1), dyn_int(300))]);
}

#[test]
#[cfg_attr(not(polars_src), ignore = "no text of polars-core 0.55.2")]
fn corner_2_any_with_string() {
    supertypes(&[(plain(ANY), plain(STRING), plain(STRING)), (plain(STRING), plain(ANY), plain(ANY))]);
}

#[test]
#[cfg_attr(not(polars_src), ignore = "no text of polars-core 0.55.2")]
fn corner_3_dyn_int_with_str() {
    let (five, str) = (dyn_int(5), plain(STR));
    assert_eq!(supertype(&five, &str, true), Some(plain(ANY)));
    assert_eq!(supertype(&str, &five, true), Some(plain(STR)));
    assert_eq!(supertype(&five, &str, false), Some(plain(ANY)));
    assert_eq!(supertype(&str, &five, false), Some(plain(ANY)));
}

#[test]
#[cfg_attr(not(polars_src), ignore = "no text of polars-core 0.55.2")]
fn corner_4_uint64_with_negative_dyn_ints() {
    supertypes(&[(plain(UINT64), dyn_int(-1), plain(INT64)), (plain(UINT64), dyn_int(-(1 << 63) - 1), plain(UINT64))]);
}

#[test]
#[cfg_attr(not(polars_src), ignore = "no text of polars-core 0.55.2")]
fn corner_5_uint128_with_int8() {
    supertypes(&[(plain(UINT128), plain(INT8), plain(INT128))]);
    assert_eq!(upcast(&plain(UINT128), &plain(INT8)), None);
}

#[test]
#[cfg_attr(not(polars_src), ignore = "no text of polars-core 0.55.2")]
fn corner_6_binaries_with_string() {
    assert_eq!(supertype(&plain(BINARY_OFFSET), &plain(STRING), false), Some(plain(STRING)));
    supertypes(&[(plain(BINARY), plain(STRING), plain(BINARY))]);
}

#[test]
#[cfg_attr(not(polars_src), ignore = "no text of polars-core 0.55.2")]
fn corner_7_boolean_with_dyn_float_and_date_with_dyn_int() {
    supertypes(&[(plain(BOOLEAN), plain(DYN_FLOAT), plain(ANY)), (plain(DATE), dyn_int(5), plain(ANY))]);
}

#[test]
#[cfg_attr(not(polars_src), ignore = "no text of polars-core 0.55.2")]
fn corner_8_integers_with_floats() {
    supertypes(&[
        (plain(FLOAT16), plain(INT8), plain(FLOAT16)),
        (plain(FLOAT16), plain(INT16), plain(FLOAT32)),
        (plain(FLOAT16), plain(INT32), plain(FLOAT64)),
        (plain(INT32), plain(FLOAT32), plain(FLOAT64)),
    ]);
}

#[test]
#[cfg_attr(not(polars_src), ignore = "no text of polars-core 0.55.2")]
fn corner_9_integers_with_dyn_ints() {
    supertypes(&[
        (plain(INT8), dyn_int(127), plain(INT8)),
        (plain(INT8), dyn_int(128), plain(INT16)),
        (plain(UINT8), dyn_int(255), plain(UINT8)),
        (plain(UINT8), dyn_int(256), plain(UINT16)),
        (plain(INT64), dyn_int((1 << 63) - 1), plain(INT64)),
        (plain(INT64), dyn_int(1 << 63), plain(FLOAT64)),
    ]);
}

#[test]
#[cfg_attr(not(polars_src), ignore = "no text of polars-core 0.55.2")]
fn corner_10_datetimes_of_different_zones() {
    for (left, right) in [(1, 2), (1, 0), (0, 1)] {
        for to_string in [false, true] {
            assert_eq!(supertype(&datetime(0, left), &datetime(0, right), to_string), None);
        }
    }
    supertypes(&[(datetime(0, 1), datetime(2, 1), datetime(2, 1)), (datetime(1, 0), datetime(0, 0), datetime(1, 0))]);
}

/// The supertype of a Decimal, by precision and scale, and an integer type, in either order, has this precision.
fn beside_integer((precision, scale): (u64, u64), integer: u8, expected: u64) {
    let (dtype, integer, expected) = (decimal(precision, scale), plain(integer), decimal(expected, scale));
    supertypes(&[(dtype.clone(), integer.clone(), expected.clone()), (integer, dtype, expected)]);
}

/// Int64's largest number with 20 or 30 digits behind its point is past 128 bits.
#[test]
#[cfg_attr(not(polars_src), ignore = "no text of polars-core 0.55.2")]
fn request_2_a_decimal_keeps_its_precision_or_gets_38() {
    beside_integer((10, 2), INT32, 38);
    beside_integer((12, 2), INT32, 12);
    beside_integer((38, 20), INT64, 38);
    beside_integer((37, 30), INT64, 38);
    beside_integer((5, 0), UINT16, 5);
    beside_integer((4, 0), UINT16, 38);
    for to_string in [false, true] {
        assert_eq!(supertype(&decimal(10, 2), &plain(BOOLEAN), to_string), None);
        assert_eq!(supertype(&plain(BOOLEAN), &decimal(10, 2), to_string), None);
    }
}

/// Whatever the Decimal.
#[test]
#[cfg_attr(not(polars_src), ignore = "no text of polars-core 0.55.2")]
fn request_2_the_128_bit_types_always_give_38() {
    for precision in 1..=38 {
        for scale in 0..=precision {
            [UINT128, INT128].into_iter().for_each(|integer| beside_integer((precision, scale), integer, 38));
        }
    }
}

/// With as many digits before the point as the request counts, and with one less.
#[test]
#[cfg_attr(not(polars_src), ignore = "no text of polars-core 0.55.2")]
fn request_2_the_digit_counts() {
    let counts = [(UINT8, 3), (INT8, 3), (UINT16, 5), (INT16, 5), (UINT32, 10), (INT32, 10), (INT64, 19), (UINT64, 20)];
    for (integer, digits) in counts {
        for scale in 0..=38 - digits {
            beside_integer((digits + scale, scale), integer, digits + scale);
            beside_integer((digits + scale - 1, scale), integer, 38);
        }
    }
}

/// The probes of tank 7 and tank 9.
#[test]
#[cfg_attr(not(polars_src), ignore = "no text of polars-core 0.55.2")]
fn int32_with_uint64() {
    supertypes(&[(plain(INT32), plain(UINT64), plain(FLOAT64))]);
    assert_eq!(upcast(&plain(INT32), &plain(UINT64)), Some(plain(INT128)));
}

/// The steps of corner 18, and what the lossless upcast has no answer for.
#[test]
#[cfg_attr(not(polars_src), ignore = "no text of polars-core 0.55.2")]
fn lossless_upcasts() {
    assert_eq!(upcast(&plain(UINT64), &plain(INT8)), Some(plain(INT128)));
    assert_eq!(upcast(&plain(INT128), &plain(UINT128)), None);
    assert_eq!(upcast(&plain(UINT128), &plain(UINT8)), Some(plain(UINT128)));
    assert_eq!(upcast(&plain(FLOAT16), &plain(FLOAT32)), Some(plain(FLOAT32)));
    let int8 = plain(INT8);
    let without = [
        plain(INT8),
        list(&int8),
        array(1, &int8),
        structure(&[(1, int8.clone())]),
        dyn_int(1),
        plain(DYN_FLOAT),
        plain(FLOAT64),
        plain(BOOLEAN),
        plain(STRING),
        decimal(10, 2),
        plain(DATE),
    ];
    for other in without {
        assert_eq!(upcast(&int8, &other), None, "{other:?}");
        assert_eq!(upcast(&other, &int8), None, "{other:?}");
    }
}

#[test]
#[cfg_attr(not(polars_src), ignore = "no text of polars-core 0.55.2")]
fn the_coarser_of_two_time_units() {
    for l in 0..=2 {
        for r in 0..=2 {
            assert_eq!(oracle::get_time_units(l, r), l.max(r));
        }
    }
}
