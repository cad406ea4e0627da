//! Corners 1 to 18 of document 01, by its own words: of the port, and of the crate's text where the crate has the rule.
//! And the sentences of change requests One and Two.

use lomzegash::dtype;
use lomzegash::kind::*;
use lomzegash::{ChannelTypes, Error};
use oracle::Type;
use trials::channels::FORMS;
use trials::entries::Outcome;
use trials::flat::Flat;
use trials::input::Input;
use trials::joins::{self, Join};

/// Who is asked: the port, or the crate's own text.
#[derive(Clone, Copy)]
enum Who {
    Port,
    Crate,
}

/// Each of these as two tests, one of the port and one of the crate's text, which is ignored where there is none.
macro_rules! of_both {
    ($($corner:ident)*) => {
        mod of_the_port {
            $(
                #[test]
                fn $corner() {
                    super::$corner(super::Who::Port);
                }
            )*
        }

        mod of_the_crate {
            $(
                #[test]
                #[cfg_attr(not(polars_src), ignore = "no text of polars-core 0.55.2")]
                fn $corner() {
                    super::$corner(super::Who::Crate);
                }
            )*
        }
    };
}

of_both! {
    corner_1_the_left_of_two_dyn_ints_returns
    corner_2_any_with_string_gives_string_and_string_with_any_gives_any
    corner_3_dyn_int_with_str
    corner_4_uint64_with_negative_dyn_ints
    corner_5_uint128_with_int8
    corner_6_binaries_with_string
    corner_7_boolean_with_dyn_float_and_date_with_dyn_int_give_any
    corner_8_floats_with_integers
    corner_9_integers_with_dyn_ints
    corner_10_datetimes_of_different_zones_have_no_supertype
    int32_with_uint64
    the_lossless_upcast_takes_any_two_types
    corner_11_an_empty_struct_casts_to_any_struct
    corner_12_the_first_no_or_no_verdict_decides
    corner_13_arrays_of_unequal_width_do_not_cast
    corner_14_boolean_does_not_cast_to_null_but_null_to_boolean
    corner_15_what_becomes_of_unknown_types
    corner_16_the_physical_forms
    corner_17_leaf_types_and_shapes
    request_2_the_decimal_keeps_its_precision_or_gets_38
    request_2_the_digit_counts
    request_2_the_128_bit_types_always_give_38
    request_2_boolean_with_decimal_has_no_supertype
}

const YES: Option<bool> = Some(true);
const NO: Option<bool> = Some(false);
const NO_VERDICT: Option<bool> = None;

fn leaf(kind: u8) -> Flat {
    Flat::new(&[(kind, 0)])
}

fn over(node: (u8, u64), inner: &Flat) -> Flat {
    Flat::repeated(&[node], 1, inner)
}

fn list(inner: &Flat) -> Flat {
    over((LIST, 0), inner)
}

fn array(width: u64, inner: &Flat) -> Flat {
    over((ARRAY, width), inner)
}

/// A Struct of these types, whose fields have names from `first_name` on.
fn fields(first_name: u64, types: &[Flat]) -> Flat {
    let mut flat = Flat::new(&[(STRUCT, types.len() as u64)]);
    for (name, dtype) in (first_name..).zip(types) {
        flat.extend(&over((FIELD, name), dtype));
    }
    flat
}

fn type_of(flat: &Flat) -> Type {
    Type::from_flat(&flat.kinds, &flat.args)
}

/// Whether `from` casts to `to`.
fn casts(who: Who, from: &Flat, to: &Flat, expected: Option<bool>) {
    let verdict = match who {
        Who::Port => dtype::can_cast_to(&from.laid_out(), &to.laid_out()).expect("two types"),
        Who::Crate => type_of(from).can_cast_to(&type_of(to)),
    };
    assert_eq!(verdict, expected, "{from:?} to {to:?}");
}

fn dyn_int(value: i128) -> Flat {
    let arg = if value < 0 { -1 - value } else { value };
    let kind = if value < 0 { UNKNOWN_INT_NEG } else { UNKNOWN_INT_POS };
    Flat::new(&[(kind, arg as u64)])
}

fn datetime(unit: u64, zone: u64) -> Flat {
    Flat::new(&[(DATETIME, 4 * zone + unit)])
}

fn decimal(precision: u64, scale: u64) -> Flat {
    Flat::new(&[(DECIMAL, 256 * scale + precision)])
}

/// What a join of two types is; None where there is none.
fn joins(who: Who, join: Join, left: &Flat, right: &Flat, expected: Option<&Flat>) {
    let (l, r, mut out) = (left.laid_out(), right.laid_out(), [0; 11]);
    let answer = match who {
        Who::Port => {
            join.on_bytes(&l, &r, &mut out).map(|written| written.map(|len| out[..len].to_vec())).map_err(Error::number)
        }
        Who::Crate => match join.outcome(&Input::new(l), &Input::new(r)) {
            Outcome::Written(bytes) => Ok(Some(bytes)),
            Outcome::None => Ok(None),
            Outcome::Refused(number) => Err(number),
        },
    };
    assert_eq!(answer, Ok(expected.map(Flat::laid_out)), "{join:?} of {left:?} and {right:?}");
}

/// The supertype with primitive-to-string off or on; the implode flag changes nothing.
fn supertype_where(who: Who, to_string: bool, left: &Flat, right: &Flat, expected: Option<&Flat>) {
    for implode in [false, true] {
        joins(who, joins::supertype(implode, to_string), left, right, expected);
    }
}

/// The supertype, whatever the flags.
fn supertype(who: Who, left: &Flat, right: &Flat, expected: &Flat) {
    for to_string in [false, true] {
        supertype_where(who, to_string, left, right, Some(expected));
    }
}

/// What the port writes, with room for as much as it was given.
fn written(
    port: impl Fn(&[u8], &mut [u8]) -> Result<Option<usize>, Error>,
    of: &Flat,
) -> Result<Option<Vec<u8>>, Error> {
    let encoded = of.laid_out();
    let mut out = vec![0; encoded.len()];
    port(&encoded, &mut out).map(|written| written.map(|len| out[..len].to_vec()))
}

/// What becomes of a type in materialising; None where the call is refused by 7.
fn materializes(who: Who, of: &Flat, allow_unknown: bool, expected: Option<&Flat>) {
    let known = match who {
        Who::Port => written(|encoded, out| dtype::materialize_unknown(encoded, allow_unknown, out).map(Some), of),
        Who::Crate => {
            let known = type_of(of).materialize_unknown(allow_unknown);
            known.map(|dtype| Some(dtype.encode())).ok_or(Error::Unknown)
        }
    };
    assert_eq!(known, expected.map(|flat| Some(flat.laid_out())).ok_or(Error::Unknown), "{of:?}");
}

fn physical(who: Who, of: &Flat, expected: &Flat) {
    let form = match who {
        Who::Port => written(|encoded, out| dtype::to_physical(encoded, out).map(Some), of),
        Who::Crate => Ok(Some(type_of(of).to_physical().encode())),
    };
    assert_eq!(form, Ok(Some(expected.laid_out())), "{of:?}");
}

fn leaf_dtype(who: Who, of: &Flat, expected: &Flat) {
    let leaf = match who {
        Who::Port => written(|encoded, out| dtype::leaf_dtype(encoded, out).map(Some), of),
        Who::Crate => Ok(Some(type_of(of).leaf_dtype().encode())),
    };
    assert_eq!(leaf, Ok(Some(expected.laid_out())), "{of:?}");
}

fn shape(who: Who, of: &Flat, expected: Option<&[u64]>) {
    let widths = match who {
        Who::Port => dtype::get_shape(&of.laid_out()).expect("a type").map(|shape| shape.widths().to_vec()),
        Who::Crate => type_of(of).get_shape(),
    };
    assert_eq!(widths.as_deref(), expected, "{of:?}");
}

/// What the merge of a column into a channel answers, in each form of the call; gives the types as it leaves them.
fn merges(types: ChannelTypes, channel: usize, column: &Flat, expected: Result<u8, Error>) -> ChannelTypes {
    let mut codes = *types.codes();
    if let Ok(code) = expected {
        codes[channel] = code;
    }
    let after = ChannelTypes::from_codes(codes);
    for form in FORMS {
        let mut lent = types;
        let answer = (form.merge)(&mut lent, channel, &column.clone().into());
        assert_eq!((answer, lent), (expected, after), "{}: {column:?} into {channel} of {types:?}", form.name);
    }
    after
}

/// Types with this byte in one channel, and no other.
fn holding(channel: usize, byte: u8) -> ChannelTypes {
    let mut codes = [0; ChannelTypes::CHANNELS];
    codes[channel] = byte;
    ChannelTypes::from_codes(codes)
}

fn corner_1_the_left_of_two_dyn_ints_returns(who: Who) {
    let [one, three_hundred, least] = [1, 300, -(1 << 64)].map(dyn_int);
    supertype(who, &one, &three_hundred, &one);
    supertype(who, &three_hundred, &one, &three_hundred);
    supertype(who, &least, &one, &least);
    supertype(who, &one, &least, &one);
}

fn corner_2_any_with_string_gives_string_and_string_with_any_gives_any(who: Who) {
    supertype(who, &leaf(UNKNOWN_ANY), &leaf(STRING), &leaf(STRING));
    supertype(who, &leaf(STRING), &leaf(UNKNOWN_ANY), &leaf(UNKNOWN_ANY));
}

fn corner_3_dyn_int_with_str(who: Who) {
    let (five, str, any) = (dyn_int(5), leaf(UNKNOWN_STR), leaf(UNKNOWN_ANY));
    supertype_where(who, true, &five, &str, Some(&any));
    supertype_where(who, true, &str, &five, Some(&str));
    supertype_where(who, false, &five, &str, Some(&any));
    supertype_where(who, false, &str, &five, Some(&any));
}

fn corner_4_uint64_with_negative_dyn_ints(who: Who) {
    let uint64 = leaf(UINT64);
    supertype(who, &uint64, &dyn_int(-1), &leaf(INT64));
    supertype(who, &uint64, &dyn_int(-(1 << 63)), &leaf(INT64));
    supertype(who, &uint64, &dyn_int(-(1 << 63) - 1), &uint64);
    supertype(who, &uint64, &dyn_int(-(1 << 64)), &uint64);
}

fn corner_5_uint128_with_int8(who: Who) {
    let (uint128, int8, int128) = (leaf(UINT128), leaf(INT8), leaf(INT128));
    supertype(who, &uint128, &int8, &int128);
    supertype(who, &int8, &uint128, &int128);
    joins(who, Join::Lossless, &uint128, &int8, None);
    joins(who, Join::Lossless, &int8, &uint128, None);
}

fn corner_6_binaries_with_string(who: Who) {
    supertype_where(who, false, &leaf(BINARY_OFFSET), &leaf(STRING), Some(&leaf(STRING)));
    supertype(who, &leaf(BINARY), &leaf(STRING), &leaf(BINARY));
}

fn corner_7_boolean_with_dyn_float_and_date_with_dyn_int_give_any(who: Who) {
    supertype(who, &leaf(BOOLEAN), &leaf(UNKNOWN_FLOAT), &leaf(UNKNOWN_ANY));
    supertype(who, &leaf(DATE), &dyn_int(5), &leaf(UNKNOWN_ANY));
}

fn corner_8_floats_with_integers(who: Who) {
    for (integer, float) in [(INT8, FLOAT16), (INT16, FLOAT32), (INT32, FLOAT64)] {
        supertype(who, &leaf(FLOAT16), &leaf(integer), &leaf(float));
    }
    supertype(who, &leaf(INT32), &leaf(FLOAT32), &leaf(FLOAT64));
}

fn corner_9_integers_with_dyn_ints(who: Who) {
    let cases = [
        (INT8, 127, INT8),
        (INT8, 128, INT16),
        (UINT8, 255, UINT8),
        (UINT8, 256, UINT16),
        (INT64, (1 << 63) - 1, INT64),
        (INT64, 1 << 63, FLOAT64),
    ];
    for (integer, value, expected) in cases {
        supertype(who, &leaf(integer), &dyn_int(value), &leaf(expected));
    }
}

fn corner_10_datetimes_of_different_zones_have_no_supertype(who: Who) {
    for unit in 0..=2 {
        for (left, right) in [(1, 2), (2, 1), (0, 1), (1, 0), (0, (1 << 32) - 1)] {
            for to_string in [false, true] {
                supertype_where(who, to_string, &datetime(0, left), &datetime(unit, right), None);
            }
        }
        for zone in [0, 1, (1 << 32) - 1] {
            supertype(who, &datetime(0, zone), &datetime(unit, zone), &datetime(unit, zone));
        }
    }
}

/// The probes of tank 7 and tank 9: one rule says Float64, the other Int128.
fn int32_with_uint64(who: Who) {
    let (old, new) = (leaf(INT32), leaf(UINT64));
    supertype(who, &old, &new, &leaf(FLOAT64));
    joins(who, Join::Lossless, &old, &new, Some(&leaf(INT128)));
}

/// 6 asks about the two types and not about what stands inside them, and 8 comes after it.
#[test]
fn refusals_6_and_8_of_the_supertype() {
    let (decimal, int8) = (decimal(10, 2), leaf(INT8));
    let cases = [
        (&decimal, &list(&int8), Error::Nested),
        (&list(&decimal), &int8, Error::Nested),
        (&fields(0, std::slice::from_ref(&decimal)), &int8, Error::Nested),
        (&int8, &array(1, &decimal), Error::Nested),
        (&decimal, &leaf(FLOAT64), Error::OutputTooShort),
        (&int8, &leaf(INT16), Error::OutputTooShort),
    ];
    for (left, right, error) in cases {
        refused_without_room(left, right, error);
    }
}

/// The refusal of the supertype, whatever the flags, of a call that has no output.
fn refused_without_room(left: &Flat, right: &Flat, error: Error) {
    for join in &joins::JOINS[1..] {
        let answer = join.on_bytes(&left.laid_out(), &right.laid_out(), &mut []);
        assert_eq!(answer, Err(error), "{join:?} of {left:?} and {right:?}");
    }
}

/// It isn't a supertype call in the sense of 6.
fn the_lossless_upcast_takes_any_two_types(who: Who) {
    let (decimal, int8) = (decimal(10, 2), leaf(INT8));
    let without = [
        (&decimal, &int8),
        (&int8, &decimal),
        (&list(&int8), &int8),
        (&int8, &Flat::wide_struct(255)),
        (&int8, &int8),
        (&int8, &dyn_int(300)),
        (&int8, &leaf(FLOAT64)),
        (&leaf(BOOLEAN), &int8),
    ];
    for (left, right) in without {
        joins(who, Join::Lossless, left, right, None);
    }
}

/// A None has no result that could be too long.
#[test]
fn no_lossless_upcast_needs_no_room() {
    let [int8, list] = [leaf(INT8), list(&leaf(INT8))].map(|flat| flat.laid_out());
    for (left, right) in [(&int8, &int8), (&list, &int8), (&int8, &list)] {
        assert_eq!(Join::Lossless.on_bytes(left, right, &mut []), Ok(None));
    }
}

fn corner_11_an_empty_struct_casts_to_any_struct(who: Who) {
    let empty = Flat::wide_struct(0);
    let two = fields(0, &[leaf(BOOLEAN), leaf(DATE)]);
    casts(who, &empty, &empty, YES);
    casts(who, &empty, &fields(0, &[leaf(DATE)]), YES);
    casts(who, &empty, &two, YES);
    casts(who, &empty, &Flat::wide_struct(255), YES);
    casts(who, &list(&empty), &list(&two), YES);
    casts(who, &two, &empty, NO);
    casts(who, &two, &fields(0, &[leaf(BOOLEAN)]), NO);
    casts(who, &fields(0, &[leaf(DATE)]), &fields(0, &[leaf(TIME), leaf(TIME)]), NO);
}

fn corner_12_the_first_no_or_no_verdict_decides(who: Who) {
    let from = fields(0, &[leaf(BOOLEAN), leaf(INT8)]);
    casts(who, &leaf(INT8), &leaf(STRING), NO_VERDICT);
    casts(who, &from, &fields(0, &[leaf(NULL), leaf(STRING)]), NO);
    let turned = fields(0, &[leaf(INT8), leaf(BOOLEAN)]);
    casts(who, &turned, &fields(0, &[leaf(STRING), leaf(NULL)]), NO_VERDICT);
    casts(who, &from, &fields(0, &[leaf(STRING), leaf(INT64)]), YES);
    casts(who, &from, &fields(7, &[leaf(STRING), leaf(INT64)]), YES);
    casts(who, &from, &fields(7, &[leaf(STRING), leaf(STRING)]), NO_VERDICT);
}

fn corner_13_arrays_of_unequal_width_do_not_cast(who: Who) {
    casts(who, &array(2, &leaf(INT8)), &array(3, &leaf(STRING)), NO);
    casts(who, &array(2, &leaf(INT8)), &array(3, &leaf(INT8)), NO);
    casts(who, &array(2, &leaf(INT8)), &array(2, &leaf(INT16)), YES);
    casts(who, &array(2, &leaf(INT8)), &array(2, &leaf(STRING)), NO_VERDICT);
    casts(who, &list(&leaf(INT8)), &list(&leaf(STRING)), NO_VERDICT);
    casts(who, &list(&leaf(INT8)), &array(2, &leaf(INT8)), NO_VERDICT);
}

fn corner_14_boolean_does_not_cast_to_null_but_null_to_boolean(who: Who) {
    casts(who, &leaf(BOOLEAN), &leaf(NULL), NO);
    casts(who, &leaf(NULL), &leaf(BOOLEAN), YES);
    casts(who, &leaf(NULL), &Flat::wide_struct(3), YES);
    casts(who, &Flat::wide_struct(3), &leaf(NULL), NO_VERDICT);
}

fn corner_15_what_becomes_of_unknown_types(who: Who) {
    let (int31, int63) = (1 << 31, 1 << 63);
    let dyns = [
        (UNKNOWN_INT_POS, 0, INT32),
        (UNKNOWN_INT_POS, int31 - 1, INT32),
        (UNKNOWN_INT_POS, int31, INT64),
        (UNKNOWN_INT_POS, int63 - 1, INT64),
        (UNKNOWN_INT_POS, int63, UINT64),
        (UNKNOWN_INT_POS, u64::MAX, UINT64),
        (UNKNOWN_INT_NEG, int31 - 1, INT32),
        (UNKNOWN_INT_NEG, int31, INT64),
        (UNKNOWN_INT_NEG, int63 - 1, INT64),
        (UNKNOWN_INT_NEG, int63, INT128), // −2^63 − 1
        (UNKNOWN_INT_NEG, u64::MAX, INT128),
        (UNKNOWN_FLOAT, 0, FLOAT64),
        (UNKNOWN_STR, 0, STRING),
        (DATE, 0, DATE),
    ];
    for (kind, arg, known) in dyns {
        for allow_unknown in [false, true] {
            materializes(who, &Flat::new(&[(kind, arg)]), allow_unknown, Some(&leaf(known)));
        }
    }
    let any = leaf(UNKNOWN_ANY);
    materializes(who, &any, true, Some(&any));
    materializes(who, &any, false, None);
    let mixed = fields(4, &[leaf(UNKNOWN_STR), list(&any), leaf(UNKNOWN_FLOAT)]);
    materializes(who, &mixed, true, Some(&fields(4, &[leaf(STRING), list(&any), leaf(FLOAT64)])));
    materializes(who, &mixed, false, None);
}

/// Where the whole call is refused by 7, there is no result that could be too long.
#[test]
fn corner_15_any_is_refused_before_a_short_output() {
    let any = list(&leaf(UNKNOWN_ANY)).laid_out();
    assert_eq!(dtype::materialize_unknown(&any, false, &mut []), Err(Error::Unknown));
    assert_eq!(dtype::materialize_unknown(&any, true, &mut []), Err(Error::OutputTooShort));
}

fn corner_16_the_physical_forms(who: Who) {
    let forms = [
        ((DATE, 0), INT32),
        ((DATETIME, 0), INT64),
        ((DATETIME, 4 * 9 + 2), INT64),
        ((DURATION, 1), INT64),
        ((TIME, 0), INT64),
        ((DECIMAL, 256 * 2 + 10), INT128),
    ];
    for (node, form) in forms {
        let (logical, form) = (Flat::new(&[node]), leaf(form));
        physical(who, &logical, &form);
        physical(who, &array(5, &list(&logical)), &array(5, &list(&form)));
        physical(who, &fields(3, &[leaf(STRING), logical]), &fields(3, &[leaf(STRING), form]));
    }
    for kind in (NULL..=FLOAT64).chain(STRING..=BINARY_OFFSET).chain(UNKNOWN_ANY..=UNKNOWN_INT_NEG) {
        physical(who, &leaf(kind), &leaf(kind));
    }
}

fn corner_17_leaf_types_and_shapes(who: Who) {
    let inner = fields(0, &[list(&leaf(INT8))]);
    leaf_dtype(who, &list(&array(3, &list(&leaf(DATE)))), &leaf(DATE));
    leaf_dtype(who, &array(3, &list(&inner)), &inner);
    leaf_dtype(who, &inner, &inner);
    shape(who, &array(3, &array(0, &leaf(INT8))), Some(&[3, 0]));
    shape(who, &array(3, &list(&array(4, &leaf(INT8)))), Some(&[3]));
    shape(who, &array(u64::MAX, &inner), Some(&[u64::MAX]));
    shape(who, &list(&array(3, &leaf(INT8))), None);
    shape(who, &leaf(INT8), None);
    let deepest: Vec<u64> = (1..=32).collect();
    shape(who, &deepest.iter().rev().fold(leaf(INT8), |inner, &width| array(width, &inner)), Some(&deepest));
}

#[test]
fn corner_18_a_channel_widens_and_never_loses_a_number() {
    for channel in [0, 31] {
        let types = merges(ChannelTypes::new(), channel, &leaf(UINT64), Ok(UINT64));
        let types = merges(types, channel, &leaf(INT8), Ok(INT128));
        let types = merges(types, channel, &leaf(UINT128), Err(Error::NoUpcast));
        assert_eq!(types, holding(channel, INT128));
        let types = merges(ChannelTypes::new(), channel, &leaf(UINT128), Ok(UINT128));
        let types = merges(types, channel, &leaf(UINT8), Ok(UINT128));
        assert_eq!(types, holding(channel, UINT128));
    }
}

/// The lossless upcast of two equal types is None, but a channel keeps what it holds.
#[test]
fn an_equal_type_keeps_the_held_one() {
    for kind in UINT8..=INT128 {
        merges(holding(5, kind), 5, &leaf(kind), Ok(kind));
    }
}

#[test]
fn there_are_32_channels() {
    assert_eq!(ChannelTypes::CHANNELS, 32);
    merges(ChannelTypes::new(), 31, &leaf(INT8), Ok(INT8));
    for channel in [32, 33, 256, usize::MAX] {
        merges(ChannelTypes::new(), channel, &leaf(INT8), Err(Error::Channel));
    }
}

/// A byte that is no code matters where it is addressed, and nowhere else.
#[test]
fn a_channel_holds_0_or_2_to_11() {
    for byte in [1, 12, 255] {
        merges(holding(5, byte), 5, &leaf(INT8), Err(Error::ChannelCode));
        for other in [4, 6] {
            merges(holding(5, byte), other, &leaf(INT8), Ok(INT8));
        }
    }
    merges(holding(5, 0), 5, &leaf(INT8), Ok(INT8));
    merges(holding(5, 2), 5, &leaf(INT8), Ok(INT16));
    merges(holding(5, 11), 5, &leaf(INT8), Ok(INT128));
}

#[test]
fn a_channel_takes_integer_types_and_null_alone() {
    for kind in [BOOLEAN, FLOAT16, FLOAT64, STRING, DATE, UNKNOWN_ANY] {
        merges(ChannelTypes::new(), 5, &leaf(kind), Err(Error::NotAnInteger));
    }
    for kind in (UINT8..=INT128).chain([NULL]) {
        merges(ChannelTypes::new(), 5, &leaf(kind), Ok(kind));
    }
    let nested = [INT8, NULL].map(leaf).map(|inner| [list(&inner), array(1, &inner), fields(0, &[inner])]);
    let others = [Flat::wide_struct(0), dyn_int(1), dyn_int(-1), Flat::new(&[(DECIMAL, 10)])];
    for column in nested.into_iter().flatten().chain(others) {
        merges(ChannelTypes::new(), 5, &column, Err(Error::NotAnInteger));
        merges(holding(5, INT8), 5, &column, Err(Error::NotAnInteger));
    }
}

/// "From now on an offer of Null is accepted and leaves the channel as it is, answering the code held, 0 if empty."
#[test]
fn request_1_null_leaves_the_channel_as_it_is() {
    for channel in [0, 5, 31] {
        assert_eq!(merges(ChannelTypes::new(), channel, &leaf(NULL), Ok(0)), ChannelTypes::new());
        for code in UINT8..=INT128 {
            assert_eq!(merges(holding(channel, code), channel, &leaf(NULL), Ok(code)), holding(channel, code));
        }
    }
}

/// "The least listed type over the accepted columns that have a number at all, and 0 where there is none."
#[test]
fn request_1_a_channel_holds_the_least_type_over_columns_that_have_a_number() {
    let types = merges(ChannelTypes::new(), 7, &leaf(NULL), Ok(0));
    let types = merges(types, 7, &leaf(NULL), Ok(0));
    assert_eq!(types.get(7), None);
    let types = merges(types, 7, &leaf(INT8), Ok(INT8));
    let types = merges(types, 7, &leaf(NULL), Ok(INT8));
    let types = merges(types, 7, &leaf(UINT8), Ok(INT16));
    let types = merges(types, 7, &leaf(NULL), Ok(INT16));
    let types = merges(types, 7, &leaf(UINT128), Err(Error::NoUpcast));
    assert_eq!(merges(types, 7, &leaf(NULL), Ok(INT16)), holding(7, INT16));
}

/// "Refused: nothing added; 11 is no longer given for Null." It meets 1 to 5, 9 and 10, in this order, and never 12.
#[test]
fn request_1_what_null_is_refused_by() {
    let no_types = [
        (Flat { kinds: vec![NULL], args: vec![] }, Error::Length),
        (Flat::new(&[(NULL, 1), (FIELD + 1, 0)]), Error::Kind),
        (Flat::new(&[(NULL, 1)]), Error::Argument),
        (Flat::new(&[(NULL, 0), (NULL, 0)]), Error::Shape),
        (Flat::repeated(&[(LIST, 0)], 33, &leaf(NULL)), Error::Depth),
    ];
    for (column, error) in no_types {
        for types in [ChannelTypes::new(), holding(5, INT8), holding(5, 1)] {
            merges(types, 5, &column, Err(error));
            merges(types, 32, &column, Err(error));
        }
    }
    for byte in [1, 12, 255] {
        merges(holding(5, byte), 5, &leaf(NULL), Err(Error::ChannelCode));
        merges(holding(5, byte), 32, &leaf(NULL), Err(Error::Channel));
        merges(holding(5, byte), 6, &leaf(NULL), Ok(0));
    }
    merges(holding(5, UINT128), 5, &leaf(NULL), Ok(UINT128));
}

/// The supertype of a Decimal, by precision and scale, and an integer type, in either order, has this precision.
fn beside_integer(who: Who, (precision, scale): (u64, u64), integer: u8, expected: u64) {
    let (dtype, integer, expected) = (decimal(precision, scale), leaf(integer), decimal(expected, scale));
    supertype(who, &dtype, &integer, &expected);
    supertype(who, &integer, &dtype, &expected);
}

/// "The Decimal keeps its precision p and scale s where the integer type's largest value has at most p − s digits, else
/// its precision becomes 38."
fn request_2_the_decimal_keeps_its_precision_or_gets_38(who: Who) {
    beside_integer(who, (10, 2), INT32, 38);
    beside_integer(who, (12, 2), INT32, 12);
    beside_integer(who, (38, 20), INT64, 38);
    beside_integer(who, (37, 30), INT64, 38);
    beside_integer(who, (5, 0), UINT16, 5);
    beside_integer(who, (4, 0), UINT16, 38);
    beside_integer(who, (1, 1), INT8, 38);
}

/// "The digit counts are 3 for 8-bit types, 5 for 16, 10 for 32, 19 for Int64 and 20 for UInt64."
fn request_2_the_digit_counts(who: Who) {
    let counts = [(UINT8, 3), (INT8, 3), (UINT16, 5), (INT16, 5), (UINT32, 10), (INT32, 10), (INT64, 19), (UINT64, 20)];
    for (integer, digits) in counts {
        for scale in [0, 1, 38 - digits] {
            beside_integer(who, (digits + scale, scale), integer, digits + scale);
            beside_integer(who, (digits + scale - 1, scale), integer, 38);
        }
    }
}

/// "The 128-bit types always give 38."
fn request_2_the_128_bit_types_always_give_38(who: Who) {
    for of in [(1, 0), (1, 1), (10, 2), (37, 0), (38, 0), (38, 38)] {
        beside_integer(who, of, UINT128, 38);
        beside_integer(who, of, INT128, 38);
    }
}

/// The arm is one of integer types alone.
fn request_2_boolean_with_decimal_has_no_supertype(who: Who) {
    for to_string in [false, true] {
        supertype_where(who, to_string, &decimal(10, 2), &leaf(BOOLEAN), None);
        supertype_where(who, to_string, &leaf(BOOLEAN), &decimal(10, 2), None);
    }
}

/// "Refused: nothing added; 13 no longer occurs." A Decimal with an integer type meets 1 to 5, the left type's first,
/// and 8.
#[test]
fn request_2_what_a_decimal_with_an_integer_is_refused_by() {
    let no_decimals = [
        (Flat::default(), Error::Length),
        (Flat::new(&[(DECIMAL, 10), (FIELD + 1, 0)]), Error::Kind),
        (decimal(39, 2), Error::Argument),
        (decimal(2, 3), Error::Argument),
        (Flat::new(&[(DECIMAL, 10), (DECIMAL, 10)]), Error::Shape),
        (Flat::repeated(&[(LIST, 0)], 33, &decimal(10, 2)), Error::Depth),
    ];
    let no_integer = Flat::new(&[(INT32, 1)]);
    for (no_decimal, error) in &no_decimals {
        refused_without_room(no_decimal, &leaf(INT32), *error);
        refused_without_room(&leaf(INT32), no_decimal, *error);
        refused_without_room(no_decimal, &no_integer, *error);
        refused_without_room(&no_integer, no_decimal, Error::Argument);
    }
    for integer in (UINT8..=INT128).map(leaf) {
        refused_without_room(&decimal(10, 2), &integer, Error::OutputTooShort);
        refused_without_room(&integer, &decimal(10, 2), Error::OutputTooShort);
    }
}

/// Of several refusals that apply the lowest number is given: 1 to 5 of the type, then 9, 10 and 11.
#[test]
fn refusals_of_a_merge_in_their_order() {
    let no_types = [
        (Flat::default(), Error::Length),
        (leaf(32), Error::Kind),
        (Flat::new(&[(INT8, 1)]), Error::Argument),
        (Flat::new(&[(INT8, 0), (INT8, 0)]), Error::Shape),
        (Flat::lists(33), Error::Depth),
    ];
    let damaged = ChannelTypes::from_codes([1; ChannelTypes::CHANNELS]);
    for (column, error) in no_types {
        merges(damaged, 32, &column, Err(error));
        merges(damaged, 5, &column, Err(error));
    }
    merges(damaged, 32, &leaf(STRING), Err(Error::Channel));
    merges(damaged, 32, &leaf(INT8), Err(Error::Channel));
    merges(damaged, 31, &leaf(STRING), Err(Error::ChannelCode));
    merges(holding(5, UINT128), 5, &leaf(STRING), Err(Error::NotAnInteger));
    merges(holding(5, UINT128), 5, &leaf(INT8), Err(Error::NoUpcast));
}
