//! What a person reads, word for word: the names of kinds, and the causes of refusals with their numbers.

use lomzegash::kind::{self, *};
use lomzegash::supertype::JoinReport;
use lomzegash::{dtype, Error};

/// Document 01's codes from 0 to 31: the constant and the name of each.
const KINDS: [(u8, &str); 32] = [
    (NULL, "Null"),
    (BOOLEAN, "Boolean"),
    (UINT8, "UInt8"),
    (UINT16, "UInt16"),
    (UINT32, "UInt32"),
    (UINT64, "UInt64"),
    (UINT128, "UInt128"),
    (INT8, "Int8"),
    (INT16, "Int16"),
    (INT32, "Int32"),
    (INT64, "Int64"),
    (INT128, "Int128"),
    (FLOAT16, "Float16"),
    (FLOAT32, "Float32"),
    (FLOAT64, "Float64"),
    (DECIMAL, "Decimal"),
    (STRING, "String"),
    (BINARY, "Binary"),
    (BINARY_OFFSET, "BinaryOffset"),
    (DATE, "Date"),
    (DATETIME, "Datetime"),
    (DURATION, "Duration"),
    (TIME, "Time"),
    (UNKNOWN_ANY, "Unknown(Any)"),
    (UNKNOWN_STR, "Unknown(Str)"),
    (UNKNOWN_FLOAT, "Unknown(Float)"),
    (UNKNOWN_INT_POS, "Unknown(Int(v)), v ≥ 0"),
    (UNKNOWN_INT_NEG, "Unknown(Int(v)), v < 0"),
    (LIST, "List"),
    (ARRAY, "Array"),
    (STRUCT, "Struct"),
    (FIELD, "field"),
];

/// Document 01's causes from 1 to 12, but for the limits, which stand in the proved code alone.
const ERRORS: [(Error, &str, &str); 12] = [
    (
        Error::Length,
        "Length",
        "no node, too many nodes, a type's two array lengths differ, or stored length under 2 or not 2 + 9 × n",
    ),
    (Error::Kind, "Kind", "kind above 31"),
    (Error::Argument, "Argument", "argument outside its rule"),
    (Error::Shape, "Shape", "nodes don't form exactly one type"),
    (Error::Depth, "Depth", "depth over the limit"),
    (Error::Nested, "Nested", "nested type in a supertype call"),
    (Error::Unknown, "Unknown", "any, not allowed, in materialising"),
    (Error::OutputTooShort, "OutputTooShort", "an output array shorter than the result"),
    (Error::Channel, "Channel", "channel number over the limit"),
    (Error::ChannelCode, "ChannelCode", "addressed channel holds neither 0 nor 2 to 11"),
    (Error::NotAnInteger, "NotAnInteger", "offered type not an integer code 2 to 11"),
    (Error::NoUpcast, "NoUpcast", "in an offer, held and offered are unequal integers whose upcast is None"),
];

#[test]
fn each_kind_has_its_code_and_its_name() {
    for ((constant, name), code) in KINDS.into_iter().zip(0..) {
        assert_eq!((constant, kind::name(code)), (code, Some(name)));
    }
    assert!((32..=u8::MAX).all(|code| kind::name(code).is_none()));
}

#[test]
fn each_error_has_its_number_and_its_text() {
    for ((error, name, text), number) in ERRORS.into_iter().zip(1..) {
        assert_eq!((error.number(), Error::from_number(number)), (number, Some(error)));
        assert_eq!((format!("{error:?}"), error.to_string()), (name.to_owned(), text.to_owned()));
    }
    assert_eq!(Error::ALL, ERRORS.map(|(error, _, _)| error));
    // 13 is retired.
    assert_eq!([0, 13, 14, u64::MAX].map(Error::from_number), [None; 4]);
}

#[test]
fn each_report_has_its_value_and_its_name() {
    let reports = [JoinReport::Kept, JoinReport::Avoidable, JoinReport::Unavoidable, JoinReport::NotIntegers];
    assert_eq!(reports.map(|report| report as u64), [0, 1, 2, 3]);
    assert_eq!(format!("{:?}", JoinReport::ALL), "[Kept, Avoidable, Unavoidable, NotIntegers]");
}

#[test]
fn a_shape_reads_as_its_widths() {
    let array = lomzegash::encode_to_vec(&[ARRAY, ARRAY, INT8], &[3, 0, 0]).expect("a type");
    assert_eq!(format!("{:?}", dtype::get_shape(&array)), "Ok(Some([3, 0]))");
}
