//! Between the crate's types and document 01's flat types.

use crate::datatypes::{DataType, Field, TimeUnit, TimeZone, UnknownKind};
use crate::shim::polars_utils::pl_str::PlSmallStr;
use std::fmt::Write;

const MAX_NODES: usize = 512;
const MAX_DEPTH: usize = 32;
const MAX_FIELDS: u64 = 255;
const MAX_PRECISION: usize = 38;

const DECIMAL: u8 = 15;
const DATETIME: u8 = 20;
const DURATION: u8 = 21;
const DYN_NONNEGATIVE: u8 = 26;
const DYN_NEGATIVE: u8 = 27;
const LIST: u8 = 28;
const ARRAY: u8 = 29;
const STRUCT: u8 = 30;
const FIELD: u8 = 31;

/// The first letter of the text that a name's number stands for, and of a zone's.
const NAME: char = 'c';
const ZONE: char = 'z';

// A width is any number of 64 bits there and a `usize` here.
const _: () = assert!(usize::BITS == 64);

macro_rules! plain_kinds {
    ($($kind:literal $dtype:ident $(($unknown:ident))?)*) => {
        /// The type of a kind with no child whose argument is 0.
        fn plain(kind: u8) -> DataType {
            match kind {
                $($kind => DataType::$dtype $((UnknownKind::$unknown))?,)*
                _ => panic!("a node of kind {kind} is no type"),
            }
        }

        /// The kind of such a type.
        fn plain_kind(dtype: &DataType) -> u8 {
            match dtype {
                $(DataType::$dtype $((UnknownKind::$unknown))? => $kind,)*
                _ => unreachable!("{dtype:?} has an argument or a child"),
            }
        }
    };
}

plain_kinds! {
    0 Null
    1 Boolean
    2 UInt8
    3 UInt16
    4 UInt32
    5 UInt64
    6 UInt128
    7 Int8
    8 Int16
    9 Int32
    10 Int64
    11 Int128
    12 Float16
    13 Float32
    14 Float64
    16 String
    17 Binary
    18 BinaryOffset
    19 Date
    22 Time
    23 Unknown(Any)
    24 Unknown(Str)
    25 Unknown(Float)
}

/// The type of a flat type, which must be valid.
pub fn from_flat(kinds: &[u8], args: &[u64]) -> DataType {
    assert_eq!(kinds.len(), args.len(), "kinds and arguments");
    read(kinds, args.iter().copied())
}

/// The type of a flat type, which must be valid, with as many arguments as kinds.
pub fn read(kinds: &[u8], args: impl Iterator<Item = u64>) -> DataType {
    assert!(kinds.len() <= MAX_NODES, "{} nodes", kinds.len());
    let mut nodes = kinds.iter().copied().zip(args);
    let dtype = read_type(&mut nodes, 0);
    assert!(nodes.next().is_none(), "nodes behind the type");
    dtype
}

/// The type at the front of `nodes`, with `depth` nodes above it.
fn read_type(nodes: &mut impl Iterator<Item = (u8, u64)>, depth: usize) -> DataType {
    assert!(depth <= MAX_DEPTH, "depth {depth}");
    let (kind, arg) = nodes.next().expect("the nodes end inside a type");
    match kind {
        DECIMAL => decimal(arg),
        DATETIME => DataType::Datetime(unit(arg % 4), zone(arg / 4)),
        DURATION => DataType::Duration(unit(arg)),
        DYN_NONNEGATIVE => DataType::Unknown(UnknownKind::Int(arg.into())),
        DYN_NEGATIVE => DataType::Unknown(UnknownKind::Int(-1 - i128::from(arg))),
        ARRAY => DataType::Array(Box::new(read_type(nodes, depth + 1)), arg as usize),
        STRUCT => {
            assert!(arg <= MAX_FIELDS, "{arg} fields");
            DataType::Struct((0..arg).map(|_| read_field(nodes, depth + 1)).collect())
        }
        _ => {
            assert_eq!(arg, 0, "the argument of kind {kind}");
            match kind {
                LIST => DataType::List(Box::new(read_type(nodes, depth + 1))),
                _ => plain(kind),
            }
        }
    }
}

fn read_field(nodes: &mut impl Iterator<Item = (u8, u64)>, depth: usize) -> Field {
    let (kind, name) = nodes.next().expect("the nodes end inside a Struct");
    assert_eq!(kind, FIELD, "the kind of a Struct's child");
    Field::new(text(NAME, name), read_type(nodes, depth + 1))
}

fn decimal(arg: u64) -> DataType {
    let (precision, scale) = (arg as usize % 256, arg as usize / 256);
    assert!((1..=MAX_PRECISION).contains(&precision) && scale <= precision, "a Decimal's argument {arg}");
    DataType::Decimal(precision, scale)
}

/// The unit of a number.
pub fn unit(number: u64) -> TimeUnit {
    match number {
        0 => TimeUnit::Nanoseconds,
        1 => TimeUnit::Microseconds,
        2 => TimeUnit::Milliseconds,
        _ => panic!("{number} is no unit"),
    }
}

/// The number of a unit.
pub fn unit_number(unit: TimeUnit) -> u8 {
    match unit {
        TimeUnit::Nanoseconds => 0,
        TimeUnit::Microseconds => 1,
        TimeUnit::Milliseconds => 2,
    }
}

fn zone(number: u64) -> Option<TimeZone> {
    let name = (number > 0).then(|| text(ZONE, number));
    TimeZone::opt_try_new(name).expect("without its zone database the crate takes any name")
}

/// The text that a number below 2^32 stands for.
fn text(letter: char, number: u64) -> PlSmallStr {
    let number = u32::try_from(number).expect("the number of a name or a zone");
    let mut text = PlSmallStr::EMPTY;
    write!(text, "{letter}{number}").expect("the text is short");
    text
}

/// The number that stands for a text.
fn number(letter: char, text: &str) -> u64 {
    let number = text.strip_prefix(letter).and_then(|digits| digits.parse::<u32>().ok());
    number.unwrap_or_else(|| panic!("{text:?} stands for no number")).into()
}

/// The kinds and the arguments of a type.
pub fn to_flat(dtype: &DataType) -> (Vec<u8>, Vec<u64>) {
    let mut flat = Flat::default();
    flat.write_type(dtype);
    (flat.kinds, flat.args)
}

#[derive(Default)]
struct Flat {
    kinds: Vec<u8>,
    args: Vec<u64>,
}

impl Flat {
    fn write(&mut self, kind: u8, arg: u64) {
        self.kinds.push(kind);
        self.args.push(arg);
    }

    fn write_type(&mut self, dtype: &DataType) {
        match dtype {
            DataType::Decimal(precision, scale) => self.write(DECIMAL, (256 * scale + precision) as u64),
            DataType::Datetime(unit, zone) => {
                let zone = zone.as_ref().map_or(0, |zone| number(ZONE, zone));
                self.write(DATETIME, 4 * zone + u64::from(unit_number(*unit)));
            }
            DataType::Duration(unit) => self.write(DURATION, unit_number(*unit).into()),
            DataType::Unknown(UnknownKind::Int(value)) => self.write_dyn(*value),
            DataType::List(inner) => {
                self.write(LIST, 0);
                self.write_type(inner);
            }
            DataType::Array(inner, width) => {
                self.write(ARRAY, *width as u64);
                self.write_type(inner);
            }
            DataType::Struct(fields) => {
                self.write(STRUCT, fields.len() as u64);
                fields.iter().for_each(|field| self.write_field(field));
            }
            _ => self.write(plain_kind(dtype), 0),
        }
    }

    fn write_field(&mut self, field: &Field) {
        self.write(FIELD, number(NAME, field.name()));
        self.write_type(field.dtype());
    }

    fn write_dyn(&mut self, value: i128) {
        let (kind, arg) = if value < 0 { (DYN_NEGATIVE, -1 - value) } else { (DYN_NONNEGATIVE, value) };
        self.write(kind, arg.try_into().expect("a dyn int of document 01"));
    }
}
