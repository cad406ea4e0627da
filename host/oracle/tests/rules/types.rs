//! Types, written down in a test.

use oracle::Type;

/// The nodes of a flat type, each a kind and an argument. Types are compared by these, never by the crate's `==`.
pub type Nodes = Vec<(u8, u64)>;

pub const NULL: u8 = 0;
pub const BOOLEAN: u8 = 1;
pub const UINT8: u8 = 2;
pub const UINT16: u8 = 3;
pub const UINT32: u8 = 4;
pub const UINT64: u8 = 5;
pub const UINT128: u8 = 6;
pub const INT8: u8 = 7;
pub const INT16: u8 = 8;
pub const INT32: u8 = 9;
pub const INT64: u8 = 10;
pub const INT128: u8 = 11;
pub const FLOAT16: u8 = 12;
pub const FLOAT32: u8 = 13;
pub const FLOAT64: u8 = 14;
pub const DECIMAL: u8 = 15;
pub const STRING: u8 = 16;
pub const BINARY: u8 = 17;
pub const BINARY_OFFSET: u8 = 18;
pub const DATE: u8 = 19;
pub const DATETIME: u8 = 20;
pub const DURATION: u8 = 21;
pub const TIME: u8 = 22;
pub const ANY: u8 = 23;
pub const STR: u8 = 24;
pub const DYN_FLOAT: u8 = 25;
pub const DYN_NONNEGATIVE: u8 = 26;
pub const DYN_NEGATIVE: u8 = 27;
pub const LIST: u8 = 28;
pub const ARRAY: u8 = 29;
pub const STRUCT: u8 = 30;
pub const FIELD: u8 = 31;

/// A type of one node whose argument is 0.
pub fn plain(kind: u8) -> Nodes {
    vec![(kind, 0)]
}

pub fn decimal(precision: u64, scale: u64) -> Nodes {
    vec![(DECIMAL, 256 * scale + precision)]
}

pub fn datetime(unit: u64, zone: u64) -> Nodes {
    vec![(DATETIME, 4 * zone + unit)]
}

pub fn duration(unit: u64) -> Nodes {
    vec![(DURATION, unit)]
}

pub fn dyn_int(value: i128) -> Nodes {
    let (kind, arg) = if value < 0 { (DYN_NEGATIVE, -1 - value) } else { (DYN_NONNEGATIVE, value) };
    vec![(kind, arg.try_into().unwrap())]
}

pub fn list(inner: &Nodes) -> Nodes {
    [&plain(LIST), &inner[..]].concat()
}

pub fn array(width: u64, inner: &Nodes) -> Nodes {
    [&[(ARRAY, width)], &inner[..]].concat()
}

/// A Struct of these fields, each a name's number and a type.
pub fn structure(fields: &[(u64, Nodes)]) -> Nodes {
    let mut nodes = vec![(STRUCT, fields.len() as u64)];
    for (name, inner) in fields {
        nodes.push((FIELD, *name));
        nodes.extend(inner);
    }
    nodes
}

/// The crate's type of these nodes.
pub fn of(nodes: &[(u8, u64)]) -> Type {
    let (kinds, args): (Vec<u8>, Vec<u64>) = nodes.iter().copied().unzip();
    Type::from_flat(&kinds, &args)
}

/// The nodes of the crate's type.
pub fn nodes(dtype: &Type) -> Nodes {
    let (kinds, args) = dtype.to_flat();
    kinds.into_iter().zip(args).collect()
}
