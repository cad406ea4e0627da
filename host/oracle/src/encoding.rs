//! Document 01's stored sheets.

use crate::convert;
use crate::datatypes::DataType;
use plain::sheet::{self, Argument};

pub fn decode(encoded: &[u8]) -> DataType {
    let (kinds, args) = sheet::split(encoded).expect("an encoded type has the length of its number of nodes");
    convert::read(kinds, args.iter().map(|arg| arg.value()))
}

pub fn encode(dtype: &DataType) -> Vec<u8> {
    let (kinds, args) = convert::to_flat(dtype);
    sheet::lay_out(&kinds, &args)
}
