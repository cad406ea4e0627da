//! The entry points that the crate has too, each as the port's call and the oracle's.

use crate::input::Input;
use lomzegash::{dtype, Error};
use oracle::Type;

/// What the port answers, or its refusal.
type Answer<T> = Result<T, Error>;

/// An entry point that says yes or no of one type.
pub struct Predicate {
    /// The source's name.
    pub name: &'static str,
    /// The port's call.
    pub port: fn(&[u8]) -> Answer<bool>,
    /// The oracle's call.
    pub oracle: fn(&Type) -> bool,
}

macro_rules! predicates {
    ($($name:ident)*) => {
        /// Every entry point that says yes or no of one type.
        pub const PREDICATES: [Predicate; 14] =
            [$(Predicate { name: stringify!($name), port: dtype::$name, oracle: Type::$name }),*];
    };
}

predicates! {
    is_nested is_known is_logical is_primitive is_primitive_numeric is_temporal is_float is_integer is_signed_integer
    is_unsigned_integer is_string is_unknown contains_unknown contains_list_recursive
}

/// An entry point that says yes, no or nothing of two types.
pub struct Relation {
    /// The source's name.
    pub name: &'static str,
    /// The port's call.
    pub port: fn(&[u8], &[u8]) -> Answer<Option<bool>>,
    /// The oracle's call.
    pub oracle: fn(&Type, &Type) -> Option<bool>,
}

/// Every entry point of two types.
pub const RELATIONS: [Relation; 3] = [
    Relation {
        name: "equal",
        port: |left, right| dtype::equal(left, right).map(Some),
        oracle: |left, right| Some(left.equal(right)),
    },
    Relation {
        name: "contains_dtype_recursive",
        port: |left, right| dtype::contains_dtype_recursive(left, right).map(Some),
        oracle: |left, right| Some(left.contains_dtype_recursive(right)),
    },
    Relation { name: "can_cast_to", port: dtype::can_cast_to, oracle: Type::can_cast_to },
];

/// What a call that writes a type comes to, with room enough.
pub enum Outcome {
    /// This encoded type.
    Written(Vec<u8>),
    /// The answer None.
    None,
    /// The refusal with this number.
    Refused(u64),
}

impl Outcome {
    /// The number of bytes of the result, if there is one.
    pub(crate) fn len(&self) -> Option<usize> {
        match self {
            Outcome::Written(bytes) => Some(bytes.len()),
            _ => None,
        }
    }

    /// What is written, None where that is nothing, or the refusal's number, where `fits` says whether there is room.
    pub(crate) fn with_room(&self, fits: impl FnOnce(&[u8]) -> bool) -> Result<Option<&[u8]>, u64> {
        match self {
            Outcome::Refused(number) => Err(*number),
            Outcome::None => Ok(None),
            Outcome::Written(bytes) if fits(bytes) => Ok(Some(bytes)),
            Outcome::Written(_) => Err(Error::OutputTooShort.number()),
        }
    }
}

/// An entry point that writes a type.
pub struct Writer {
    /// The source's name.
    pub name: &'static str,
    /// The port's call.
    pub port: fn(&[u8], &mut [u8]) -> Answer<Option<usize>>,
    /// The oracle's call, of an input that is a type.
    pub oracle: fn(&Input, &Type) -> Outcome,
}

impl Writer {
    /// What the call comes to, with room enough: by document 01 where the input is no type, else by the oracle.
    pub fn outcome(&self, input: &Input) -> Outcome {
        match &input.dtype {
            Ok(dtype) => (self.oracle)(input, dtype),
            Err(number) => Outcome::Refused(*number),
        }
    }
}

/// Every entry point that writes a type; materialising once for each state of its flag.
pub const WRITERS: [Writer; 6] = [
    Writer { name: "inner_dtype", port: dtype::inner_dtype, oracle: |_, dtype| written_or_none(dtype.inner_dtype()) },
    Writer {
        name: "leaf_dtype",
        port: |encoded, out| dtype::leaf_dtype(encoded, out).map(Some),
        oracle: |_, dtype| Outcome::Written(dtype.leaf_dtype().encode()),
    },
    Writer {
        name: "array_leaf_dtype",
        port: dtype::array_leaf_dtype,
        oracle: |_, dtype| written_or_none(dtype.array_leaf_dtype()),
    },
    Writer {
        name: "to_physical",
        port: |encoded, out| dtype::to_physical(encoded, out).map(Some),
        oracle: |_, dtype| Outcome::Written(dtype.to_physical().encode()),
    },
    Writer {
        name: "materialize_unknown, any allowed",
        port: |encoded, out| dtype::materialize_unknown(encoded, true, out).map(Some),
        oracle: |input, dtype| materialized(input, dtype, true),
    },
    Writer {
        name: "materialize_unknown, any not allowed",
        port: |encoded, out| dtype::materialize_unknown(encoded, false, out).map(Some),
        oracle: |input, dtype| materialized(input, dtype, false),
    },
];

fn written_or_none(dtype: Option<Type>) -> Outcome {
    dtype.map_or(Outcome::None, |dtype| Outcome::Written(dtype.encode()))
}

/// The crate's error is refusal 7, and it gives one exactly where document 01 does.
fn materialized(input: &Input, dtype: &Type, allow_unknown: bool) -> Outcome {
    let known = dtype.clone().materialize_unknown(allow_unknown);
    assert_eq!(known.is_none(), input.has_any() && !allow_unknown, "where the crate gives an error");
    known.map_or(Outcome::Refused(Error::Unknown.number()), |dtype| Outcome::Written(dtype.encode()))
}
