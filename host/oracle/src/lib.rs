//! The oracle: the type rules of polars-core 0.55.2, compiled from the crate's own text.
//!
//! The build script finds that text, where POLARS_SRC says or beside the repository, and checks that it is unedited;
//! none of it is kept here. `datatypes` and `utils` include it, `shim` stands for what it leans on, and [`Type`] gives
//! each rule as one call, on types that come and go as document 01 keeps them. Where there is no text, [`AVAILABLE`] is
//! false, and there is no [`Type`]. One call has a text with one line edited,
//! [`Type::get_supertype_with_inner_options`].

#![deny(missing_docs, unsafe_code)]
// Without the text no call comes to use what it is given.
#![cfg_attr(not(polars_src), allow(unused_variables))]

#[cfg(polars_src)]
mod convert;
#[cfg(polars_src)]
mod datatypes;
#[cfg(polars_src)]
mod encoding;
#[cfg(polars_src)]
mod shim;
#[cfg(polars_src)]
mod utils;

// The text asks for these two at the root of its crate.
#[cfg(polars_src)]
use shim::polars_core::{config, prelude};

#[cfg(polars_src)]
use datatypes::DataType;

/// Whether the crate's text was found when this was built.
pub const AVAILABLE: bool = cfg!(polars_src);

/// No type: there is no text.
#[cfg(not(polars_src))]
#[derive(Clone)]
enum DataType {}

/// A type as the crate has it, its `DataType`.
#[derive(Clone)]
pub struct Type(DataType);

/// What is asked of a type's text. Without the text there is no type to ask.
#[cfg(polars_src)]
macro_rules! ask {
    ($type:ident, $answer:expr) => {
        $answer
    };
}
#[cfg(not(polars_src))]
macro_rules! ask {
    ($type:ident, $answer:expr) => {
        match $type.0 {}
    };
}

/// What is asked of no type. Without the text it is a panic.
#[cfg(polars_src)]
macro_rules! need {
    ($answer:expr) => {
        $answer
    };
}
#[cfg(not(polars_src))]
macro_rules! need {
    ($answer:expr) => {
        panic!("there is no text of polars-core 0.55.2: set POLARS_SRC and build again")
    };
}

/// Between the crate's types and document 01's.
impl Type {
    /// The type of a flat type.
    ///
    /// # Panics
    ///
    /// Where the arrays aren't a valid flat type.
    pub fn from_flat(kinds: &[u8], args: &[u64]) -> Type {
        need!(Type(convert::from_flat(kinds, args)))
    }

    /// The kinds and the arguments of the flat type.
    pub fn to_flat(&self) -> (Vec<u8>, Vec<u64>) {
        ask!(self, convert::to_flat(&self.0))
    }

    /// The type of an encoded type (a stored sheet).
    ///
    /// # Panics
    ///
    /// Where the bytes aren't a valid encoded type.
    pub fn decode(encoded: &[u8]) -> Type {
        need!(Type(encoding::decode(encoded)))
    }

    /// The bytes of the encoded type (the stored sheet).
    pub fn encode(&self) -> Vec<u8> {
        ask!(self, encoding::encode(&self.0))
    }
}

macro_rules! predicates {
    ($($name:ident)*) => {
        /// The crate's predicates.
        impl Type {
            $(
                #[doc = concat!("The crate's `", stringify!($name), "`.")]
                #[inline]
                pub fn $name(&self) -> bool {
                    ask!(self, self.0.$name())
                }
            )*
        }
    };
}

predicates! {
    is_nested is_known is_logical is_primitive is_primitive_numeric is_temporal is_float is_integer is_signed_integer
    is_unsigned_integer is_string is_unknown contains_unknown contains_list_recursive
}

/// The crate's other rules.
impl Type {
    /// The crate's `==`, by which all dyn ints are equal.
    #[inline]
    pub fn equal(&self, other: &Type) -> bool {
        ask!(self, self.0 == other.0)
    }

    /// The crate's `contains_dtype_recursive`.
    #[inline]
    pub fn contains_dtype_recursive(&self, dtype: &Type) -> bool {
        ask!(self, self.0.contains_dtype_recursive(&dtype.0))
    }

    /// The crate's `inner_dtype`, cloned.
    #[inline]
    pub fn inner_dtype(&self) -> Option<Type> {
        ask!(self, self.0.inner_dtype().cloned().map(Type))
    }

    /// The crate's `leaf_dtype`, cloned.
    #[inline]
    pub fn leaf_dtype(&self) -> Type {
        ask!(self, Type(self.0.leaf_dtype().clone()))
    }

    /// The crate's `array_leaf_dtype`, cloned.
    #[inline]
    pub fn array_leaf_dtype(&self) -> Option<Type> {
        ask!(self, self.0.array_leaf_dtype().cloned().map(Type))
    }

    /// The crate's `get_shape`.
    #[inline]
    pub fn get_shape(&self) -> Option<Vec<u64>> {
        ask!(self, self.0.get_shape().map(|shape| shape.into_iter().map(|width| width as u64).collect()))
    }

    /// The crate's `can_cast_to`; None is no verdict.
    #[inline]
    pub fn can_cast_to(&self, to: &Type) -> Option<bool> {
        ask!(self, self.0.can_cast_to(&to.0))
    }

    /// The crate's `materialize_unknown`; None is its error.
    #[inline]
    pub fn materialize_unknown(self, allow_unknown: bool) -> Option<Type> {
        ask!(self, self.0.materialize_unknown(allow_unknown).ok().map(Type))
    }

    /// The crate's `to_physical`.
    #[inline]
    pub fn to_physical(&self) -> Type {
        ask!(self, Type(self.0.to_physical()))
    }

    /// The crate's `get_supertype_with_options`, of this type on the left and `right`.
    #[inline]
    pub fn get_supertype_with_options(
        &self,
        right: &Type,
        allow_implode_list: bool,
        allow_primitive_to_string: bool,
    ) -> Option<Type> {
        ask!(self, {
            let options = [allow_implode_list, allow_primitive_to_string].into();
            utils::get_supertype_with_options(&self.0, &right.0, options).map(Type)
        })
    }

    /// The crate's `get_supertype_with_options`, where all calls that it makes of itself have the flags `inner` and not the
    /// crate's default, `[false, true]`. Both pairs are allow_implode_list and allow_primitive_to_string.
    #[inline]
    pub fn get_supertype_with_inner_options(&self, right: &Type, outer: [bool; 2], inner: [bool; 2]) -> Option<Type> {
        ask!(self, utils::get_supertype_with_inner_options(&self.0, &right.0, outer, inner).map(Type))
    }

    /// The crate's `get_numeric_upcast_supertype_lossless`, of this type on the left and `right`.
    #[inline]
    pub fn get_numeric_upcast_supertype_lossless(&self, right: &Type) -> Option<Type> {
        ask!(self, utils::get_numeric_upcast_supertype_lossless(&self.0, &right.0).map(Type))
    }
}

/// The crate's `get_time_units`. Units are 0 ns, 1 µs and 2 ms.
///
/// # Panics
///
/// Where either is no unit.
#[inline]
pub fn get_time_units(l: u8, r: u8) -> u8 {
    need!(convert::unit_number(utils::get_time_units(&convert::unit(l.into()), &convert::unit(r.into()))))
}

/// The crate's `TimeUnit::to_ascii`, of a unit by its number.
///
/// # Panics
///
/// Where it is no unit.
pub fn to_ascii(unit: u8) -> &'static str {
    need!(convert::unit(unit.into()).to_ascii())
}
