//! The crate's src/utils: its text, and the names that the text finds in the module around it. supertype.rs is there as
//! it is, and once more with inner flags that can be set.

use crate::datatypes::{AnyValue, DataType, Field, TimeUnit, UnknownKind};
use crate::shim::polars_error::{polars_err, PolarsResult};
use crate::shim::polars_utils::PlIndexMap;
use std::cell::Cell;

pub use supertype::*;

/// A module with a text of supertype.rs, whose options can be had from a pair of flags: allow_implode_list and
/// allow_primitive_to_string.
macro_rules! supertype {
    ($module:ident, $file:literal) => {
        #[allow(unused, clippy::all)]
        mod $module {
            use crate::shim::{bitflags, num_traits, polars_compute};
            include!(concat!(env!("OUT_DIR"), "/", $file));

            impl From<[bool; 2]> for SuperTypeOptions {
                #[inline]
                fn from([implode, string]: [bool; 2]) -> SuperTypeOptions {
                    let none = SuperTypeFlags::from_bits_truncate(0);
                    let implode = if implode { SuperTypeFlags::ALLOW_IMPLODE_LIST } else { none };
                    let string = if string { SuperTypeFlags::ALLOW_PRIMITIVE_TO_STRING } else { none };
                    (implode | string).into()
                }
            }
        }
    };
}

supertype!(supertype, "supertype.rs");
supertype!(supertype_inner_flags, "supertype_inner_flags.rs");

thread_local! {
    /// The inner flags of the call under way.
    static INNER: Cell<[bool; 2]> = const { Cell::new([false; 2]) };
}

/// What the edited text has for the default of its flags.
fn inner_flags() -> supertype_inner_flags::SuperTypeFlags {
    supertype_inner_flags::SuperTypeOptions::from(INNER.get()).flags
}

/// The edited text's `get_supertype_with_options`, with these flags for all calls that it makes of itself.
pub fn get_supertype_with_inner_options(
    l: &DataType,
    r: &DataType,
    outer: [bool; 2],
    inner: [bool; 2],
) -> Option<DataType> {
    INNER.set(inner);
    supertype_inner_flags::get_supertype_with_options(l, r, outer.into())
}

include!(concat!(env!("OUT_DIR"), "/get_time_units.rs"));
