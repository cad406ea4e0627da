//! The crate's src/datatypes: its text, and the names that the text finds in the module around it.

use crate::shim::arrow::datatypes::{ArrowDataType, Field as ArrowField, TimeUnit as ArrowTimeUnit, LIST_VALUES_NAME};
use crate::shim::polars_core::{Scalar, Series, StructArray, NS_IN_DAY};
use crate::shim::polars_error::{polars_bail, polars_ensure, PolarsResult};
use crate::shim::polars_utils::{float16::pf16, pl_str::PlSmallStr, PlHashSet};
use std::fmt::{Display, Formatter};
use std::hash::{Hash, Hasher};
use std::sync::Arc;

pub use any_value::AnyValue;
pub use dtype::*;
pub use field::Field;
pub use temporal::time_unit;
pub use time_unit::TimeUnit;

#[allow(unused, clippy::all)]
mod any_value {
    use super::*;
    include!(concat!(env!("OUT_DIR"), "/any_value.rs"));
    include!(concat!(env!("OUT_DIR"), "/any_value_dtype.rs"));
}

#[allow(unused, clippy::all)]
mod dtype {
    use crate::shim::{arrow, polars_utils};
    include!(concat!(env!("OUT_DIR"), "/dtype.rs"));
}

#[allow(unused, clippy::all)]
mod field {
    use crate::shim::{arrow, polars_dtype, polars_error, polars_utils};
    include!(concat!(env!("OUT_DIR"), "/field.rs"));
}

mod temporal {
    #[allow(unused, clippy::all)]
    pub mod time_unit {
        include!(concat!(env!("OUT_DIR"), "/time_unit.rs"));
    }

    #[allow(unused, unsafe_code, clippy::all)]
    pub mod time_zone {
        use crate::shim::{polars_error, polars_utils};
        include!(concat!(env!("OUT_DIR"), "/time_zone.rs"));
    }
}
