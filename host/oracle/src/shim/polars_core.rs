//! The parts of polars-core itself that the text names and that aren't compiled: values and where they are kept.

use crate::datatypes::{AnyValue, DataType};

pub const NS_IN_DAY: i64 = 86_400_000_000_000;

pub mod prelude {
    pub use crate::shim::arrow::datatypes::TimeUnit as ArrowTimeUnit;
}

pub mod config {
    use crate::shim::polars_error::PolarsResult;

    pub fn check_allow_importing_interval_as_struct(_type_name: &str) -> PolarsResult<()> {
        unimplemented!("conversion from Arrow")
    }
}

impl AnyValue<'_> {
    pub fn extract<T>(&self) -> Option<T> {
        unimplemented!("`value_within_range`, which document 01 leaves out")
    }
}

/// A value with its type.
pub struct Scalar;

impl Scalar {
    pub fn new(_dtype: DataType, _value: AnyValue) -> Scalar {
        Scalar
    }

    pub fn from<T>(_value: T) -> Scalar {
        Scalar
    }
}

/// A column; all that is asked of it is its type.
#[derive(Clone, Debug)]
pub struct Series(DataType);

impl Series {
    pub fn dtype(&self) -> &DataType {
        &self.0
    }
}

/// A column of structs.
#[derive(Debug)]
pub struct StructArray;
