//! What the crate's text leans on and isn't here: as much of each crate that it names as it takes to compile, and as
//! much sense as the rules take that are run. What only left-out rules call panics.

pub mod arrow;
pub mod bitflags;
pub mod num_traits;
pub mod polars_compute;
pub mod polars_core;
pub mod polars_dtype;
pub mod polars_error;
pub mod polars_utils;
