//! Errors: what is asked of one is that it is one.

pub type PolarsResult<T> = Result<T, PolarsError>;

#[derive(Debug)]
pub enum PolarsError {
    ComputeError(String),
    InvalidOperation(String),
    SchemaMismatch(String),
}

macro_rules! polars_err {
    ($kind:ident: $($message:tt)*) => {
        $crate::shim::polars_error::PolarsError::$kind(format!($($message)*))
    };
}

macro_rules! polars_bail {
    ($($error:tt)*) => {
        return Err($crate::shim::polars_error::polars_err!($($error)*))
    };
}

macro_rules! polars_ensure {
    ($condition:expr, $($error:tt)*) => {
        if !$condition {
            $crate::shim::polars_error::polars_bail!($($error)*);
        }
    };
}

/// Every feature that the text asks for in this way is on.
macro_rules! feature_gated {
    ($feature:literal, $value:expr) => {
        $value
    };
}

pub(crate) use {feature_gated, polars_bail, polars_ensure, polars_err};
