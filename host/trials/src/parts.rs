//! The entry points whose answer is a part of the caller's own flat type, each as the port's call and the plain Rust's.

use crate::flat::Flat;
use lomzegash::flat::{self, Nodes};
use lomzegash::Error;
use plain::{inner, Refusal};
use std::ops::Range;

/// How many nodes a part has, or None where there is no such part.
type Count = Result<Option<usize>, Refusal>;

/// An entry point that gives a part of a flat type.
pub struct Part {
    /// The port's call.
    pub port: for<'a> fn(Nodes<'a>) -> Result<Option<Nodes<'a>>, Error>,
    /// The plain Rust's call.
    pub plain: fn(&[u8], &[u64]) -> Count,
}

/// `inner_dtype`, `leaf_dtype` and `array_leaf_dtype`, in the order of the [`crate::entries::WRITERS`].
pub const PARTS: [Part; 3] = [
    Part { port: flat::inner_dtype, plain: inner::inner_dtype },
    Part {
        port: |dtype| flat::leaf_dtype(dtype).map(Some),
        plain: |kinds, args| inner::leaf_dtype(kinds, args).map(Some),
    },
    Part { port: flat::array_leaf_dtype, plain: inner::array_leaf_dtype },
];

impl Flat {
    /// The last nodes, so many.
    pub fn end(&self, nodes: usize) -> Nodes<'_> {
        (&self.kinds[self.kinds.len() - nodes..], &self.args[self.args.len() - nodes..])
    }
}

/// Where a part stands: two parts at one place are the same memory, not only alike.
pub fn place((kinds, args): Nodes) -> (Range<*const u8>, Range<*const u64>) {
    (kinds.as_ptr_range(), args.as_ptr_range())
}
