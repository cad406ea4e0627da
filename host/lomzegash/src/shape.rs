use std::fmt;

/// The widths of a multidimensional Array, the outermost first.
#[derive(Clone, Copy, PartialEq, Eq)]
pub struct Shape {
    pub(crate) count: usize,
    /// Zero from `count` on.
    pub(crate) widths: [u64; Shape::MOST],
}

impl Shape {
    /// Most widths of a shape: a type nests no deeper.
    pub(crate) const MOST: usize = 32;

    /// The widths; there is one at least.
    pub fn widths(&self) -> &[u64] {
        &self.widths[..self.count]
    }
}

impl fmt::Debug for Shape {
    fn fmt(&self, f: &mut fmt::Formatter<'_>) -> fmt::Result {
        self.widths().fmt(f)
    }
}
