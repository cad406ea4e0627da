//! Short texts, maps and other helpers.

mod index_map;
pub mod pl_str;

pub use index_map::PlIndexMap;
pub use std::collections::HashSet as PlHashSet;

pub mod float16 {
    /// A float of 16 bits. Nobody asks for its value.
    #[allow(non_camel_case_types)]
    #[derive(Clone, Debug)]
    pub struct pf16;

    impl pf16 {
        pub const INFINITY: pf16 = pf16;
        pub const NEG_INFINITY: pf16 = pf16;
    }
}

pub mod itertools {
    pub trait Itertools: Iterator {
        /// All values, or the first error.
        fn try_collect_vec<T, E>(self) -> Result<Vec<T>, E>
        where
            Self: Sized + Iterator<Item = Result<T, E>>,
        {
            self.collect()
        }
    }

    impl<I: Iterator> Itertools for I {}
}

macro_rules! format_tuple {
    ($items:expr) => {
        format!("({})", $items.iter().map(ToString::to_string).collect::<Vec<_>>().join(", "))
    };
}

pub(crate) use format_tuple;
