//! The macro for sets of flags.

macro_rules! bitflags {
    (
        $(#[$attribute:meta])*
        pub struct $set:ident: $bits:ty {
            $($(#[$doc:meta])* const $flag:ident = $value:expr;)*
        }
    ) => {
        $(#[$attribute])*
        pub struct $set($bits);

        impl $set {
            $($(#[$doc])* pub const $flag: $set = $set($value);)*

            /// The set of these bits, but for those that are no flag.
            pub const fn from_bits_truncate(bits: $bits) -> $set {
                $set(bits & (0 $(| $set::$flag.0)*))
            }

            /// Whether every flag of `other` is in this set.
            pub const fn contains(&self, other: $set) -> bool {
                self.0 & other.0 == other.0
            }
        }

        impl std::ops::BitOr for $set {
            type Output = $set;

            fn bitor(self, other: $set) -> $set {
                $set(self.0 | other.0)
            }
        }
    };
}

pub(crate) use bitflags;
