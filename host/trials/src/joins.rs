//! The rules that join two types into one, each as the port's calls and as what they must come to.

use crate::entries::Outcome;
use crate::input::{types, Input};
use crate::ranges;
use lomzegash::flat::{self, Nodes, Output};
use lomzegash::supertype::{self, JoinReport, SuperTypeOptions};
use lomzegash::Error;
use oracle::Type;

/// A rule that joins two types.
#[derive(Clone, Copy, Debug)]
pub enum Join {
    /// `get_numeric_upcast_supertype_lossless`.
    Lossless,
    /// `get_supertype_with_options`.
    Supertype(SuperTypeOptions),
}

/// The rule with options, with these.
pub const fn supertype(allow_implode_list: bool, allow_primitive_to_string: bool) -> Join {
    Join::Supertype(SuperTypeOptions { allow_implode_list, allow_primitive_to_string })
}

/// Both rules, the one with options in every state of its flags.
pub const JOINS: [Join; 5] =
    [Join::Lossless, supertype(false, false), supertype(false, true), supertype(true, false), supertype(true, true)];

impl Join {
    /// The port's call on encoded types.
    #[inline]
    pub fn on_bytes(self, left: &[u8], right: &[u8], out: &mut [u8]) -> Result<Option<usize>, Error> {
        match self {
            Join::Lossless => supertype::get_numeric_upcast_supertype_lossless(left, right, out),
            Join::Supertype(options) => supertype::get_supertype_with_options(left, right, options, out),
        }
    }

    /// The port's call on flat types.
    #[inline]
    pub fn on_nodes(self, left: Nodes, right: Nodes, out: Output) -> Result<Option<usize>, Error> {
        match self {
            Join::Lossless => flat::get_numeric_upcast_supertype_lossless(left, right, out),
            Join::Supertype(options) => flat::get_supertype_with_options(left, right, options, out),
        }
    }

    /// What the call comes to, with room enough: by document 01 where it is refused, else by the oracle.
    pub fn outcome(self, left: &Input, right: &Input) -> Outcome {
        let types = match types(left, right) {
            Ok(types) => types,
            Err(number) => return Outcome::Refused(number),
        };
        let dtype = match self {
            Join::Lossless => types.0.get_numeric_upcast_supertype_lossless(types.1),
            Join::Supertype(_) if types.0.is_nested() || types.1.is_nested() => {
                return Outcome::Refused(Error::Nested.number());
            }
            Join::Supertype(options) => of_crate(types, options),
        };
        dtype.map_or(Outcome::None, |dtype| Outcome::Written(dtype.encode()))
    }
}

fn of_crate((left, right): (&Type, &Type), options: SuperTypeOptions) -> Option<Type> {
    let SuperTypeOptions { allow_implode_list, allow_primitive_to_string } = options;
    left.get_supertype_with_options(right, allow_implode_list, allow_primitive_to_string)
}

/// What the report of two inputs must be, or the refusal's number: by the oracle's supertype and the ranges of integers.
pub fn report(left: &Input, right: &Input) -> Result<JoinReport, u64> {
    let types = types(left, right)?;
    let supertype = || {
        let dtype = of_crate(types, SuperTypeOptions::OFF).expect("two integer types have a supertype");
        dtype.to_flat().0[0]
    };
    Ok(ranges::join_report(left.root(), right.root(), supertype))
}
