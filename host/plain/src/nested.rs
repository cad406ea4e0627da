//! Change request Three: supertype.rs's `get_supertype_with_options` on nested types, a second reading of its text.
//!
//! The arms stand in the source's order, those that a nested type can reach. What two leaves have for a supertype is the
//! caller's to say; so is what becomes of an answer beyond the limits, since the source knows none.

use crate::tree::{Field, Tree};
use crate::{DYN_NEGATIVE, DYN_NONNEGATIVE};

const NULL: u8 = 0;
const UINT8: u8 = 2;
const FLOAT64: u8 = 14;
const STRING: u8 = 16;
const ANY: u8 = 23;
const DYN_FLOAT: u8 = 25;

/// The source's `SuperTypeOptions`: the flags of a call.
#[derive(Clone, Copy, Debug, PartialEq, Eq)]
pub struct SuperTypeOptions {
    /// A List may take in what is beside it.
    pub allow_implode_list: bool,
    /// A primitive type may become String.
    pub allow_primitive_to_string: bool,
}

/// The source's default, which its arms give to every call that they make.
pub const DEFAULT: SuperTypeOptions = SuperTypeOptions { allow_implode_list: false, allow_primitive_to_string: true };

/// A leaf: a kind and an argument.
pub type Leaf = (u8, u64);

/// A call, but for its two types.
pub struct Call<Leaves> {
    /// Its own flags.
    pub outer: SuperTypeOptions,
    /// Those of every call that an arm makes, at any depth.
    pub inner: SuperTypeOptions,
    /// The supertype of two leaves under the flags of the call that meets them.
    pub leaves: Leaves,
}

impl<Leaves: Fn(Leaf, Leaf, SuperTypeOptions) -> Option<Leaf>> Call<Leaves> {
    /// The supertype of two types.
    pub fn supertype(&self, l: &Tree, r: &Tree) -> Option<Tree> {
        self.in_both_orders(l, r, self.outer)
    }

    /// The source's `get_supertype`: a call that an arm makes.
    fn get_supertype(&self, l: &Tree, r: &Tree) -> Option<Tree> {
        self.in_both_orders(l, r, self.inner)
    }

    /// What the arms answer; where that is None, what they answer in the other order.
    fn in_both_orders(&self, l: &Tree, r: &Tree, options: SuperTypeOptions) -> Option<Tree> {
        self.arms(l, r, options).or_else(|| self.arms(r, l, options))
    }

    /// The source's `inner`: equal types first, then the first arm that matches, whatever comes of it.
    fn arms(&self, l: &Tree, r: &Tree, options: SuperTypeOptions) -> Option<Tree> {
        use Tree::*;
        if equal(l, r) {
            return Some(l.clone());
        }
        match (l, r) {
            (Leaf(kind, arg), Leaf(other, value)) => self.two_leaves((*kind, *arg), (*other, *value), options),
            // The guard's last part alone lets every nested type by: the physical form of none is primitive.
            (_, Leaf(STRING, _)) => Some(Leaf(STRING, 0)),
            (dt, Leaf(NULL, _)) => Some(dt.clone()),
            (List(left), List(right) | Array(_, right)) | (Array(_, left), List(right)) => self.list(left, right),
            (Array(width, left), Array(other, right)) if width == other => {
                Some(self.get_supertype(left, right)?.array(*width))
            }
            // The List's type is on the left of the call, on whichever side the List is.
            (List(inner), other) | (other, List(inner)) if options.allow_implode_list => self.list(inner, other),
            (Array(_, left), Array(_, right)) => self.list(left, right),
            (Struct(fields), Leaf(kind, _)) if is_dyn_number(*kind) => self.first_field(fields, r),
            (Struct(left), Struct(right)) => self.super_type_structs(left, right),
            (Struct(fields), Leaf(kind, _)) if is_primitive_number(*kind) => self.each_field(fields, r),
            (_, Leaf(kind, _)) if is_unknown(*kind) => Some(Leaf(ANY, 0)),
            _ => None,
        }
    }

    fn two_leaves(&self, l: Leaf, r: Leaf, options: SuperTypeOptions) -> Option<Tree> {
        (self.leaves)(l, r, options).map(|(kind, arg)| Tree::Leaf(kind, arg))
    }

    /// A List of the supertype of both.
    fn list(&self, l: &Tree, r: &Tree) -> Option<Tree> {
        self.get_supertype(l, r).map(Tree::list)
    }

    /// Beside a dyn number a Struct is its first field, and an empty one has none.
    fn first_field(&self, fields: &[Field], number: &Tree) -> Option<Tree> {
        let (_, dtype) = fields.first()?;
        self.get_supertype(dtype, number)
    }

    /// Beside any other number each field has a supertype of its own, or there is none.
    fn each_field(&self, fields: &[Field], number: &Tree) -> Option<Tree> {
        let field = |(name, dtype): &Field| Some((*name, self.get_supertype(dtype, number)?));
        fields.iter().map(field).collect::<Option<_>>().map(Tree::Struct)
    }

    /// Field by field, until a name differs: then the fields so far count for nothing. A field without a supertype comes
    /// to None if it stands before such a name.
    fn super_type_structs(&self, left: &[Field], right: &[Field]) -> Option<Tree> {
        if left.len() != right.len() {
            return self.union_struct_fields(left, right);
        }
        let mut fields = vec![];
        for ((name, dtype), (other_name, other)) in left.iter().zip(right) {
            if name != other_name {
                return self.union_struct_fields(left, right);
            }
            fields.push((*name, self.get_supertype(dtype, other)?));
        }
        Some(Tree::Struct(fields))
    }

    /// The names of the longer Struct, then those of the shorter that are new. Of as many fields the left is the longer.
    fn union_struct_fields(&self, left: &[Field], right: &[Field]) -> Option<Tree> {
        let (longer, shorter) = if left.len() >= right.len() { (left, right) } else { (right, left) };
        let mut fields = by_name(longer);
        for (name, dtype) in shorter {
            self.enter(&mut fields, *name, dtype)?;
        }
        Some(Tree::Struct(fields))
    }

    /// Enters a field of the shorter Struct, whose type is on the left of the call. A name that it repeats meets what its
    /// first field has left.
    fn enter(&self, fields: &mut Vec<Field>, name: u64, dtype: &Tree) -> Option<()> {
        match type_of(fields, name) {
            None => fields.push((name, dtype.clone())),
            Some(held) if equal(dtype, held) => {}
            Some(held) => *held = self.get_supertype(dtype, held)?,
        }
        Some(())
    }
}

/// Each name once, at its first place and with its last type: what the source's index map keeps.
fn by_name(fields: &[Field]) -> Vec<Field> {
    let mut kept: Vec<Field> = vec![];
    for (name, dtype) in fields {
        match type_of(&mut kept, *name) {
            None => kept.push((*name, dtype.clone())),
            Some(held) => *held = dtype.clone(),
        }
    }
    kept
}

/// The type of the field with this name.
fn type_of(fields: &mut [Field], name: u64) -> Option<&mut Tree> {
    fields.iter_mut().find(|field| field.0 == name).map(|field| &mut field.1)
}

/// The source's `==`, by which all dyn ints are one type.
fn equal(l: &Tree, r: &Tree) -> bool {
    match (l, r) {
        (Tree::Leaf(kind, _), Tree::Leaf(other, _)) if is_dyn_int(*kind) && is_dyn_int(*other) => true,
        (Tree::List(left), Tree::List(right)) => equal(left, right),
        (Tree::Array(width, left), Tree::Array(other, right)) => width == other && equal(left, right),
        (Tree::Struct(left), Tree::Struct(right)) => {
            let are_equal = |(left, right): (&Field, &Field)| left.0 == right.0 && equal(&left.1, &right.1);
            left.len() == right.len() && left.iter().zip(right).all(are_equal)
        }
        _ => l == r,
    }
}

fn is_dyn_int(kind: u8) -> bool {
    [DYN_NONNEGATIVE, DYN_NEGATIVE].contains(&kind)
}

fn is_dyn_number(kind: u8) -> bool {
    kind == DYN_FLOAT || is_dyn_int(kind)
}

/// The source's `is_primitive_numeric` of what is no dyn number: integers and floats, and no Decimal.
fn is_primitive_number(kind: u8) -> bool {
    (UINT8..=FLOAT64).contains(&kind)
}

fn is_unknown(kind: u8) -> bool {
    (ANY..=DYN_NEGATIVE).contains(&kind)
}

#[cfg(test)]
mod tests {
    use super::*;

    const INT8: Tree = Tree::Leaf(7, 0);
    const INT16: Tree = Tree::Leaf(8, 0);

    /// With a rule for leaves by which String is that of all under the flag, and else the greater kind.
    fn supertype(l: &Tree, r: &Tree, inner: SuperTypeOptions) -> Option<Tree> {
        let leaves = |l: Leaf, r: Leaf, options: SuperTypeOptions| {
            let is_allowed = options.allow_primitive_to_string || l.0.max(r.0) != STRING;
            is_allowed.then(|| l.max(r))
        };
        Call { outer: DEFAULT, inner, leaves }.supertype(l, r)
    }

    #[test]
    fn a_repeated_name_of_the_longer_struct_has_its_first_place_and_its_last_type() {
        let longer = Tree::Struct(vec![(0, INT8), (1, INT8), (0, INT16)]);
        let united = Tree::Struct(vec![(0, INT16), (1, INT16)]);
        assert_eq!(supertype(&longer, &Tree::Struct(vec![(1, INT16)]), DEFAULT), Some(united));
    }

    #[test]
    fn the_inner_flags_are_those_of_the_calls_that_arms_make() {
        let strict = SuperTypeOptions { allow_primitive_to_string: false, ..DEFAULT };
        let string = Tree::Leaf(STRING, 0);
        assert_eq!(supertype(&INT8.list(), &string, strict), Some(string.clone()));
        assert_eq!(supertype(&INT8.list(), &string.clone().list(), strict), None);
        assert_eq!(supertype(&INT8.list(), &string.clone().list(), DEFAULT), Some(string.list()));
    }
}
