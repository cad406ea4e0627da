//! Trees as the crate has them, and as the definitions write them.

use lomzegash::kind::LIST;
use oracle::Type;

pub use plain::tree::{Field, Tree};

/// The names of the kinds that have no child, in the definitions.
const KINDS: [&str; LIST as usize] = [
    "Null",
    "Boolean",
    "UInt8",
    "UInt16",
    "UInt32",
    "UInt64",
    "UInt128",
    "Int8",
    "Int16",
    "Int32",
    "Int64",
    "Int128",
    "Float16",
    "Float32",
    "Float64",
    "Decimal",
    "String",
    "Binary",
    "BinaryOffset",
    "Date",
    "Datetime",
    "Duration",
    "Time",
    "UnknownAny",
    "UnknownStr",
    "UnknownFloat",
    "UnknownIntPos",
    "UnknownIntNeg",
];

/// The crate's type.
pub fn dtype(tree: &Tree) -> Type {
    let (kinds, args) = tree.flat();
    Type::from_flat(&kinds, &args)
}

/// The tree of the crate's type.
pub fn tree(dtype: &Type) -> Tree {
    let (kinds, args) = dtype.to_flat();
    Tree::read(&kinds, &args)
}

/// A type as the definitions write it.
pub fn written(tree: &Tree) -> String {
    match tree {
        Tree::Leaf(kind, arg) => format!("leaf {} {arg}", KINDS[usize::from(*kind)]),
        Tree::List(inner) => format!("list ({})", written(inner)),
        Tree::Array(width, inner) => format!("array {width} ({})", written(inner)),
        Tree::Struct(fields) => format!("struct {}", argument(fields)),
    }
}

/// The fields as an argument.
fn argument(fields: &[Field]) -> String {
    let field = |rest, (name, dtype): &Field| format!("(field {name} ({}) {rest})", written(dtype));
    fields.iter().rfold("empty".into(), field)
}

#[cfg(test)]
mod tests {
    use super::*;
    use lomzegash::kind::{INT8, STRING};

    fn nested() -> Tree {
        let inner = Tree::Struct(vec![(0, Tree::Leaf(INT8, 0)), (7, Tree::Leaf(STRING, 0).array(2))]);
        Tree::Struct(vec![(0, inner.list()), (0, Tree::Struct(vec![]))])
    }

    #[test]
    fn a_type_is_written_as_the_definitions_have_it() {
        let inner = "struct (field 0 (leaf Int8 0) (field 7 (array 2 (leaf String 0)) empty))";
        let expected = format!("struct (field 0 (list ({inner})) (field 0 (struct empty) empty))");
        assert_eq!(written(&nested()), expected);
    }

    #[test]
    #[cfg_attr(not(polars_src), ignore = "no text of polars-core 0.55.2")]
    fn a_type_comes_back_from_the_crate() {
        assert_eq!(tree(&dtype(&nested())), nested());
    }
}
