//! Types as trees, and the flat types that they are.

use crate::{ARRAY, FIELD, LIST, STRUCT};

/// A field's name and type.
pub type Field = (u64, Tree);

/// A type. Two are equal where all their nodes are.
#[derive(Clone, Debug, PartialEq, Eq, Hash)]
pub enum Tree {
    /// A kind and an argument.
    Leaf(u8, u64),
    /// A type.
    List(Box<Tree>),
    /// A width and a type.
    Array(u64, Box<Tree>),
    /// Fields.
    Struct(Vec<Field>),
}

impl Tree {
    /// A List of this type.
    pub fn list(self) -> Tree {
        Tree::List(Box::new(self))
    }

    /// An Array of this type.
    pub fn array(self, width: u64) -> Tree {
        Tree::Array(width, Box::new(self))
    }

    /// The number of nodes, of which a field is one.
    pub fn nodes(&self) -> usize {
        match self {
            Tree::Leaf(..) => 1,
            Tree::List(inner) | Tree::Array(_, inner) => 1 + inner.nodes(),
            Tree::Struct(fields) => fields.iter().fold(1, |before, (_, dtype)| before + 1 + dtype.nodes()),
        }
    }

    /// How many nodes are above the deepest one.
    pub fn depth(&self) -> usize {
        match self {
            Tree::Leaf(..) => 0,
            Tree::List(inner) | Tree::Array(_, inner) => 1 + inner.depth(),
            Tree::Struct(fields) => fields.iter().map(|(_, dtype)| 2 + dtype.depth()).max().unwrap_or(0),
        }
    }

    /// The kinds and the arguments of the flat type.
    pub fn flat(&self) -> (Vec<u8>, Vec<u64>) {
        let (mut kinds, mut args) = (vec![], vec![]);
        self.write(&mut |kind, arg| {
            kinds.push(kind);
            args.push(arg);
        });
        (kinds, args)
    }

    fn write(&self, node: &mut impl FnMut(u8, u64)) {
        match self {
            Tree::Leaf(kind, arg) => node(*kind, *arg),
            Tree::List(inner) => {
                node(LIST, 0);
                inner.write(node);
            }
            Tree::Array(width, inner) => {
                node(ARRAY, *width);
                inner.write(node);
            }
            Tree::Struct(fields) => {
                node(STRUCT, fields.len() as u64);
                for (name, dtype) in fields {
                    node(FIELD, *name);
                    dtype.write(node);
                }
            }
        }
    }

    /// The type of a flat type.
    ///
    /// # Panics
    ///
    /// Where the nodes end inside the type.
    pub fn read(kinds: &[u8], args: &[u64]) -> Tree {
        read(&mut kinds.iter().copied().zip(args.iter().copied()))
    }
}

/// The type at the front of the nodes.
fn read(nodes: &mut impl Iterator<Item = (u8, u64)>) -> Tree {
    match next(nodes) {
        (LIST, _) => read(nodes).list(),
        (ARRAY, width) => read(nodes).array(width),
        (STRUCT, count) => Tree::Struct((0..count).map(|_| (next(nodes).1, read(nodes))).collect()),
        (kind, arg) => Tree::Leaf(kind, arg),
    }
}

fn next(nodes: &mut impl Iterator<Item = (u8, u64)>) -> (u8, u64) {
    nodes.next().expect("a type's nodes end with it")
}

#[cfg(test)]
mod tests {
    use super::*;
    use crate::check;

    const INT8: Tree = Tree::Leaf(7, 0);

    #[test]
    fn a_type_comes_back_from_its_flat_type() {
        let inner = Tree::Struct(vec![(0, INT8), (7, INT8.array(2))]);
        let tree = Tree::Struct(vec![(0, inner.list()), (0, Tree::Struct(vec![]))]);
        let (kinds, args) = tree.flat();
        assert_eq!(check(&kinds, &args), Ok(()));
        assert_eq!(Tree::read(&kinds, &args), tree);
        assert_eq!((tree.nodes(), tree.depth()), (kinds.len(), 6));
    }
}
