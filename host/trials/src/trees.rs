//! Every type of a small number of nodes.

use crate::flat::Flat;
use lomzegash::kind::{FIELD, STRUCT};

/// What trees are made of: nodes with no child, Lists and Arrays, and names of fields.
pub struct Parts<'a> {
    /// Nodes with no child.
    pub leaves: &'a [(u8, u64)],
    /// Lists and Arrays.
    pub wraps: &'a [(u8, u64)],
    /// Names of fields.
    pub names: &'a [u64],
}

impl Parts<'_> {
    /// Every type of up to `most` nodes made of these parts, the smaller first.
    pub fn trees(&self, most: usize) -> Vec<Flat> {
        let mut trees = Trees { types: vec![vec![]], fields: vec![vec![(0, Flat::default())]] };
        for size in 1..=most {
            let types = self.types(&trees, size);
            trees.types.push(types);
            let fields = self.fields(&trees, size);
            trees.fields.push(fields);
        }
        trees.types.concat()
    }

    /// The types of `size` nodes, with those of fewer at hand.
    fn types(&self, trees: &Trees, size: usize) -> Vec<Flat> {
        if size == 1 {
            return self.leaves.iter().map(|&leaf| Flat::new(&[leaf])).collect();
        }
        let mut types = vec![];
        for &wrap in self.wraps {
            types.extend(trees.types[size - 1].iter().map(|inner| over(wrap, &[inner])));
        }
        types.extend(trees.fields[size - 1].iter().map(|(count, fields)| over((STRUCT, *count), &[fields])));
        types
    }

    /// The lists of fields of `size` nodes in all, with types of as many at hand and lists of fewer.
    fn fields(&self, trees: &Trees, size: usize) -> Vec<(u64, Flat)> {
        let mut lists = vec![];
        for first in 1..size {
            for name in self.names {
                for dtype in &trees.types[first] {
                    let rest = &trees.fields[size - 1 - first];
                    lists.extend(rest.iter().map(|(count, rest)| (count + 1, over((FIELD, *name), &[dtype, rest]))));
                }
            }
        }
        lists
    }
}

/// By their number of nodes: the types, and the lists of fields with how many fields there are.
struct Trees {
    types: Vec<Vec<Flat>>,
    fields: Vec<Vec<(u64, Flat)>>,
}

/// A node and the nodes behind it.
fn over(node: (u8, u64), rest: &[&Flat]) -> Flat {
    let mut flat = Flat::new(&[node]);
    rest.iter().for_each(|part| flat.extend(part));
    flat
}

#[cfg(test)]
mod tests {
    use super::*;
    use lomzegash::kind::{INT8, LIST};

    #[test]
    fn there_are_so_many_trees() {
        let parts = Parts { leaves: &[(INT8, 0), (STRUCT, 0)], wraps: &[(LIST, 0)], names: &[0, 1, 2] };
        let trees = parts.trees(5);
        let of_size = |size| trees.iter().filter(|tree| tree.kinds.len() == size).count();
        // A List over one of n - 1, a Struct of one field over one of n - 2, and at 5 one of two fields.
        let [one, two, three] = [2, 2, 2 + 3 * 2];
        let four = three + 3 * two;
        let five = four + 3 * three + (3 * one) * (3 * one);
        assert_eq!([1, 2, 3, 4, 5].map(of_size), [one, two, three, four, five]);
        assert!(trees.iter().all(|tree| plain::check(&tree.kinds, &tree.args).is_ok()));
    }
}
