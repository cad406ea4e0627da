//! Flat types as the trials build them, valid or not.

use lomzegash::kind::{FIELD, INT8, LIST, STRUCT};
use plain::sheet::{self, Argument};

/// Kinds and arguments, which may be anything at all.
#[derive(Clone, Debug, Default)]
pub struct Flat {
    /// The kinds of the nodes.
    pub kinds: Vec<u8>,
    /// The arguments of the nodes.
    pub args: Vec<u64>,
}

impl Flat {
    /// The flat type of these nodes, each a kind and an argument.
    pub fn new(nodes: &[(u8, u64)]) -> Flat {
        let (kinds, args) = nodes.iter().copied().unzip();
        Flat { kinds, args }
    }

    /// Int8.
    pub fn int8() -> Flat {
        Flat::new(&[(INT8, 0)])
    }

    /// These nodes so many times over, with `inner` behind them.
    pub fn repeated(nodes: &[(u8, u64)], times: usize, inner: &Flat) -> Flat {
        let mut flat = Flat::new(&nodes.repeat(times));
        flat.extend(inner);
        flat
    }

    /// So many Lists over Int8.
    pub fn lists(count: usize) -> Flat {
        Flat::repeated(&[(LIST, 0)], count, &Flat::int8())
    }

    /// So many Structs of one field, one inside the other, with `inner` in the last.
    pub fn structs(count: usize, inner: &Flat) -> Flat {
        Flat::repeated(&[(STRUCT, 1), (FIELD, 0)], count, inner)
    }

    /// A Struct of these types, with names from 0 on.
    pub fn fields<'a>(types: impl IntoIterator<Item = &'a Flat>) -> Flat {
        let mut flat = Flat::new(&[(STRUCT, 0)]);
        for dtype in types {
            flat.push(FIELD, flat.args[0]);
            flat.extend(dtype);
            flat.args[0] += 1;
        }
        flat
    }

    /// A Struct of so many Int8 fields.
    pub fn wide_struct(fields: usize) -> Flat {
        Flat::fields(&vec![Flat::int8(); fields])
    }

    /// Both slices, as the calls on flat types take them.
    pub fn parts(&self) -> (&[u8], &[u64]) {
        (&self.kinds, &self.args)
    }

    /// Adds a node at the end.
    pub fn push(&mut self, kind: u8, arg: u64) {
        self.kinds.push(kind);
        self.args.push(arg);
    }

    /// Takes the last node away.
    pub fn pop(&mut self) {
        self.kinds.pop();
        self.args.pop();
    }

    /// Adds the nodes of `other` at the end.
    pub fn extend(&mut self, other: &Flat) {
        self.kinds.extend(&other.kinds);
        self.args.extend(&other.args);
    }

    /// The kinds and the arguments of bytes that are laid out as those of some, unchecked.
    pub fn read(bytes: &[u8]) -> Flat {
        let (kinds, args) = sheet::split(bytes).expect("bytes that have the length of their number of nodes");
        Flat { kinds: kinds.to_vec(), args: args.iter().map(|arg| arg.value()).collect() }
    }

    /// The bytes of the encoded type with these kinds and arguments, unchecked.
    pub fn laid_out(&self) -> Vec<u8> {
        sheet::lay_out(&self.kinds, &self.args)
    }
}
