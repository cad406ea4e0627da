//! Random types of an exact number of nodes.

use crate::arguments;
use crate::flat::Flat;
use crate::random::Random;
use lomzegash::kind::{ARRAY, FIELD, LIST, STRUCT, UNKNOWN_INT_NEG};

/// The kinds of a node with no child; a Struct of no field is one.
pub const LEAVES: [u8; 29] = {
    let mut kinds = [STRUCT; 29];
    let mut kind = 0;
    while kind <= UNKNOWN_INT_NEG {
        kinds[kind as usize] = kind;
        kind += 1;
    }
    kinds
};

/// The least room for depth in which a type of every size can be grown.
pub const LEAST_ROOM: usize = 3;

/// Most fields of one Struct.
const MOST_FIELDS: usize = 255;

/// A type and its depth.
pub struct Grown {
    /// The type.
    pub flat: Flat,
    /// The most nodes that stand above any of its nodes.
    pub depth: usize,
}

/// A type of exactly `size` nodes, at least 1, and of depth `room` at most, at least [`LEAST_ROOM`].
pub fn grow(random: &mut Random, size: usize, room: usize) -> Grown {
    grow_of(random, size, room, &LEAVES)
}

/// The same, with leaves of these kinds alone.
pub fn grow_of(random: &mut Random, size: usize, room: usize, leaves: &[u8]) -> Grown {
    let slant = random.pick(&[10, 40, 70, 97]);
    let mut grower = Grower { random, slant, leaves, grown: Grown { flat: Flat::default(), depth: 0 } };
    grower.whole_type(size, 0, room);
    grower.grown
}

/// `slant` is how often, in a hundred, a type grows deep rather than wide.
struct Grower<'a> {
    random: &'a mut Random,
    slant: usize,
    leaves: &'a [u8],
    grown: Grown,
}

impl Grower<'_> {
    fn node(&mut self, kind: u8, arg: u64, depth: usize) {
        self.grown.flat.push(kind, arg);
        self.grown.depth = self.grown.depth.max(depth);
    }

    /// A type of `size` nodes at `depth`, with `room` below its first node: 1 where the size is 2, else [`LEAST_ROOM`].
    fn whole_type(&mut self, size: usize, depth: usize, room: usize) {
        let may_wrap = size <= 3 || room > LEAST_ROOM;
        if size == 1 {
            self.leaf(depth);
        } else if size == 2 || (may_wrap && self.random.chance(self.slant)) {
            self.wrap(size - 1, depth, room);
        } else {
            self.fields(size - 1, depth, room - 2);
        }
    }

    /// One node with no child.
    fn leaf(&mut self, depth: usize) {
        let kind = self.random.pick(self.leaves);
        let arg = arguments::valid(kind, self.random);
        self.node(kind, arg, depth);
    }

    /// A List or an Array over a type of `size` nodes.
    fn wrap(&mut self, size: usize, depth: usize, room: usize) {
        let kind = self.random.pick(&[LIST, ARRAY]);
        let arg = arguments::valid(kind, self.random);
        self.node(kind, arg, depth);
        self.whole_type(size, depth + 1, room - 1);
    }

    /// A Struct whose fields have `total` nodes, with `room` below the first node of a field's type.
    fn fields(&mut self, total: usize, depth: usize, room: usize) {
        let fewest = if room < LEAST_ROOM { total.div_ceil(3) } else { 1 };
        let most = MOST_FIELDS.min(total / 2);
        let count = if self.random.chance(self.slant) { fewest } else { self.random.between(fewest, most) };
        self.node(STRUCT, count as u64, depth);
        for more in self.shares(total - 2 * count, count, room) {
            let name = arguments::valid(FIELD, self.random);
            self.node(FIELD, name, depth + 1);
            self.whole_type(1 + more, depth + 2, room);
        }
    }

    /// Deals `extra` nodes out to `count` fields, at most one each where there is no room for more.
    fn shares(&mut self, mut extra: usize, count: usize, room: usize) -> Vec<usize> {
        let mut shares = vec![0; count];
        let mut at = self.random.below(count);
        while extra > 0 {
            let share = if room < LEAST_ROOM { 1 } else { self.random.between(1, extra) };
            shares[at % count] += share;
            extra -= share;
            at += 1;
        }
        shares
    }
}
