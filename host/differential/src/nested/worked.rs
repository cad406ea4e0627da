//! The joins that change request Three's sentences speak of, and those next to them.

use super::tree::Tree;
use super::{Asked, Flags, DEFAULT, IMPLODE, OFF};
use lomzegash::kind::*;

/// Outer and inner flags.
type Both = (Flags, Flags);

/// The crate's default, outside and inside.
const DEFAULTS: &[Both] = &[(DEFAULT, DEFAULT)];

/// Inner flags that let primitives become strings, and that don't.
const STRINGS: &[Both] = &[(DEFAULT, DEFAULT), (DEFAULT, OFF)];

/// Inner flags that let Lists implode, and that don't, beside outer flags of both sorts.
const IMPLODES: &[Both] = &[(OFF, OFF), (OFF, IMPLODE), (IMPLODE, OFF), (IMPLODE, IMPLODE)];

pub fn all() -> Vec<Asked> {
    let mut worked = Worked::default();
    worked.lists();
    worked.arrays();
    worked.other_lengths();
    worked.as_many_fields();
    worked.first_fields();
    worked.each_field();
    worked.plain();
    worked.asked
}

#[derive(Default)]
struct Worked {
    asked: Vec<Asked>,
}

impl Worked {
    /// In either order, with each of these flags.
    fn ask(&mut self, left: Tree, right: Tree, flags: &[Both]) {
        for &(outer, inner) in flags {
            self.asked.push(Asked { outer, inner, left: left.clone(), right: right.clone() });
            self.asked.push(Asked { outer, inner, left: right.clone(), right: left.clone() });
        }
    }

    fn lists(&mut self) {
        let list_first = [(DEFAULT, DEFAULT), (DEFAULT, OFF), (IMPLODE, DEFAULT), (IMPLODE, OFF)];
        self.ask(leaf(INT8).list(), leaf(STRING), &list_first);
        self.ask(leaf(INT8).list(), leaf(INT16), &[(OFF, DEFAULT), (IMPLODE, DEFAULT)]);
        self.ask(leaf(INT8).list(), leaf(STRING).list(), STRINGS);
        self.ask(leaf(INT8).list().list(), leaf(INT16).list(), IMPLODES);
    }

    fn arrays(&mut self) {
        self.ask(leaf(INT8).array(2), leaf(INT16).array(2), DEFAULTS);
        self.ask(leaf(INT8).array(2), leaf(INT16).array(1), DEFAULTS);
        self.ask(leaf(INT8).array(0), leaf(INT16).list(), DEFAULTS);
    }

    /// A name that is repeated in the longer Struct, and in the shorter; and joins that tell which of them is the left.
    fn other_lengths(&mut self) {
        let longer = fields(&[(0, INT8), (1, INT8), (0, INT16)]);
        self.ask(longer.clone(), fields(&[(1, INT32)]), DEFAULTS);
        self.ask(longer.clone(), fields(&[(2, DATE), (0, INT8)]), DEFAULTS);
        self.ask(longer.clone(), fields(&[(0, STRING)]), STRINGS);
        self.ask(longer, fields(&[]), DEFAULTS);
        let shorter = fields(&[(1, INT16), (1, UINT16)]);
        self.ask(fields(&[(0, DATE), (1, INT8), (2, DATE)]), shorter.clone(), DEFAULTS);
        self.ask(fields(&[(0, DATE), (2, DATE), (0, TIME)]), shorter, DEFAULTS);
        self.ask(fields(&[(0, UNKNOWN_ANY), (1, INT8)]), fields(&[(0, STRING)]), DEFAULTS);
        self.ask(fields(&[(0, STRING), (1, INT8)]), fields(&[(0, UNKNOWN_ANY)]), DEFAULTS);
    }

    /// Joined field by field, and united from the first differing name on.
    fn as_many_fields(&mut self) {
        self.ask(fields(&[(0, INT8), (1, INT16)]), fields(&[(0, INT16), (1, INT8)]), DEFAULTS);
        self.ask(fields(&[(0, INT8), (0, INT16)]), fields(&[(0, INT16), (0, STRING)]), STRINGS);
        self.ask(fields(&[(0, INT8), (1, DATE)]), fields(&[(0, INT16), (2, TIME)]), DEFAULTS);
        let dates = fields(&[(0, DATE), (0, STRING), (1, INT8)]);
        self.ask(dates.clone(), fields(&[(0, TIME), (0, STRING), (2, INT8)]), DEFAULTS);
        self.ask(dates, fields(&[(2, INT8), (0, TIME), (0, STRING)]), DEFAULTS);
        self.ask(fields(&[(0, STRING), (0, TIME)]), fields(&[(1, INT8), (0, DATE)]), STRINGS);
    }

    /// With dyn numbers.
    fn first_fields(&mut self) {
        let numbers = fields(&[(0, INT8), (1, BINARY)]);
        self.ask(numbers.clone(), Tree::Leaf(UNKNOWN_INT_POS, 300), DEFAULTS);
        self.ask(numbers, leaf(UNKNOWN_FLOAT), DEFAULTS);
        self.ask(fields(&[]), leaf(UNKNOWN_FLOAT), DEFAULTS);
        self.ask(fields(&[(0, STRING)]), Tree::Leaf(UNKNOWN_INT_NEG, 4), STRINGS);
    }

    /// With primitive numbers, and with what is none.
    fn each_field(&mut self) {
        let numbers = fields(&[(0, INT8), (0, UINT8), (1, UNKNOWN_FLOAT)]);
        self.ask(numbers.clone(), leaf(INT16), DEFAULTS);
        self.ask(numbers, leaf(BOOLEAN), DEFAULTS);
        self.ask(fields(&[]), leaf(INT16), DEFAULTS);
        self.ask(fields(&[(0, INT8), (1, STRING)]), leaf(INT16), STRINGS);
        self.ask(fields(&[(0, INT8), (1, BINARY)]), leaf(INT16), DEFAULTS);
    }

    /// Equal types, by which all dyn ints are one; Null, str and any.
    fn plain(&mut self) {
        let [small, large] = [1, 300].map(|value| Tree::Leaf(UNKNOWN_INT_POS, value));
        self.ask(small.clone().list(), large.clone().list(), DEFAULTS);
        self.ask(Tree::Struct(vec![(0, small), (1, leaf(NULL))]), Tree::Struct(vec![(0, large)]), DEFAULTS);
        self.ask(leaf(INT8).list(), leaf(NULL), &[(OFF, DEFAULT), (IMPLODE, DEFAULT)]);
        self.ask(fields(&[(0, INT8)]), leaf(UNKNOWN_STR), DEFAULTS);
        self.ask(leaf(INT8).list(), leaf(UNKNOWN_ANY), &[(OFF, DEFAULT), (IMPLODE, DEFAULT)]);
    }
}

fn leaf(kind: u8) -> Tree {
    Tree::Leaf(kind, 0)
}

/// A Struct of leaves, each a name and a kind.
fn fields(fields: &[(u64, u8)]) -> Tree {
    Tree::Struct(fields.iter().map(|&(name, kind)| (name, leaf(kind))).collect())
}
