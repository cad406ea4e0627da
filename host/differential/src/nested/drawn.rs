//! Which joins are drawn.

use super::fields::{self, NAMES};
use super::leaves;
use super::tree::{Field, Tree};
use super::{Asked, Flags, Row, BOTH, DEFAULT, IMPLODE, OFF};
use lomzegash::kind::*;
use std::array;
use trials::random::Random;

/// The most nodes of a type.
const NODES: usize = 12;

/// How deep Lists, Arrays and Structs stand in one another.
const ROOM: usize = 4;

/// A way to draw two types, of which one is nested at least, with room in them for types that nest so deep.
type Pair = fn(&mut Random, usize) -> (Tree, Tree);

/// One of these is as likely as another.
const PAIRS: [Pair; 20] = [
    wraps,
    wraps,
    wraps,
    list_and_other,
    list_and_other,
    list_and_other,
    same_names,
    same_names,
    other_lengths,
    other_lengths,
    other_lengths,
    other_names,
    other_names,
    other_names,
    struct_and_dyn,
    struct_and_number,
    struct_and_number,
    nested_and_leaf,
    nearly_equal,
    nearly_equal,
];

/// Leaves to put beside nested types.
const BESIDE: [u8; 9] = [STRING, STRING, NULL, BINARY, BINARY_OFFSET, UNKNOWN_ANY, UNKNOWN_STR, BOOLEAN, DECIMAL];

/// A row that is worth its place.
pub fn row(random: &mut Random) -> Row {
    loop {
        let row = Row::from(asked(random));
        let is_small = row.asked.left.nodes() <= NODES && row.asked.right.nodes() <= NODES;
        if is_small && random.chance(worth(&row)) {
            return row;
        }
    }
}

/// In how many of a hundred cases a row is taken: seldom where the types are equal, in fewer than others where there is no
/// answer, and where the inner flags aren't the default and answer as it does.
fn worth(Row { asked, answer }: &Row) -> usize {
    match answer {
        _ if asked.left == asked.right => 10,
        None if asked.inner == DEFAULT || asked.answer_with(DEFAULT).is_none() => 25,
        Some(_) if asked.inner != DEFAULT && asked.answer_with(DEFAULT) == *answer => 40,
        _ => 100,
    }
}

fn asked(random: &mut Random) -> Asked {
    let (left, right) = nested(random, ROOM);
    let may_implode = matches!((&left, &right), (Tree::List(_), _) | (_, Tree::List(_)));
    let outer = [random.chance(if may_implode { 70 } else { 45 }), random.chance(50)];
    Asked { outer, inner: inner_flags(random), left, right }
}

fn inner_flags(random: &mut Random) -> Flags {
    if random.chance(20) {
        DEFAULT
    } else {
        random.pick(&[OFF, IMPLODE, BOTH])
    }
}

/// Two types, of which one is nested at least, in any order.
fn nested(random: &mut Random, room: usize) -> (Tree, Tree) {
    let (left, right) = random.pick(&PAIRS)(random, room - 1);
    if random.chance(50) {
        (left, right)
    } else {
        (right, left)
    }
}

/// Two types for one place inside two others: leaves in most cases.
fn inside(random: &mut Random, room: usize) -> (Tree, Tree) {
    if room > 0 && random.chance(25) {
        nested(random, room)
    } else {
        leaves::pair(random)
    }
}

/// A List or an Array.
fn wrap(inner: Tree, random: &mut Random) -> Tree {
    if random.chance(50) {
        inner.list()
    } else {
        inner.array(random.below(3) as u64)
    }
}

fn wraps(random: &mut Random, room: usize) -> (Tree, Tree) {
    let (left, right) = inside(random, room);
    (wrap(left, random), wrap(right, random))
}

fn list_and_other(random: &mut Random, room: usize) -> (Tree, Tree) {
    let (left, right) = inside(random, room);
    (left.list(), if random.chance(25) { Tree::Leaf(STRING, 0) } else { right })
}

/// The fields of two Structs with the same names.
fn zipped(random: &mut Random, room: usize) -> (Vec<Field>, Vec<Field>) {
    let count = random.pick(&[1, 2, 2, 2, 3]);
    let (left, right): (Vec<Tree>, Vec<Tree>) = (0..count).map(|_| inside(random, room)).unzip();
    let left = fields::named(random, left);
    let right = left.iter().zip(right).map(|((name, _), dtype)| (*name, dtype)).collect();
    (left, right)
}

fn same_names(random: &mut Random, room: usize) -> (Tree, Tree) {
    let (left, right) = zipped(random, room);
    (Tree::Struct(left), Tree::Struct(right))
}

/// Structs with as many fields, which differ in a name or in the order of the fields.
fn other_names(random: &mut Random, room: usize) -> (Tree, Tree) {
    let (left, mut right) = zipped(random, room);
    random.pick(&[fields::rename, fields::rename, fields::swap])(&mut right, random);
    (Tree::Struct(left), Tree::Struct(right))
}

fn other_lengths(random: &mut Random, room: usize) -> (Tree, Tree) {
    let types: [_; NAMES] = array::from_fn(|_| inside(random, room));
    let longer = random.pick(&[1, 2, 2, 3, 3, 4]);
    let shorter = random.below(longer);
    (Tree::Struct(fields::fields(random, longer, &types)), Tree::Struct(fields::fields(random, shorter, &types)))
}

fn struct_and_dyn(random: &mut Random, room: usize) -> (Tree, Tree) {
    (structure(random, room), leaves::dyn_number(random))
}

fn struct_and_number(random: &mut Random, room: usize) -> (Tree, Tree) {
    (structure(random, room), leaves::primitive_number(random))
}

/// A Struct whose fields are numbers in most cases.
fn structure(random: &mut Random, room: usize) -> Tree {
    let count = random.pick(&[1, 2, 2, 2, 3]);
    let dtype = |_| if random.chance(60) { leaves::number(random) } else { inside(random, room).0 };
    let types: Vec<Tree> = (0..count).map(dtype).collect();
    Tree::Struct(fields::named(random, types))
}

fn nested_and_leaf(random: &mut Random, room: usize) -> (Tree, Tree) {
    let tree = tree(random, room);
    (tree, leaves::leaf_of(random.pick(&BESIDE), random))
}

fn nearly_equal(random: &mut Random, room: usize) -> (Tree, Tree) {
    let left = tree(random, room);
    let right = nearly(&left, random);
    (left, right)
}

/// A nested type.
fn tree(random: &mut Random, room: usize) -> Tree {
    let inner = if room > 0 && random.chance(40) { tree(random, room - 1) } else { leaves::leaf(random) };
    if random.chance(50) {
        return wrap(inner, random);
    }
    let mut types = vec![inner];
    (0..random.below(3)).for_each(|_| types.push(leaves::leaf(random)));
    Tree::Struct(fields::named(random, types))
}

/// A type that differs from this one in each node in a quarter of all cases.
fn nearly(tree: &Tree, random: &mut Random) -> Tree {
    let is_other = random.chance(25);
    match tree {
        Tree::Leaf(..) if is_other => leaves::leaf(random),
        Tree::Leaf(..) => tree.clone(),
        Tree::List(inner) | Tree::Array(_, inner) if is_other => {
            let inner = nearly(inner, random);
            wrap(inner, random)
        }
        Tree::List(inner) => nearly(inner, random).list(),
        Tree::Array(width, inner) => nearly(inner, random).array(*width),
        Tree::Struct(fields) => {
            let mut fields: Vec<Field> = fields.iter().map(|(name, dtype)| (*name, nearly(dtype, random))).collect();
            if is_other && !fields.is_empty() {
                random.pick(&fields::CHANGES)(&mut fields, random);
            }
            Tree::Struct(fields)
        }
    }
}
