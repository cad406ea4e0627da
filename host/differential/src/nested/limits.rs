//! Joins at the limits, 512 nodes and depth 32: answers on either side of them, and answers within them, or None, of
//! joins on whose way a step is beyond them.

use super::tree::{Field, Tree};
use super::{Asked, Flags, BOTH, DEFAULT, IMPLODE, OFF};
use lomzegash::kind::*;
use trials::random::Random;

const MAX_NODES: usize = 512;
const MAX_DEPTH: usize = 32;

const EVERY: [Flags; 4] = [OFF, DEFAULT, IMPLODE, BOTH];

/// Leaves that have one supertype in either order, whatever the flags.
const SHARED: [(u8, u8); 4] = [(INT8, INT16), (DATE, NULL), (STRING, STRING), (UINT8, UNKNOWN_FLOAT)];

/// How far apart names are: the last is the number of slots of a table of names.
const STRIDES: [usize; 3] = [1, 7, 512];

/// A join, and one that the source makes on its way to the answer.
pub struct Beyond {
    pub asked: Asked,
    pub step: Asked,
}

/// A join whose answer has so many nodes, 640 at most.
pub fn of_nodes(random: &mut Random, nodes: usize) -> Asked {
    let (left, right) = pair_of_nodes(random, nodes);
    Asked { outer: random.pick(&EVERY), inner: random.pick(&EVERY), left, right }
}

/// A join whose answer is so deep: from 2 to 64.
pub fn of_depth(random: &mut Random, depth: usize) -> Asked {
    depth_of_two(random, depth, MAX_DEPTH)
}

/// A join of few nodes or without an answer, which passes the nodes' limit on its way.
pub fn beyond_nodes(random: &mut Random) -> Beyond {
    let nodes = random.between(MAX_NODES + 1, 640);
    let step = of_nodes(random, nodes);
    beyond(random, step)
}

/// The same of depth.
pub fn beyond_depth(random: &mut Random) -> Beyond {
    let depth = random.between(MAX_DEPTH + 1, 56);
    // It stands in a field of a Struct.
    let step = depth_of_two(random, depth, MAX_DEPTH - 2);
    beyond(random, step)
}

/// Lists over Null and a Struct, neither deeper than `most`: the Lists take the Struct in.
fn depth_of_two(random: &mut Random, depth: usize, most: usize) -> Asked {
    let lists = random.between(depth.saturating_sub(most), (depth - 2).min(most));
    let nulls = (0..lists).fold(Tree::Leaf(NULL, 0), |inner, _| inner.list());
    let structure = structure(random, depth - lists);
    let (left, right) = in_any_order(random, nulls, structure);
    Asked { outer: random.pick(&[IMPLODE, BOTH]), inner: random.pick(&[IMPLODE, BOTH]), left, right }
}

/// Two types under the same nodes, each of which is one of the answer.
fn pair_of_nodes(random: &mut Random, nodes: usize) -> (Tree, Tree) {
    match random.below(8) {
        0 => {
            let (left, right) = pair_of_nodes(random, nodes - 1);
            (left.list(), right.list())
        }
        1 => {
            let (left, right) = pair_of_nodes(random, nodes - 1);
            (left.array(2), right.list())
        }
        2 => {
            let (left, right) = pair_of_nodes(random, nodes - 2);
            (Tree::Struct(vec![(0, left)]), Tree::Struct(vec![(0, right)]))
        }
        _ => united(random, nodes),
    }
}

/// Two Structs whose union has so many nodes: the first name is the left's alone, the second the right's.
fn united(random: &mut Random, nodes: usize) -> (Tree, Tree) {
    let stride = random.pick(&STRIDES);
    let (mut left, mut right) = (vec![], vec![]);
    for (at, size) in sizes(random, nodes - 1).into_iter().enumerate() {
        let (one, other) = random.pick(&SHARED);
        let [one, other] = [one, other].map(|kind| field(at * stride, kind, size));
        match if at < 2 { at } else { random.below(3) } {
            0 => left.push(one),
            1 => right.push(other),
            _ => {
                left.push(one);
                right.push(other);
            }
        }
    }
    if random.chance(50) {
        right.reverse();
    }
    (Tree::Struct(left), Tree::Struct(right))
}

/// So many nodes as fields of 2 or 3 each.
fn sizes(random: &mut Random, mut nodes: usize) -> Vec<usize> {
    let mut sizes = vec![];
    while nodes > 0 {
        let size = match nodes {
            2 | 4 => 2,
            3 => 3,
            _ => random.pick(&[2, 2, 2, 2, 2, 2, 3]),
        };
        sizes.push(size);
        nodes -= size;
    }
    sizes
}

fn field(name: usize, kind: u8, size: usize) -> Field {
    let leaf = Tree::Leaf(kind, 0);
    (name as u64, if size == 2 { leaf } else { leaf.list() })
}

/// A Struct so deep, which is 2 at least.
fn structure(random: &mut Random, depth: usize) -> Tree {
    let mut fields = vec![(1, inside(random, depth - 2))];
    if random.chance(50) {
        fields.insert(random.below(2), (2, Tree::Leaf(INT8, 0)));
    }
    Tree::Struct(fields)
}

/// Any type so deep.
fn inside(random: &mut Random, depth: usize) -> Tree {
    match depth {
        0 => Tree::Leaf(STRING, 0),
        2.. if random.chance(40) => structure(random, depth),
        _ if random.chance(50) => inside(random, depth - 1).list(),
        _ => inside(random, depth - 1).array(1),
    }
}

/// The step as that of a Struct's first field. Then String takes it in, or another field has no supertype.
fn beyond(random: &mut Random, step: Asked) -> Beyond {
    let (longer, shorter) = (step.right.clone(), step.left.clone());
    let leaf = |name, kind| (name, Tree::Leaf(kind, 0));
    let (longer, shorter) = match random.below(3) {
        0 => (vec![(0, longer), leaf(1, INT8), leaf(2, INT8)], vec![(0, shorter), leaf(0, STRING)]),
        1 => (vec![(0, longer), leaf(1, DATE), leaf(2, INT8)], vec![(0, shorter), leaf(1, TIME)]),
        _ => (vec![(0, longer), leaf(1, DATE)], vec![(0, shorter), leaf(1, TIME)]),
    };
    let (left, right) = in_any_order(random, Tree::Struct(longer), Tree::Struct(shorter));
    let asked = Asked { outer: random.pick(&EVERY), inner: step.inner, left, right };
    Beyond { asked, step: Asked { outer: step.inner, ..step } }
}

fn in_any_order(random: &mut Random, one: Tree, other: Tree) -> (Tree, Tree) {
    if random.chance(50) {
        (one, other)
    } else {
        (other, one)
    }
}

/// The oracle's answer.
fn answer(asked: &Asked) -> Option<Tree> {
    asked.answer_with(asked.inner)
}

#[test]
#[cfg_attr(not(polars_src), ignore = "no text of polars-core 0.55.2")]
fn answers_have_exactly_so_many_nodes() {
    let mut random = Random::new(31);
    for nodes in [510, 511, 512, 513, 514, 640] {
        for _ in 0..200 {
            let asked = of_nodes(&mut random, nodes);
            assert_eq!(answer(&asked).map(|tree| tree.nodes()), Some(nodes), "{asked:?}");
        }
    }
}

#[test]
#[cfg_attr(not(polars_src), ignore = "no text of polars-core 0.55.2")]
fn answers_are_exactly_so_deep() {
    let mut random = Random::new(32);
    for depth in [2, 30, 31, 32, 33, 34, 56, 60] {
        for _ in 0..200 {
            let asked = of_depth(&mut random, depth);
            assert_eq!(answer(&asked).map(|tree| tree.depth()), Some(depth), "{asked:?}");
        }
    }
}

/// The step is beyond a limit, and the answer is small, or None.
fn passes(draw: fn(&mut Random) -> Beyond, is_beyond: fn(&Tree) -> bool) {
    let mut random = Random::new(33);
    let mut answers = 0;
    for _ in 0..300 {
        let Beyond { asked, step } = draw(&mut random);
        assert!(answer(&step).is_some_and(|tree| is_beyond(&tree)), "{step:?}");
        let answer = answer(&asked);
        answers += usize::from(answer.is_some());
        assert!(answer.is_none_or(|tree| tree.nodes() < 16 && tree.depth() < 16), "{asked:?}");
    }
    assert!((50..250).contains(&answers), "{answers} answers");
}

#[test]
#[cfg_attr(not(polars_src), ignore = "no text of polars-core 0.55.2")]
fn a_step_has_too_many_nodes() {
    passes(beyond_nodes, |tree| tree.nodes() > MAX_NODES);
}

#[test]
#[cfg_attr(not(polars_src), ignore = "no text of polars-core 0.55.2")]
fn a_step_is_too_deep() {
    passes(beyond_depth, |tree| tree.depth() > MAX_DEPTH);
}
