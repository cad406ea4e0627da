//! The recorded rows are of every sort.

use super::tree::{dtype, Field, Tree};
use super::{rows, Flags, Row, COUNT, DEFAULT};
use lomzegash::kind::*;
use std::collections::{HashMap, HashSet};
use std::ops::RangeInclusive;

/// Whether a row is of a sort.
type Sort = fn(&Row) -> bool;

/// The sorts, and how many rows of each there are at least.
const SORTS: [(&str, Sort, usize); 21] = [
    ("no answer", |row| row.answer.is_none(), 200),
    ("a union of Structs of other lengths", |row| united(row).is_some_and(|(l, r)| l.len() != r.len()), 200),
    ("a union of Structs of one length", |row| united(row).is_some_and(|(l, r)| l.len() == r.len()), 150),
    ("a name repeated in the longer Struct", |row| longer(row).is_some_and(repeats), 100),
    ("a name repeated in the shorter Struct", |row| shorter(row).is_some_and(repeats), 30),
    ("fields joined one by one", is_zipped, 100),
    ("Arrays of one width", |row| widths(row).is_some_and(|(l, r)| l == r), 30),
    ("Arrays of two widths", |row| widths(row).is_some_and(|(l, r)| l != r), 30),
    ("imploding", is_imploded, 100),
    ("a first field with a dyn number", |row| is_struct_with(row, UNKNOWN_FLOAT..=UNKNOWN_INT_NEG), 50),
    ("each field with a number", |row| is_struct_with(row, UINT8..=FLOAT64), 100),
    ("inner flags that matter", |row| matters(row, |_| DEFAULT), 200),
    ("inner imploding that matters", |row| matters(row, |[_, string]| [false, string]), 50),
    ("inner strings that matter", |row| matters(row, |[implode, _]| [implode, true]), 100),
    ("a leaf before a Struct or an Array", is_leaf_first, 100),
    ("a List that is tried first in vain", is_list_in_vain, 10),
    ("a union that is tried first in vain", is_union_in_vain, 2),
    ("types that are equal to the crate alone", is_equal_to_the_crate, 10),
    ("a dyn int", |row| has(row, &[UNKNOWN_INT_POS, UNKNOWN_INT_NEG]), 300),
    ("Null", |row| has(row, &[NULL]), 100),
    ("String", |row| has(row, &[STRING]), 300),
];

/// Both types.
fn sides(row: &Row) -> [&Tree; 2] {
    [&row.asked.left, &row.asked.right]
}

/// The fields of two Structs.
fn structs(row: &Row) -> Option<(&[Field], &[Field])> {
    match sides(row) {
        [Tree::Struct(left), Tree::Struct(right)] => Some((left, right)),
        _ => None,
    }
}

fn names(fields: &[Field]) -> Vec<u64> {
    fields.iter().map(|(name, _)| *name).collect()
}

/// The fields of two Structs whose union is the answer.
fn united(row: &Row) -> Option<(&[Field], &[Field])> {
    structs(row).filter(|(left, right)| row.answer.is_some() && names(left) != names(right))
}

fn longer(row: &Row) -> Option<&[Field]> {
    united(row).map(|(left, right)| if left.len() >= right.len() { left } else { right })
}

fn shorter(row: &Row) -> Option<&[Field]> {
    united(row).map(|(left, right)| if left.len() >= right.len() { right } else { left })
}

/// The names in the order in which each came first.
fn first_names(fields: &[Field]) -> Vec<u64> {
    let mut known = HashSet::new();
    names(fields).into_iter().filter(|name| known.insert(*name)).collect()
}

fn repeats(fields: &[Field]) -> bool {
    first_names(fields).len() < fields.len()
}

/// Two Structs of the same names and of other types.
fn is_zipped(row: &Row) -> bool {
    let same_names = structs(row).is_some_and(|(left, right)| names(left) == names(right));
    same_names && row.asked.left != row.asked.right && row.answer.is_some()
}

/// The widths of two Arrays that have an answer.
fn widths(row: &Row) -> Option<(u64, u64)> {
    match sides(row) {
        [Tree::Array(left, _), Tree::Array(right, _)] if row.answer.is_some() => Some((*left, *right)),
        _ => None,
    }
}

/// A List and what is neither List nor Array nor Null, which are a List together.
fn is_imploded(row: &Row) -> bool {
    let is_other = |tree: &Tree| matches!(tree, Tree::Leaf(1.., _) | Tree::Struct(_));
    let is_pair = |one, other: &Tree| matches!(one, &Tree::List(_)) && is_other(other);
    let [left, right] = sides(row);
    matches!(row.answer, Some(Tree::List(_))) && (is_pair(left, right) || is_pair(right, left))
}

/// A Struct and a leaf of these kinds, in any order, with an answer.
fn is_struct_with(row: &Row, kinds: RangeInclusive<u8>) -> bool {
    match sides(row) {
        [Tree::Struct(_), Tree::Leaf(kind, _)] | [Tree::Leaf(kind, _), Tree::Struct(_)] => {
            row.answer.is_some() && kinds.contains(kind)
        }
        _ => false,
    }
}

/// Whether the answer is another with other inner flags.
fn matters(row: &Row, other: fn(Flags) -> Flags) -> bool {
    row.asked.answer_with(other(row.asked.inner)) != row.answer
}

/// The arms have the leaf on the right, so only the second order answers.
fn is_leaf_first(row: &Row) -> bool {
    row.answer.is_some() && matches!(sides(row), [Tree::Leaf(..), Tree::Struct(_) | Tree::Array(..)])
}

/// Only the second order answers: the first would have imploded the List.
fn is_list_in_vain(row: &Row) -> bool {
    let is_tried = row.asked.outer[0] && matches!(sides(row), [Tree::Leaf(..), Tree::List(_)]);
    is_tried && matches!(row.answer, Some(Tree::Leaf(..)))
}

/// Only the second order answers: the first would have had the left's fields first.
fn is_union_in_vain(row: &Row) -> bool {
    let Some((left, right)) = united(row).filter(|(left, right)| left.len() == right.len()) else { return false };
    let Some(Tree::Struct(fields)) = &row.answer else { return false };
    let starts_with = |other| first_names(fields).starts_with(&first_names(other));
    starts_with(right) && !starts_with(left)
}

/// They differ in dyn ints.
fn is_equal_to_the_crate(row: &Row) -> bool {
    let [left, right] = sides(row);
    left != right && dtype(left).equal(&dtype(right))
}

/// The kinds of all leaves of a type.
fn kinds(tree: &Tree) -> Vec<u8> {
    match tree {
        Tree::Leaf(kind, _) => vec![*kind],
        Tree::List(inner) | Tree::Array(_, inner) => kinds(inner),
        Tree::Struct(fields) => fields.iter().flat_map(|(_, dtype)| kinds(dtype)).collect(),
    }
}

/// Whether a leaf of one of these kinds is there.
fn has(row: &Row, some: &[u8]) -> bool {
    sides(row).into_iter().flat_map(kinds).any(|kind| some.contains(&kind))
}

#[test]
#[cfg_attr(not(polars_src), ignore = "no text of polars-core 0.55.2")]
fn there_are_enough_rows_of_every_sort() {
    let rows = rows(COUNT);
    for (name, sort, least) in SORTS {
        let count = rows.iter().filter(|row| sort(row)).count();
        assert!(count >= least, "{name}: {count} rows");
    }
    for kind in NULL..LIST {
        let count = rows.iter().filter(|row| has(row, &[kind])).count();
        assert!(count >= 50, "kind {kind}: {count} rows");
    }
    let mut states: HashMap<_, usize> = HashMap::new();
    rows.iter().for_each(|row| *states.entry((row.asked.outer, row.asked.inner)).or_default() += 1);
    assert!(states.len() == 16 && states.values().all(|&count| count >= 50), "{states:?}");
}

#[test]
#[cfg_attr(not(polars_src), ignore = "no text of polars-core 0.55.2")]
fn rows_are_small_and_nested_and_none_is_there_twice() {
    let rows = rows(COUNT);
    let is_nested = |row: &Row| sides(row).into_iter().any(|tree| !matches!(tree, Tree::Leaf(..)));
    assert!(rows.iter().all(is_nested));
    assert!(rows.iter().flat_map(sides).all(|tree| tree.nodes() <= 12));
    let texts: HashSet<String> = rows.iter().map(Row::to_string).collect();
    assert_eq!(texts.len(), rows.len());
    assert!(texts.iter().map(String::len).sum::<usize>() < 220 * rows.len());
}
