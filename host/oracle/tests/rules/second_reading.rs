//! The nested arms as host/plain reads them, beside the crate's text: every pair of many types, with all flags.

use crate::nested::{types, Flags, DEFAULT, EVERY};
use crate::types::*;
use oracle::Type;
use plain::nested::{Call, Leaf, SuperTypeOptions};
use plain::tree::Tree;

/// A type in both forms.
struct Both {
    dtype: Type,
    tree: Tree,
}

impl From<Nodes> for Both {
    fn from(nodes: Nodes) -> Both {
        let (kinds, args): (Vec<u8>, Vec<u64>) = nodes.iter().copied().unzip();
        Both { dtype: of(&nodes), tree: Tree::read(&kinds, &args) }
    }
}

fn options([allow_implode_list, allow_primitive_to_string]: Flags) -> SuperTypeOptions {
    SuperTypeOptions { allow_implode_list, allow_primitive_to_string }
}

/// Two leaves, of which the crate itself is asked.
fn leaves(l: Leaf, r: Leaf, options: SuperTypeOptions) -> Option<Leaf> {
    let (implode, string) = (options.allow_implode_list, options.allow_primitive_to_string);
    of(&[l]).get_supertype_with_options(&of(&[r]), implode, string).map(|dtype| nodes(&dtype)[0])
}

/// The crate's answer: of the unchanged text, where the inner flags are its own.
fn supertype(left: &Type, right: &Type, outer: Flags, inner: Flags) -> Option<Tree> {
    let answer = match inner {
        DEFAULT => left.get_supertype_with_options(right, outer[0], outer[1]),
        _ => left.get_supertype_with_inner_options(right, outer, inner),
    };
    answer.map(|dtype| {
        let (kinds, args) = dtype.to_flat();
        Tree::read(&kinds, &args)
    })
}

/// Compares the two on every pair, and gives the numbers of pairs and of answers.
fn each_pair(types: Vec<Nodes>) -> (usize, usize) {
    let types: Vec<Both> = types.into_iter().map(Both::from).collect();
    let answers = |left: &Both, right: &Both| {
        let mut answers = 0;
        for (outer, inner) in EVERY.into_iter().flat_map(|outer| EVERY.map(|inner| (outer, inner))) {
            let call = Call { outer: options(outer), inner: options(inner), leaves };
            let read = call.supertype(&left.tree, &right.tree);
            let expected = supertype(&left.dtype, &right.dtype, outer, inner);
            assert_eq!(read, expected, "{:?} with {:?}, {outer:?} and {inner:?}", left.tree, right.tree);
            answers += usize::from(read.is_some());
        }
        answers
    };
    let all = types.iter().flat_map(|left| types.iter().map(move |right| answers(left, right)));
    (types.len() * types.len(), all.sum())
}

/// All Structs of up to so many fields, each of a name below 2 and of one of these types.
fn structs(most: usize, of: &[Nodes]) -> Vec<Nodes> {
    let field = |name: u64| of.iter().map(move |dtype| (name, dtype.clone()));
    let fields: Vec<(u64, Nodes)> = (0..2).flat_map(field).collect();
    let with_each = |before: &Vec<(u64, Nodes)>| -> Vec<Vec<(u64, Nodes)>> {
        fields.iter().map(|last| before.iter().chain([last]).cloned().collect()).collect()
    };
    let mut longest = vec![vec![]];
    let mut all = longest.clone();
    for _ in 0..most {
        longest = longest.iter().flat_map(with_each).collect();
        all.extend(longest.clone());
    }
    all.iter().map(|fields| structure(fields)).collect()
}

#[test]
#[cfg_attr(not(polars_src), ignore = "no text of polars-core 0.55.2")]
fn types_of_every_sort() {
    let (pairs, answers) = each_pair(types());
    assert!(pairs == 25_921 && answers > 4 * pairs, "{pairs} pairs and {answers} answers");
}

/// Date and Time have a supertype with String alone, so that it counts which types of a name meet, and in which order.
#[test]
#[cfg_attr(not(polars_src), ignore = "no text of polars-core 0.55.2")]
fn structs_of_up_to_three_fields() {
    let (pairs, answers) = each_pair(structs(3, &[STRING, DATE, TIME].map(plain)));
    assert!(pairs == 259 * 259 && answers > 4 * pairs, "{pairs} pairs and {answers} answers");
}

/// Equal dyn ints; String and any, which are each other's supertype by their order; and what implodes.
#[test]
#[cfg_attr(not(polars_src), ignore = "no text of polars-core 0.55.2")]
fn structs_of_up_to_two_fields() {
    let of = [plain(STRING), plain(ANY), plain(INT8), dyn_int(1), dyn_int(300), list(&plain(STRING)), plain(DATE)];
    let (pairs, answers) = each_pair(structs(2, &of));
    assert!(pairs == 211 * 211 && answers > 4 * pairs, "{pairs} pairs and {answers} answers");
}

/// Unions in unions.
#[test]
#[cfg_attr(not(polars_src), ignore = "no text of polars-core 0.55.2")]
fn structs_in_structs() {
    let inside: Vec<Nodes> = structs(2, &[STRING, DATE].map(plain)).into_iter().step_by(3).collect();
    let (pairs, answers) = each_pair(structs(2, &inside));
    assert!(pairs == 211 * 211 && answers > pairs, "{pairs} pairs and {answers} answers");
}
