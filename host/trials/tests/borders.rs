//! Types, and what is none, at the borders of what one scan of the nodes can tell.
//!
//! The check scans the nodes first. It counts the fields that are still owed, and within one field of the outermost Struct it
//! adds up all levels, also those of what stands side by side; so there are types that it doesn't pass, and these are looked
//! at again. Each case here is tried in every call.

use lomzegash::kind::*;
use trials::channels::{Judged, Merging, FORMS};
use trials::compare::Comparison;
use trials::differential::Differential;
use trials::flat::Flat;
use trials::input::Input;
use trials::join_calls::ENOUGH;
use trials::joins::JOINS;
use trials::merges::{Column, Merge};

/// Types and what is none, each with its number from 0 to 5.
type Cases = Vec<(u64, Flat)>;

/// Two tests of each set of cases, of which that beside the crate's text is ignored where there is none.
macro_rules! of_both {
    ($($cases:ident)*) => {
        mod beside_plain {
            $(
                #[test]
                fn $cases() {
                    super::compare(stringify!($cases), &super::$cases());
                }
            )*
        }

        mod beside_the_crate {
            $(
                #[test]
                #[cfg_attr(not(polars_src), ignore = "no text of polars-core 0.55.2")]
                fn $cases() {
                    super::compare_with_the_crate(stringify!($cases), &super::$cases());
                }
            )*
        }
    };
}

of_both! {
    levels_side_by_side_in_one_field
    depth_32_and_33_beside_many_fields
    one_field_too_many_or_too_few
    nodes_too_many_or_too_few_in_a_field
    kinds_above_31_in_a_field
    arguments_outside_their_rule_in_a_field
}

/// Each case gets its number, flat and encoded; so do its merges, into channels that there are and one that there isn't.
fn compare(what: &str, cases: &Cases) {
    let (mut comparison, mut merging) = (Comparison::default(), Merging::default());
    for (number, flat) in cases {
        assert_eq!(comparison.both(flat), *number, "{flat:?}");
        let column = Column::from(flat.clone());
        let merges = [0, 31, 32].map(|channel| Merge { channel, column: column.clone() });
        for form in FORMS {
            merging.list(form, &mut Judged::empty(), &merges);
        }
    }
    comparison.report(what);
    merging.report(what);
}

/// Every call of one type, and every call of two, with itself, a leaf and a nested type on either side.
fn compare_with_the_crate(what: &str, cases: &Cases) {
    let mut differential = Differential::default();
    let others = [Flat::int8(), Flat::fields([&Flat::structs(7, &Flat::lists(2)), &Flat::int8()])];
    let others = others.each_ref().map(Input::from);
    for (_, flat) in cases {
        let input = Input::from(flat);
        differential.one(&input);
        for other in others.iter().chain([&input]) {
            for (left, right) in [(&input, other), (other, &input)] {
                differential.two(left, right);
                differential.joins(left, right, &JOINS, ENOUGH);
            }
        }
    }
    differential.report(what);
}

/// A List over a type.
fn list(inner: &Flat) -> Flat {
    Flat::repeated(&[(LIST, 0)], 1, inner)
}

/// A Struct of so many fields, one with this type and the others Int8.
fn wide(fields: usize, at: usize, dtype: &Flat) -> Flat {
    let mut types = vec![Flat::int8(); fields];
    types[at] = dtype.clone();
    Flat::fields(&types)
}

/// Each field count together with its first place, one in the middle and the last.
fn places(counts: [usize; 2]) -> impl Iterator<Item = (usize, usize)> {
    counts.into_iter().flat_map(|fields| [0, fields / 2, fields - 1].map(|at| (fields, at)))
}

/// 32 levels pass and 33 don't, counted along one way down; how many there are side by side makes no difference.
fn levels_side_by_side_in_one_field() -> Cases {
    let lists: [&[usize]; 12] = [
        &[2; 14],
        &[2; 15],
        &[2; 100],
        &[1; 28],
        &[1; 29],
        &[14, 14],
        &[14, 15],
        &[28, 1],
        &[1, 28],
        &[28, 28],
        &[0, 29],
        &[29, 0],
    ];
    let mut inner: Vec<(usize, Flat)> = vec![];
    for counts in lists {
        let types: Vec<Flat> = counts.iter().map(|&count| Flat::lists(count)).collect();
        inner.push((2 + counts.iter().max().expect("there is a field"), Flat::fields(&types)));
    }
    for count in [14, 15, 100] {
        inner.push((4, Flat::fields(&vec![Flat::wide_struct(1); count])));
    }
    for counts in [[7, 7], [7, 8], [14, 14], [14, 15], [15, 14]] {
        let types = counts.map(|count| Flat::structs(count, &Flat::int8()));
        inner.push((2 + 2 * counts[0].max(counts[1]), Flat::fields(&types)));
    }
    inner.iter().flat_map(|(depth, inner)| in_a_field(*depth, inner)).collect()
}

/// A type of this depth in the first, a middle, the last and the only field of a Struct, which may be in others.
fn in_a_field(depth: usize, inner: &Flat) -> Cases {
    let leaf = Flat::int8();
    let first = Flat::fields([inner, &leaf]);
    let cases = [
        (2 + depth, Flat::fields([&leaf, inner, &leaf])),
        (2 + depth, Flat::fields([&leaf, inner])),
        (2 + depth, Flat::fields([inner])),
        (3 + depth, list(&first)),
        (4 + depth, Flat::fields([&first, &leaf])),
        (4 + depth, Flat::fields([&leaf, &first])),
        (2 + depth, first),
    ];
    cases.into_iter().map(|(depth, flat)| (if depth <= 32 { 0 } else { 5 }, flat)).collect()
}

/// Lists in one field of many, which may all be in the first field of another Struct, or behind other levels.
fn depth_32_and_33_beside_many_fields() -> Cases {
    let leaf = Flat::int8();
    let mut cases = vec![];
    for (number, more) in [(0, 0), (5, 1)] {
        for (fields, at) in places([3, 240]) {
            let flat = wide(fields, at, &Flat::lists(30 + more));
            let arrays = flat.kinds.iter().map(|&kind| if kind == LIST { ARRAY } else { kind }).collect();
            cases.extend([(number, Flat { kinds: arrays, args: flat.args.clone() }), (number, flat)]);
            let inner = wide(fields - 2, at.saturating_sub(2), &Flat::lists(28 + more));
            cases.push((number, Flat::fields([&inner, &leaf])));
        }
        let behind = Flat::fields([&Flat::lists(20), &Flat::lists(20), &Flat::lists(28 + more)]);
        cases.extend([(number, Flat::fields([&behind, &leaf])), (number, Flat::fields([&leaf, &behind]))]);
    }
    cases
}

/// A Struct of two fields, the second with two nodes.
fn two_fields() -> Flat {
    Flat::fields([&Flat::int8(), &Flat::lists(1)])
}

/// Of 20 and of 500 nodes: the count of the outer Struct is off by one, that of an inner one, and both. A field too many of
/// one is the other's, where it stands next.
fn one_field_too_many_or_too_few() -> Cases {
    let mut cases = vec![];
    for (fields, at) in places([7, 247]) {
        let sound = wide(fields, at, &two_fields());
        assert!([20, 500].contains(&sound.kinds.len()));
        let (outer, inner) = (fields as u64, 2);
        let is_last = at == fields - 1;
        let counts = [
            (0, outer, inner),
            (4, outer + 1, inner),
            (4, outer - 1, inner),
            (4, outer, inner + 1),
            (4, outer, inner - 1),
            (4, outer + 1, inner + 1),
            (4, outer - 1, inner - 1),
            (0, outer + 1, inner - 1),
            (if is_last { 4 } else { 0 }, outer - 1, inner + 1),
        ];
        for (number, outer, inner) in counts {
            let mut flat = sound.clone();
            flat.args[0] = outer;
            flat.args[2 + 2 * at] = inner;
            cases.push((number, flat));
        }
    }
    cases
}

/// Of about 20 and 500 nodes: no type in a field, a second one, a List over nothing, a field in a type's place, also with the
/// argument of a Struct, and a type in a field's place.
fn nodes_too_many_or_too_few_in_a_field() -> Cases {
    let mut cases = vec![];
    let types: [&[(u8, u64)]; 7] = [
        &[],
        &[(INT8, 0), (INT8, 0)],
        &[(LIST, 0)],
        &[(STRUCT, 1), (FIELD, 0)],
        &[(FIELD, 0)],
        &[(FIELD, 0), (INT8, 0)],
        &[(FIELD, 1), (FIELD, 0), (INT8, 0)],
    ];
    for (fields, at) in places([9, 249]) {
        cases.extend(types.map(|nodes| (4, wide(fields, at, &Flat::new(nodes)))));
        let mut no_field = wide(fields, at, &Flat::int8());
        no_field.kinds[1 + 2 * at] = LIST;
        no_field.args[1 + 2 * at] = 0;
        cases.push((4, no_field));
    }
    cases
}

/// Of 20 and of 500 nodes: as a field's type, under a List in a field, and in a field's place.
fn kinds_above_31_in_a_field() -> Cases {
    let mut cases = vec![];
    for kind in [FIELD + 1, u8::MAX] {
        let bad = Flat::new(&[(kind, 0)]);
        for (fields, at) in places([9, 249]) {
            let mut no_field = wide(fields, at, &Flat::lists(1));
            no_field.kinds[1 + 2 * at] = kind;
            cases
                .extend([list(&wide(fields, at, &bad)), wide(fields, at, &list(&bad)), no_field].map(|flat| (2, flat)));
        }
    }
    assert!(cases.iter().all(|(_, flat)| [20, 500].contains(&flat.kinds.len())));
    cases
}

/// Of 20 and of 500 nodes: a field's type, what stands under a List in a field, and a field's name.
fn arguments_outside_their_rule_in_a_field() -> Cases {
    let leaves = [(DECIMAL, 0), (DATETIME, 3), (DURATION, 3), (STRUCT, 256), (INT8, 1)];
    let mut cases = vec![];
    for (fields, at) in places([9, 249]) {
        for leaf in leaves {
            let bad = Flat::new(&[leaf]);
            cases.extend([list(&wide(fields, at, &bad)), wide(fields, at, &list(&bad))]);
        }
        cases.push(wide(fields, at, &Flat::new(&[(LIST, 1), (INT8, 0)])));
        let mut name = wide(fields, at, &Flat::lists(1));
        name.args[1 + 2 * at] = 1 << 32;
        cases.push(name);
    }
    assert!(cases.iter().all(|flat| [20, 500].contains(&flat.kinds.len())));
    cases.into_iter().map(|flat| (3, flat)).collect()
}
