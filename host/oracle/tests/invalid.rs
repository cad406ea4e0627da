//! What isn't a valid type is refused by a panic. One test alone, since it silences all panics meanwhile.

use oracle::Type;
use plain::sheet;
use std::panic;

/// Nodes of which document 01 refuses every list, with the number.
fn refused() -> Vec<(plain::Refusal, Vec<(u8, u64)>)> {
    use plain::Refusal::{Argument, Depth, Kind, Length, Shape};
    let lists = |count: usize| [[(28, 0)].repeat(count), vec![(7, 0)]].concat();
    let structs = |count: usize| [[(30, 1), (31, 0)].repeat(count), vec![(7, 0)]].concat();
    let many_fields = [vec![(30, 255)], [(31, 0), (7, 0)].repeat(255)].concat();
    let mut cases = vec![
        (Length, vec![]),
        (Length, [vec![(28, 0), (28, 0)], many_fields].concat()),
        (Kind, vec![(32, 0)]),
        (Kind, vec![(28, 0), (255, 0)]),
        (Shape, vec![(28, 0)]),
        (Shape, vec![(7, 0), (7, 0)]),
        (Shape, vec![(31, 0), (7, 0)]),
        (Shape, vec![(28, 0), (31, 0), (7, 0)]),
        (Shape, vec![(30, 1), (7, 0)]),
        (Shape, vec![(30, 2), (31, 0), (7, 0)]),
        (Shape, vec![(30, 0), (31, 0), (7, 0)]),
        (Depth, lists(33)),
        (Depth, structs(17)),
    ];
    for kind in (0..=14).chain(16..=19).chain(22..=25) {
        cases.push((Argument, vec![(kind, 1)]));
    }
    for arg in [0, 39, 2 * 256 + 1, 39 * 256 + 38, 39 * 256 + 39, (1 << 32) + 1, u64::MAX] {
        cases.push((Argument, vec![(15, arg)]));
    }
    for arg in [3, 7, 4 << 32, u64::MAX] {
        cases.push((Argument, vec![(20, arg)]));
    }
    cases.extend([3, u64::MAX].map(|arg| (Argument, vec![(21, arg)])));
    cases.push((Argument, vec![(28, 1), (7, 0)]));
    cases.push((Argument, [vec![(30, 256)], [(31, 0), (7, 0)].repeat(255)].concat()));
    cases.push((Argument, vec![(30, 1), (31, 1 << 32), (7, 0)]));
    cases
}

/// Whether a call panics.
fn panics(call: impl FnOnce() -> Type + panic::UnwindSafe) -> bool {
    panic::catch_unwind(call).is_err()
}

#[test]
#[cfg_attr(not(polars_src), ignore = "no text of polars-core 0.55.2")]
fn invalid_types_are_refused() {
    let hook = panic::take_hook();
    panic::set_hook(Box::new(|_| ()));
    let mut taken = vec![];
    for (refusal, nodes) in refused() {
        let (kinds, args): (Vec<u8>, Vec<u64>) = nodes.iter().copied().unzip();
        let bytes = sheet::lay_out(&kinds, &args);
        let refused = plain::check(&kinds, &args) == Err(refusal);
        if !(refused && panics(|| Type::from_flat(&kinds, &args)) && panics(|| Type::decode(&bytes))) {
            taken.push(nodes);
        }
    }
    let lengths = panics(|| Type::from_flat(&[7, 7], &[0])) && panics(|| Type::from_flat(&[7], &[0, 0]));
    let sheets = [&[][..], &[1], &[1, 0], &[1, 0, 7], &[1, 0, 7, 0, 0, 0, 0, 0, 0, 0, 0, 0], &[0, 0]];
    let sheets = sheets.into_iter().all(|bytes| panics(|| Type::decode(bytes)));
    let units = panic::catch_unwind(|| oracle::get_time_units(3, 0)).is_err();
    panic::set_hook(hook);
    assert!(taken.is_empty(), "taken: {taken:?}");
    assert!(lengths && sheets && units);
}
