//! How much stack a call needs at most: what the header and the safe crate say of it, and what is measured.

use crate::{archive, called, compile, run, HEADER};
use lomzegash::kind::*;
use std::collections::BTreeMap;
use std::fs;
use std::process::Command;
use trials::flat::Flat;

const SAFE_CRATE: &str = include_str!("../../../lomzegash/src/lib.rs");

/// Types of 512 nodes or of depth 32, or near both.
fn types() -> Vec<Flat> {
    let leaf = Flat::int8();
    let (deepest, deep) = (Flat::structs(16, &leaf), Flat::structs(15, &leaf));
    let largest = Flat::repeated(&[(LIST, 0)], 1, &Flat::wide_struct(255));
    let mut types = vec![
        Flat::lists(32),
        Flat::repeated(&[(ARRAY, 9)], 32, &leaf),
        Flat::structs(16, &Flat::wide_struct(0)),
        Flat::structs(15, &Flat::lists(2)),
        Flat::repeated(&[(LIST, 0), (STRUCT, 1), (FIELD, 0)], 10, &Flat::lists(2)),
        Flat::fields([&deep; 15]),
        Flat::fields([&leaf; 224].into_iter().chain([&deep])),
        Flat::fields([&deep].into_iter().chain([&leaf; 224])),
        Flat::fields([&Flat::lists(30); 15]),
        leaf.clone(),
    ];
    // The same with leaves that casts, materialising and the physical form change.
    for kind in [INT8, INT16, DATE, UNKNOWN_INT_POS, UNKNOWN_ANY] {
        let other = |kinds: &[u8]| kinds.iter().map(|&from| if from == INT8 { kind } else { from }).collect();
        types.extend([&deepest, &largest].map(|flat| Flat { kinds: other(&flat.kinds), args: flat.args.clone() }));
    }
    types
}

/// What is no type: up to 512 nodes far past depth 32, without an end, or with a fault at the very end.
fn no_types() -> Vec<Flat> {
    let none = Flat::default();
    let nested = Flat::structs(255, &Flat::lists(1));
    let mut all = vec![
        nested.clone(),
        Flat::lists(511),
        Flat::structs(256, &none),
        Flat::repeated(&[(LIST, 0)], 512, &none),
        Flat::repeated(&[(STRUCT, 255)], 512, &none),
        Flat::repeated(&[(STRUCT, 255), (FIELD, 0)], 256, &none),
        Flat::repeated(&[(STRUCT, 2), (FIELD, 0)], 255, &Flat::lists(1)),
        Flat::repeated(&[(LIST, 0), (STRUCT, 1), (FIELD, 0)], 170, &Flat::lists(1)),
        Flat::repeated(&[(FIELD, 0)], 512, &none),
        Flat::repeated(&[(INT8, 0)], 512, &none),
    ];
    for flat in [&types()[0], &types()[5], &types()[6], &nested] {
        for (kind, arg) in [(FIELD, 0), (FIELD + 1, 0), (INT8, 1), (LIST, 0)] {
            let mut ending = flat.clone();
            ending.pop();
            ending.push(kind, arg);
            all.push(ending);
        }
    }
    all
}

/// The most bytes that each function needed for these.
fn measured(program: &str, all: &[Flat]) -> BTreeMap<String, usize> {
    let file = format!("{program}.types");
    fs::write(&file, all.iter().flat_map(Flat::laid_out).collect::<Vec<u8>>()).expect("it can be written");
    let lines = run(Command::new(program).arg(file));
    let parts = lines.lines().map(|line| line.split_once(' ').expect("a name and a number"));
    parts.map(|(name, bytes)| (name.to_owned(), bytes.parse().expect("a number"))).collect()
}

/// The number in the sentence on stack.
fn stated(text: &str) -> usize {
    let words: Vec<&str> = text.split_whitespace().filter(|word| !["*", "//!"].contains(word)).collect();
    let text = words.join(" ");
    let (_, rest) = text.split_once("No call needs more than ").expect("the sentence");
    let (number, rest) = rest.split_once(' ').expect("a number");
    assert!(rest.starts_with("bytes of stack, whatever the arrays say."), "{rest:.60}");
    number.parse().expect("a number")
}

/// Nor is much more said than is needed.
#[test]
fn no_call_needs_more_stack_than_is_said() {
    let program = concat!(env!("CARGO_TARGET_TMPDIR"), "/stack");
    let source = concat!(env!("CARGO_MANIFEST_DIR"), "/tests/header/stack.c");
    // All is linked at the start: the first call of a function would else need stack for the linker.
    compile(&["-std=c99", "-O2", "-Wl,-z,now", source, &archive().to_string_lossy(), "-o", program]);
    let (of_types, of_all) = (measured(program, &types()), measured(program, &[types(), no_types()].concat()));
    assert!(of_all.keys().map(String::as_str).eq(called(HEADER)), "each function of the header is called");
    for (name, bytes) in &of_all {
        println!("{name} needs {bytes} bytes of stack, {} where it is given types", of_types[name]);
    }
    assert_eq!(of_all, of_types, "what is no type needs no more than a type");
    let most = of_all.values().copied().max().expect("there are functions");
    let bound = stated(HEADER);
    assert_eq!(stated(SAFE_CRATE), bound, "the safe crate says the same");
    assert!(most <= bound && bound <= most + most / 4, "{most} bytes are needed, {bound} are stated");
}
