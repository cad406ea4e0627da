//! The C header compiles without a warning, declares what the archive exports, says of each constant what it means, and a
//! caller in C that uses all of it gets the right answers; no call needs more stack than it says.

mod stack;

use lomzegash::Error;
use std::collections::BTreeSet;
use std::env;
use std::path::PathBuf;
use std::process::{Command, Output};

const ROOT: &str = concat!(env!("CARGO_MANIFEST_DIR"), "/../..");
const HEADER: &str = include_str!("../../../../include/lomzegash.h");
const CALLER: &str = include_str!("caller.c");

/// The safe crate's declarations.
const FFI: [&str; 5] = [
    include_str!("../../../lomzegash/src/ffi.rs"),
    include_str!("../../../lomzegash/src/ffi/channels.rs"),
    include_str!("../../../lomzegash/src/ffi/dtype.rs"),
    include_str!("../../../lomzegash/src/ffi/flat.rs"),
    include_str!("../../../lomzegash/src/ffi/supertype.rs"),
];

/// Every constant of the header in its order, and what is said of it there. The caller in C holds them to their numbers.
const CONSTANTS: [(&str, &str); 18] = [
    ("LZ_OK", ""),
    (
        "LZ_LENGTH",
        "no node, too many nodes, a flat type's two lengths differ, or an encoded type's length is under 2 or not 2 + 9 * n",
    ),
    ("LZ_KIND", "a kind above 31"),
    ("LZ_ARGUMENT", "an argument outside its kind's rule"),
    ("LZ_SHAPE", "the nodes don't form exactly one type"),
    ("LZ_DEPTH", "a node with too many nodes above it"),
    ("LZ_NESTED", "a nested type in a supertype call"),
    ("LZ_UNKNOWN", "an unknown type that is not allowed where types are materialised"),
    ("LZ_OUTPUT_TOO_SHORT", "an output shorter than the result"),
    ("LZ_CHANNEL", "no such channel"),
    ("LZ_CHANNEL_CODE", "the channel holds neither 0 nor 2 to 11"),
    ("LZ_NOT_AN_INTEGER", "the type is neither Null nor an integer type, codes 2 to 11"),
    ("LZ_NO_UPCAST", "no integer type holds the channel's numbers and the new type's"),
    ("LZ_CHANNELS", ""),
    ("LZ_JOIN_KEPT", "the supertype keeps every whole number of both"),
    ("LZ_JOIN_AVOIDABLE", "it doesn't, and an integer type exists that holds both ranges"),
    ("LZ_JOIN_UNAVOIDABLE", "it doesn't, and no integer type holds both ranges"),
    ("LZ_JOIN_NOT_INTEGERS", "the two aren't integer types, codes 2 to 11"),
];

/// What a program says that ends well.
fn run(program: &mut Command) -> String {
    let Output { status, stdout, stderr } = program.output().expect("it can be run");
    assert!(status.success(), "{program:?}: {}", String::from_utf8_lossy(&stderr));
    String::from_utf8(stdout).expect("it is text")
}

/// The C compiler that links Rust programs, with the header at hand and warnings as errors.
fn compile(words: &[&str]) {
    let include = format!("-I{ROOT}/include");
    run(Command::new("cc").args(["-Wall", "-Wextra", "-pedantic", "-Werror", &include]).args(words));
}

/// The archive that the library was built from.
fn archive() -> PathBuf {
    env::var_os("LOMZEGASH_ARCHIVE").map_or_else(|| format!("{ROOT}/crates/capi/out/libcapi.a").into(), PathBuf::from)
}

/// The words of a program's text.
fn words(text: &str) -> impl DoubleEndedIterator<Item = &str> {
    text.split(|c: char| !c.is_ascii_alphanumeric() && c != '_')
}

/// The functions of the interface that stand before a parenthesis.
fn called(text: &str) -> BTreeSet<&str> {
    let (before, _) = text.rsplit_once('(').expect("there is a call");
    before.split('(').filter_map(|before| words(before).next_back()).filter(|word| word.starts_with("lz_")).collect()
}

/// The functions of the interface that are named.
fn named(text: &str) -> BTreeSet<&str> {
    words(text).filter(|word| word.starts_with("lz_")).collect()
}

/// Each constant of the header, and the comment behind it.
fn constants() -> Vec<(&'static str, String)> {
    let defined = HEADER.split(" = ").zip(HEADER.split(" = ").skip(1));
    let mut constants = vec![];
    for (before, after) in defined {
        let rest = after.trim_start_matches(|c: char| c.is_ascii_digit() || c == ',' || c == ' ');
        let comment = rest.strip_prefix("/*").and_then(|rest| rest.split_once("*/")).map_or("", |(comment, _)| comment);
        let comment: Vec<&str> = comment.split_whitespace().collect();
        constants.push((words(before).next_back().expect("a name"), comment.join(" ")));
    }
    constants
}

#[test]
fn the_header_is_cpp11() {
    let header = format!("{ROOT}/include/lomzegash.h");
    compile(&["-std=c++11", "-x", "c++", "-fsyntax-only", &header]);
}

#[test]
fn a_caller_in_c99_gets_the_right_answers() {
    let caller = concat!(env!("CARGO_MANIFEST_DIR"), "/tests/header/caller.c");
    let program = concat!(env!("CARGO_TARGET_TMPDIR"), "/caller");
    compile(&["-std=c99", caller, &archive().to_string_lossy(), "-o", program]);
    run(&mut Command::new(program));
}

#[test]
fn the_caller_calls_every_function_of_the_header() {
    assert_eq!(called(CALLER), called(HEADER));
}

#[test]
fn the_caller_holds_every_constant_to_its_number() {
    for (name, _) in CONSTANTS {
        assert!(CALLER.contains(&format!("MUST({name} == ")), "{name}");
    }
}

#[test]
fn the_header_says_what_each_constant_means() {
    assert_eq!(constants(), CONSTANTS.map(|(name, meaning)| (name, meaning.to_owned())));
}

/// And no name has it: the numbers that have one are those of the safe crate.
#[test]
fn the_header_says_that_13_is_retired() {
    let (_, rest) = HEADER.split_once("enum lz_error {").expect("the refusals");
    let (refusals, _) = rest.split_once("};").expect("their end");
    let digits = |rest: &str| rest.split(|c: char| !c.is_ascii_digit()).next().and_then(|digits| digits.parse().ok());
    let numbers: Vec<u64> = refusals.split(" = ").skip(1).filter_map(digits).collect();
    let errors = Error::ALL.map(Error::number);
    assert_eq!(numbers, [&[0], &errors[..]].concat());
    assert!(!numbers.contains(&13));
    let said: Vec<&str> = refusals.split_whitespace().collect();
    let retired =
        "13 is retired: it was given for a Decimal with an integer type in a supertype call, and is never given";
    assert!(said.join(" ").contains(&format!("/* {retired} again */")));
}

#[test]
fn the_safe_crate_declares_every_function_of_the_header() {
    assert_eq!(named(&FFI.concat()), called(HEADER));
}

/// As `nm` of the same tools lists them: an address, a letter and a name a line.
#[test]
fn the_archive_exports_the_functions_of_the_header_and_nothing_else() {
    let nm = run(Command::new("cc").arg("-print-prog-name=nm"));
    let listed = run(Command::new(nm.trim()).args(["-g", "--defined-only"]).arg(archive()));
    let exported: BTreeSet<&str> = listed.lines().filter_map(|line| line.split_whitespace().nth(2)).collect();
    assert_eq!(exported, called(HEADER));
}
