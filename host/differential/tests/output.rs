//! What the long run prints, word for word.

use std::process::{Command, Output};

/// The status, what is printed and what is complained of, with these words.
fn run(words: &str) -> (Option<i32>, String, String) {
    let Output { status, stdout, stderr } = Command::new(env!("CARGO_BIN_EXE_differential"))
        .args(words.split_whitespace())
        .output()
        .expect("the long run can be started");
    let text = |bytes| String::from_utf8(bytes).expect("it is text");
    (status.code(), text(stdout), text(stderr))
}

#[test]
fn other_words_end_it() {
    let usage = "usage: differential [--seed S] [--count N | --joins N] | --record N | --expect N | --nested N\n";
    assert_eq!(run("--help"), (Some(2), String::new(), usage.to_owned()));
}

#[test]
#[cfg_attr(not(polars_src), ignore = "no text of polars-core 0.55.2")]
fn it_says_what_was_compared() {
    let printed = "seed 7: 120 comparisons, by number from 0 to 13: [87, 0, 0, 1, 0, 0, 8, 0, 24, 0, 0, 0, 0, 0]
  equal said no, yes, no verdict: [3, 1, 0]
  contains_dtype_recursive said no, yes, no verdict: [3, 1, 0]
  can_cast_to said no, yes, no verdict: [0, 2, 2]
  [Kept, Avoidable, Unavoidable, NotIntegers] were reported: [0, 0, 0, 8]
";
    assert_eq!(run("--seed 7 --count 1"), (Some(0), printed.to_owned(), String::new()));
}

#[test]
#[cfg_attr(not(polars_src), ignore = "no text of polars-core 0.55.2")]
fn it_says_how_many_pairs_were_joined() {
    let printed = "2 pairs of types, joined
seed 1: 10 comparisons, by number from 0 to 13: [10, 0, 0, 0, 0, 0, 0, 0, 0, 0, 0, 0, 0, 0]
  [Kept, Avoidable, Unavoidable, NotIntegers] were reported: [0, 0, 0, 2]
";
    assert_eq!(run("--seed 1 --joins 2"), (Some(0), printed.to_owned(), String::new()));
}
