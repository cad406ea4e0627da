//! What the command prints, word for word.

use std::process::{Command, Output};

/// The status, what is printed and what is complained of, with these words.
fn run(words: &[&str]) -> (Option<i32>, String, String) {
    let Output { status, stdout, stderr } =
        Command::new(env!("CARGO_BIN_EXE_lomzegash")).args(words).output().expect("the command can be run");
    let text = |bytes| String::from_utf8(bytes).expect("it is text");
    (status.code(), text(stdout), text(stderr))
}

#[test]
fn without_words_it_shows_what_it_can() {
    assert_eq!(run(&[]), (Some(0), include_str!("default.txt").to_owned(), String::new()));
}

#[test]
fn each_word_is_an_encoded_type() {
    let words = ["0100 07 0000000000000000", "01000F0A02000000000000", "0100 20 0000000000000000", ""];
    let printed = "Int8\n\
        Decimal(10, 2)\n\
        refused by 2: kind above 31\n\
        refused by 1: no node, too many nodes, a type's two array lengths differ, or stored length under 2 or not 2 + 9 × n\n";
    assert_eq!(run(&words), (Some(0), printed.to_owned(), String::new()));
}

#[test]
fn what_is_not_hexadecimal_ends_it() {
    let complaint = "not hexadecimal bytes: 0g\n".to_owned();
    assert_eq!(run(&["0100 07 0000000000000000", "0g", "00"]), (Some(2), "Int8\n".to_owned(), complaint));
}
