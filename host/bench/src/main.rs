//! `bench [--shapes]`: times every call of the port beside the plain Rust or the crate's own text, on the same inputs, and
//! prints a row for each. `bench --table FILE..` prints the table of such rows, those of one run in each file.
//!
//! All are built for release. Outputs are exactly long enough and not cleared between calls. `--shapes` adds inputs of other
//! shapes. The rows of one build depend on where its linker put the archive's code: `layouts` runs them at every place, and
//! prints the table.

#![forbid(unsafe_code)]

mod channels;
mod encoding;
mod inputs;
mod joins;
mod rows;
mod rules;
mod table;
mod timing;

use inputs::Input;
use rows::{Call, Row};
use std::process::ExitCode;
use std::{env, fs};
use trials::differential::NO_ORACLE;

fn main() -> ExitCode {
    let words: Vec<String> = env::args().skip(1).collect();
    match words.iter().map(String::as_str).collect::<Vec<_>>()[..] {
        [] => time(&inputs::common()),
        ["--shapes"] => time(&[inputs::common(), inputs::shapes()].concat()),
        ["--table", ref files @ ..] if !files.is_empty() => join(files),
        _ => {
            eprintln!("usage: bench [--shapes] | --table FILE..");
            return ExitCode::from(2);
        }
    }
    ExitCode::SUCCESS
}

/// Times all, and prints the rows.
fn time(inputs: &[Input]) {
    time_calls(&encoding::CALLS, inputs);
    if oracle::AVAILABLE {
        time_calls(&rules::CALLS, inputs);
        print(joins::rows());
    } else {
        eprintln!("{NO_ORACLE}");
    }
    print(channels::rows());
}

/// Each of these calls on each input.
fn time_calls(calls: &[Call], inputs: &[Input]) {
    for call in calls {
        print(inputs.iter().map(|input| call.row(input)));
    }
}

fn print(rows: impl IntoIterator<Item = Row>) {
    rows.into_iter().for_each(|row| println!("{row}"));
}

/// Prints the table of the runs in these files.
fn join(files: &[&str]) {
    let read = |file: &&str| fs::read_to_string(file).unwrap_or_else(|error| panic!("{file}: {error}"));
    print!("{}", table::table(&files.iter().map(read).collect::<Vec<String>>()));
}
