//! `differential [--seed S] [--count N]`: the port beside the crate's own text on random inputs, until N comparisons are
//! made (20 million by default) or one shows a difference; then the status is 1 and the input is shown. One comparison
//! is what `trials::differential` says: one call of one entry point on one input with one length of output. Without a
//! source of the crate the status is 2.
//!
//! `differential [--seed S] --joins N`: the same on N pairs of types, nearly all of one node, and with the entry points
//! alone that join two types: both rules, encoded and flat, with some flags and lengths of output, and the report.
//!
//! `differential --record N`: prints N or somewhat more of the oracle's answers, then those to some merges and damaged ones,
//! see [`answers`]: the input of crates/replay. `differential --expect N` prints what crates/replay must say of them.
//!
//! `differential --nested N`: prints N or somewhat more of the oracle's answers to nested joins, as definitions, see
//! [`nested`]: crates/recorded/specs/Rows.antt.

#![forbid(unsafe_code)]

mod answers;
mod nested;
mod options;
mod record;

use options::{Options, Task};
use std::panic::{catch_unwind, AssertUnwindSafe};
use std::process::ExitCode;
use std::time::Instant;
use trials::differential::{Differential, NO_ORACLE};
use trials::draw;
use trials::random::Random;

/// Comparisons or pairs from one progress line to the next.
const STEP: u64 = 1_000_000;

fn main() -> ExitCode {
    let Some(Options { task, seed }) = Options::read(std::env::args().skip(1)) else {
        eprintln!("usage: differential [--seed S] [--count N | --joins N] | --record N | --expect N | --nested N");
        return ExitCode::from(2);
    };
    if !oracle::AVAILABLE {
        eprintln!("{NO_ORACLE}");
        return ExitCode::from(2);
    }
    match task {
        Task::Compare { count } => reported(seed, |differential| compare(differential, seed, count)),
        Task::Join { pairs } => reported(seed, |differential| join(differential, seed, pairs)),
        Task::Record { count } => print(&record::recorded(count)),
        Task::Expect { count } => print(&record::expected(count)),
        Task::Nested { count } => print(&nested::recorded(count)),
    }
}

fn print(lines: &[String]) -> ExitCode {
    lines.iter().for_each(|line| println!("{line}"));
    ExitCode::SUCCESS
}

/// Runs, says how many comparisons there were, and whether one showed a difference.
fn reported(seed: u64, run: impl FnOnce(&mut Differential)) -> ExitCode {
    let mut differential = Differential::default();
    // What a panic leaves behind is only counted.
    let run = catch_unwind(AssertUnwindSafe(|| run(&mut differential)));
    differential.report(&format!("seed {seed}"));
    match run {
        Ok(()) => ExitCode::SUCCESS,
        Err(_) => {
            eprintln!("a difference, with seed {seed}, after {} comparisons", differential.count());
            ExitCode::FAILURE
        }
    }
}

fn compare(differential: &mut Differential, seed: u64, count: u64) {
    let (mut random, start) = (Random::new(seed), Instant::now());
    let mut next = STEP;
    while differential.count() < count {
        draw::round(differential, &mut random);
        if differential.count() >= next {
            eprintln!("{} of {count} comparisons, {} s", differential.count(), start.elapsed().as_secs());
            next += STEP;
        }
    }
}

fn join(differential: &mut Differential, seed: u64, pairs: u64) {
    let (mut random, start) = (Random::new(seed), Instant::now());
    for pair in 1..=pairs {
        draw::join_leaves(differential, &mut random);
        if pair % STEP == 0 {
            eprintln!("{pair} of {pairs} pairs, {} s", start.elapsed().as_secs());
        }
    }
    println!("{pairs} pairs of types, joined");
}
