//! Timing of two calls, turn about.

use std::hint::black_box;
use std::time::{Duration, Instant};

/// Rounds of which the best counts.
const ROUNDS: usize = 25;

/// How long a round lasts at least.
const ROUND: Duration = Duration::from_millis(4);

/// Nanoseconds of one call of the port and of one of the other side.
pub type Times = (f64, f64);

/// Times two calls that must succeed: the best of several rounds, taken in turn.
pub fn best(mut port: impl FnMut() -> bool, mut other: impl FnMut() -> bool) -> Times {
    assert!(port() && other(), "a timed call was refused");
    let (port_calls, other_calls) = (calls_in_a_round(&mut port), calls_in_a_round(&mut other));
    let mut best = (f64::MAX, f64::MAX);
    for _ in 0..ROUNDS {
        best.0 = best.0.min(round(&mut port, port_calls));
        best.1 = best.1.min(round(&mut other, other_calls));
    }
    best
}

/// The same of calls that do something so many times over: the times of doing it once.
pub fn best_of_each(count: usize, port: impl FnMut() -> bool, other: impl FnMut() -> bool) -> Times {
    let (of_port, of_other) = best(port, other);
    (of_port / count as f64, of_other / count as f64)
}

/// How many calls fill a round, found by doubling.
fn calls_in_a_round(call: &mut impl FnMut() -> bool) -> u32 {
    let mut calls = 1;
    while round(call, calls) * f64::from(calls) < ROUND.as_nanos() as f64 {
        calls *= 2;
    }
    calls
}

/// Nanoseconds of one call, over so many.
fn round(call: &mut impl FnMut() -> bool, calls: u32) -> f64 {
    let start = Instant::now();
    for _ in 0..calls {
        black_box(call());
    }
    start.elapsed().as_nanos() as f64 / f64::from(calls)
}
