//! Compares the proved code with the plain Rust and with the crate's own text: generators of inputs, good and damaged,
//! and the comparisons themselves.

#![forbid(unsafe_code)]
#![deny(missing_docs)]

pub mod arguments;
pub mod channels;
pub mod compare;
pub mod damage;
pub mod differential;
pub mod draw;
pub mod entries;
pub mod flat;
mod flat_calls;
pub mod grow;
pub mod input;
pub mod join_calls;
pub mod joins;
pub mod leaves;
pub mod merges;
mod outputs;
mod parts;
pub mod random;
mod ranges;
pub mod relatives;
pub mod trees;
