//! The differential comparison: every entry point that the crate has too, beside the oracle, and the report of what a join
//! loses, beside the ranges of integers.
//!
//! One comparison is one call of one entry point of the port, on one input (a type, two types or two units) and with one
//! length of output: its number, its value and every byte of the output, written or left alone, are held to what the
//! oracle says, and where the input isn't a type to the refusal that document 01 gives. A difference is a panic that
//! shows the input.

use crate::entries::{Predicate, Relation, Writer, PREDICATES, RELATIONS, WRITERS};
use crate::input::{types, Input, Shown};
use lomzegash::supertype::JoinReport;
use lomzegash::Error;
use std::fmt::{Debug, Display};

/// What is said where there is nothing to compare with.
pub const NO_ORACLE: &str = "no source of polars-core at hand: the port was not compared with the crate";

/// How many comparisons came to each number from 0, success, to 13, which is retired: none comes to it.
pub type Numbers = [u64; 14];

/// Compares, and counts the comparisons by the number that they came to, and those of two types by what they said.
#[derive(Default)]
pub struct Differential {
    of_number: Numbers,
    said: [[u64; 3]; RELATIONS.len()],
    pub(crate) reported: [u64; JoinReport::ALL.len()],
    pub(crate) decimals: [u64; 2],
    pub(crate) bytes: Vec<u8>,
    pub(crate) kinds: Vec<u8>,
    pub(crate) args: Vec<u64>,
}

impl Differential {
    /// Every entry point of one type, those that write a type with several lengths of output.
    pub fn one(&mut self, input: &Input) {
        let _shown = Shown(&[input]);
        let checked = input.dtype.as_ref().map(|_| ()).map_err(|&number| number);
        self.settle("check", lomzegash::check(&input.bytes), checked);
        for predicate in &PREDICATES {
            self.predicate(predicate, input);
        }
        self.shape(input);
        for writer in &WRITERS {
            self.writer(writer, input);
        }
        self.flat_one(input);
    }

    /// Every entry point that says yes or no of two types.
    pub fn two(&mut self, left: &Input, right: &Input) {
        let _shown = Shown(&[left, right]);
        for (relation, at) in RELATIONS.iter().zip(0..) {
            if let Ok(verdict) = self.relation(relation, left, right) {
                self.said[at][verdict.map_or(2, usize::from)] += 1;
            }
        }
        self.flat_two(left, right);
    }

    /// The entry point of two time units.
    pub fn time_units(&mut self, left: u8, right: u8) {
        let refused = Err(Error::Argument.number());
        let expected = if left.max(right) > 2 { refused } else { Ok(oracle::get_time_units(left, right)) };
        let name = format!("get_time_units of {left} and {right}");
        self.settle(&name, lomzegash::time_unit::get_time_units(left, right), expected);
    }

    /// How many comparisons there were.
    pub fn count(&self) -> u64 {
        self.of_number.iter().sum()
    }

    /// Prints how many comparisons there were, and gives how many of them came to each number.
    pub fn report(&self, what: &str) -> Numbers {
        println!("{what}: {} comparisons, by number from 0 to 13: {:?}", self.count(), self.of_number);
        for (relation, said) in RELATIONS.iter().zip(self.said).filter(|(_, said)| *said != [0; 3]) {
            println!("  {} said no, yes, no verdict: {said:?}", relation.name);
        }
        if self.reported != [0; JoinReport::ALL.len()] {
            println!("  {:?} were reported: {:?}", JoinReport::ALL, self.reported);
        }
        if self.decimals != [0; 2] {
            println!("  Decimals joined with integer types stayed, became others: {:?}", self.decimals);
        }
        self.of_number
    }

    /// How often `can_cast_to` said no, yes and no verdict.
    pub fn verdicts(&self) -> [u64; 3] {
        self.said[RELATIONS.len() - 1]
    }

    /// How often each report was given.
    pub fn reported(&self) -> [u64; JoinReport::ALL.len()] {
        self.reported
    }

    /// How often the supertype of a Decimal and an integer type was the Decimal itself, and another type.
    pub fn decimals(&self) -> [u64; 2] {
        self.decimals
    }

    fn predicate(&mut self, predicate: &Predicate, input: &Input) {
        let expected = input.dtype.as_ref().map(predicate.oracle).map_err(|&number| number);
        self.settle(predicate.name, (predicate.port)(&input.bytes), expected);
    }

    fn relation(&mut self, relation: &Relation, left: &Input, right: &Input) -> Result<Option<bool>, u64> {
        let expected = types(left, right).map(|(left, right)| (relation.oracle)(left, right));
        self.settle(relation.name, (relation.port)(&left.bytes, &right.bytes), expected);
        expected
    }

    fn shape(&mut self, input: &Input) {
        let port = lomzegash::dtype::get_shape(&input.bytes).map(|shape| shape.map(|shape| shape.widths().to_vec()));
        let expected = input.dtype.as_ref().map(|dtype| dtype.get_shape()).map_err(|&number| number);
        self.settle("get_shape", port, expected);
    }

    /// An output of length 0, one too short, just long enough and longer; lengths near the input's where nothing is
    /// to be written.
    fn writer(&mut self, writer: &Writer, input: &Input) {
        let outcome = writer.outcome(input);
        let len = outcome.len().unwrap_or(input.bytes.len() + 1);
        for room in [0, len - 1, len, len + 7] {
            self.write_bytes(writer.name, &outcome, room, |out| (writer.port)(&input.bytes, out));
        }
    }

    /// The port's answer must be the expected one, the refusal's number included.
    pub(crate) fn settle<T: PartialEq + Debug>(
        &mut self,
        name: impl Display,
        port: Result<T, Error>,
        expected: Result<T, u64>,
    ) {
        let number = expected.as_ref().err().copied().unwrap_or(0);
        assert_eq!(port.map_err(Error::number), expected, "{name}: the port's answer and the expected one");
        self.of_number[number as usize] += 1;
    }
}
