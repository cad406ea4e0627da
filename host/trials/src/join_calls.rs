//! The entry points that join two types, compared as the others are.

use crate::differential::Differential;
use crate::entries::Outcome;
use crate::input::{Input, Shown};
use crate::joins::{report, Join};
use crate::ranges;
use lomzegash::kind::DECIMAL;
use lomzegash::supertype;
use std::ops::Range;

/// Bytes of an output: just enough for a type of one node, as every result is, none, one too few, more than enough.
const BYTES: [usize; 4] = [11, 0, 10, 18];

/// Kinds and arguments of the outputs on flat types: just enough, none, too few of either, more than enough.
const NODES: [(usize, usize); 5] = [(1, 1), (0, 0), (0, 1), (1, 0), (3, 2)];

/// The places of the outputs that are just long enough.
pub const ENOUGH: Range<usize> = 0..1;

/// The places of outputs of every length.
pub const EVERY_LENGTH: Range<usize> = 0..5;

/// The places at which every length in bytes comes together with every length in nodes.
pub const PLACES: usize = BYTES.len() * NODES.len();

impl Differential {
    /// These joins of two types, encoded and flat, with the outputs at these places, and the report of what is lost.
    pub fn joins(&mut self, left: &Input, right: &Input, joins: &[Join], places: Range<usize>) {
        let _shown = Shown(&[left, right]);
        let nodes = left.nodes().zip(right.nodes());
        for join in joins {
            let outcome = join.outcome(left, right);
            self.count_decimal(left, right, &outcome);
            for place in places.clone() {
                self.write_bytes(format_args!("{join:?}"), &outcome, BYTES[place % BYTES.len()], |out| {
                    join.on_bytes(&left.bytes, &right.bytes, out)
                });
                let Some((left, right)) = &nodes else { continue };
                self.write_nodes(format_args!("flat {join:?}"), &outcome, NODES[place % NODES.len()], |out| {
                    join.on_nodes(left.parts(), right.parts(), out)
                });
            }
        }
        self.report_of(left, right);
    }

    /// Counts a Decimal that was joined with an integer type, by whether it is itself the result.
    fn count_decimal(&mut self, left: &Input, right: &Input, outcome: &Outcome) {
        let Outcome::Written(result) = outcome else { return };
        let decimal = match (left.root(), right.root()) {
            (DECIMAL, kind) if ranges::is_integer(kind) => left,
            (kind, DECIMAL) if ranges::is_integer(kind) => right,
            _ => return,
        };
        self.decimals[usize::from(*result != decimal.bytes)] += 1;
    }

    fn report_of(&mut self, left: &Input, right: &Input) {
        let expected = report(left, right);
        self.settle("join_report", supertype::join_report(&left.bytes, &right.bytes), expected);
        if let Ok(report) = expected {
            self.reported[report as usize] += 1;
        }
    }
}
