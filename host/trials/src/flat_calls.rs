//! The entry points on flat types, compared as those on encoded types are.

use crate::differential::Differential;
use crate::entries::{Writer, RELATIONS, WRITERS};
use crate::flat::Flat;
use crate::input::{types, Input};
use crate::parts::{place, Part, PARTS};
use lomzegash::flat::{self, Nodes, Output};
use lomzegash::Error;
use oracle::Type;
use plain::sheet;

/// The writers that there are on flat types too: their places in `WRITERS`, and the port's calls.
type Call = fn(Nodes, Output) -> Result<usize, Error>;
const FLAT_WRITERS: [(usize, Call); 3] = [
    (3, flat::to_physical),
    (4, |dtype, out| flat::materialize_unknown(dtype, true, out)),
    (5, |dtype, out| flat::materialize_unknown(dtype, false, out)),
];

impl Differential {
    /// Every entry point of one flat type.
    pub(crate) fn flat_one(&mut self, input: &Input) {
        let Some(nodes) = input.nodes() else { return };
        let expected = input.dtype.as_ref().map(Type::is_known).map_err(|&number| number);
        self.settle("flat is_known", flat::is_known(nodes.parts()), expected);
        for (writer, part) in WRITERS.iter().zip(&PARTS) {
            self.flat_part(writer, part, input, &nodes);
        }
        for (at, call) in FLAT_WRITERS {
            self.flat_writer(&WRITERS[at], call, input, &nodes);
        }
    }

    /// Every entry point that says something of two flat types.
    pub(crate) fn flat_two(&mut self, left: &Input, right: &Input) {
        let (Some(l), Some(r)) = (left.nodes(), right.nodes()) else { return };
        let (l, r) = (l.parts(), r.parts());
        self.settle("flat equal", flat::equal(l, r), types(left, right).map(|(left, right)| left.equal(right)));
        let casts = &RELATIONS[RELATIONS.len() - 1];
        self.settle("flat can_cast_to", flat::can_cast_to(l, r), types(left, right).map(|(l, r)| (casts.oracle)(l, r)));
    }

    /// The part is what the oracle's type is laid out as, and it is the end of the caller's own slices.
    fn flat_part(&mut self, writer: &Writer, part: &Part, input: &Input, nodes: &Flat) {
        let (name, outcome, answer) = (writer.name, writer.outcome(input), (part.port)(nodes.parts()));
        let laid_out = answer.map(|part| part.map(|(kinds, args)| sheet::lay_out(kinds, args)));
        self.settle(
            format_args!("flat {name}"),
            laid_out,
            outcome.with_room(|_| true).map(|bytes| bytes.map(<[u8]>::to_vec)),
        );
        if let Ok(Some(part)) = answer {
            assert_eq!(place(part), place(nodes.end(part.0.len())), "flat {name}: where it stands");
        }
    }

    /// Outputs just long enough, longer, and with one or both arrays short.
    fn flat_writer(&mut self, writer: &Writer, call: Call, input: &Input, nodes: &Flat) {
        let outcome = writer.outcome(input);
        let n = nodes.kinds.len();
        let fewer = n.saturating_sub(1);
        for rooms in [(n, n), (n + 2, n + 1), (fewer, n), (n, fewer), (0, 0)] {
            self.write_nodes(format_args!("flat {}", writer.name), &outcome, rooms, |out| {
                call(nodes.parts(), out).map(Some)
            });
        }
    }
}
