//! Outputs of calls: what is written to them and what is left alone.

use crate::differential::Differential;
use crate::entries::Outcome;
use crate::flat::Flat;
use lomzegash::flat::Output;
use lomzegash::Error;
use std::fmt::{Debug, Display};

/// Elements behind each output that no call is given.
const GUARD: usize = 3;

/// What outputs hold before a call, by turns.
const FILLERS: [u8; 2] = [0xA5, 0x5A];

impl Differential {
    /// One call with an output of `room` bytes; what it comes to with room enough is `outcome`.
    pub(crate) fn write_bytes(
        &mut self,
        name: impl Display,
        outcome: &Outcome,
        room: usize,
        call: impl FnOnce(&mut [u8]) -> Result<Option<usize>, Error>,
    ) {
        let expected = outcome.with_room(|bytes| bytes.len() <= room);
        let filler = FILLERS[room % 2];
        refill(&mut self.bytes, room, filler);
        let port = call(&mut self.bytes[..room]);
        self.settle(&name, port, expected.map(|written| written.map(<[u8]>::len)));
        holds(&name, &self.bytes, expected.ok().flatten().unwrap_or_default(), filler);
    }

    /// One call with outputs of `rooms` kinds and arguments.
    pub(crate) fn write_nodes(
        &mut self,
        name: impl Display,
        outcome: &Outcome,
        rooms: (usize, usize),
        call: impl FnOnce(Output) -> Result<Option<usize>, Error>,
    ) {
        let expected = outcome.with_room(|bytes| bytes.len() <= lomzegash::encoded_len(rooms.0.min(rooms.1)));
        let written = expected.ok().flatten().map(Flat::read);
        let filler = FILLERS[rooms.0 % 2];
        let wide = u64::from_ne_bytes([filler; 8]);
        refill(&mut self.kinds, rooms.0, filler);
        refill(&mut self.args, rooms.1, wide);
        let port = call((&mut self.kinds[..rooms.0], &mut self.args[..rooms.1]));
        self.settle(&name, port, expected.map(|_| written.as_ref().map(|flat| flat.kinds.len())));
        let written = written.unwrap_or_default();
        holds(&name, &self.kinds, &written.kinds, filler);
        holds(&name, &self.args, &written.args, wide);
    }
}

/// An output of length `room` and the guard behind it.
fn refill<T: Copy>(output: &mut Vec<T>, room: usize, filler: T) {
    output.clear();
    output.resize(room + GUARD, filler);
}

/// The output holds what was to be written, and past it nothing has changed.
fn holds<T: PartialEq + Debug>(name: impl Display, output: &[T], written: &[T], filler: T) {
    let (front, rest) = output.split_at(written.len());
    assert_eq!(front, written, "{name}: what is written");
    assert!(rest.iter().all(|element| *element == filler), "{name}: what is left alone, {rest:02x?}");
}
