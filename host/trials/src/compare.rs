//! The comparison: every call is made to the proved code and to the plain Rust, and the answers, the refusals and every
//! element of the outputs must be the same, and be what the rules say of outputs.

use crate::flat::Flat;
use crate::parts::{place, Part, PARTS};
use std::fmt::Debug;

/// Elements behind each output that no call is given.
const GUARD: usize = 3;

/// The number of document 01, 0 for success, and the value, 0 beside a refusal.
type Answer = (u64, usize);

/// Compares, counts the inputs compared and how many of them got each number.
#[derive(Default)]
pub struct Comparison {
    cases: u64,
    of_number: [u64; 6],
    kinds: Outputs<u8>,
    args: Outputs<u64>,
    bytes: Outputs<u8>,
}

impl Comparison {
    /// Compares both forms of a type, [`Comparison::flat`] and [`Comparison::encoded`], and gives their number.
    pub fn both(&mut self, flat: &Flat) -> u64 {
        let number = self.flat(flat);
        let bytes = flat.laid_out();
        assert_eq!(self.encoded(&bytes), number, "{flat:?}, flat and encoded");
        if number == 0 {
            assert_eq!(lomzegash::encode_to_vec(&flat.kinds, &flat.args), Ok(bytes), "{flat:?}");
        }
        number
    }

    /// Compares encoding a flat type into outputs of several lengths, and its inner and leaf types; gives its number.
    pub fn flat(&mut self, flat: &Flat) -> u64 {
        let number = refusal(plain::check(&flat.kinds, &flat.args));
        let len = lomzegash::encoded_len(flat.kinds.len());
        for room in [0, len - 1, len + 7, len] {
            self.encode(flat, number, room);
        }
        PARTS.iter().for_each(|part| compare_part(part, flat));
        if number == 0 {
            let decoded = lomzegash::decode_to_vec(&self.bytes.port[..len]);
            assert!(decoded.is_ok_and(|(kinds, args)| kinds == flat.kinds && args == flat.args), "{flat:?} and back");
        }
        self.count(number)
    }

    /// Compares checking an encoded type and decoding it into outputs of several lengths, and gives its number.
    pub fn encoded(&mut self, bytes: &[u8]) -> u64 {
        let number = refusal(plain::check_encoded(bytes));
        let port = lomzegash::check(bytes).map_or_else(|error| error.number(), |()| 0);
        assert_eq!(port, number, "check of {bytes:02x?}");
        let nodes = bytes.len() / 9;
        let fewer = nodes.saturating_sub(1);
        let rooms =
            [(0, 0), (nodes, 0), (0, nodes), (fewer, nodes), (nodes, fewer), (nodes + 4, nodes + 2), (nodes, nodes)];
        for room in rooms {
            self.decode(bytes, number, nodes, room);
        }
        if number == 0 {
            let encoded = lomzegash::encode_to_vec(&self.kinds.port[..nodes], &self.args.port[..nodes]);
            assert!(encoded.is_ok_and(|encoded| encoded == bytes), "{bytes:02x?} and back");
        }
        self.count(number)
    }

    /// Prints and gives the number of inputs compared, and of those how many got each number from 0 to 5.
    pub fn report(&self, what: &str) -> (u64, [u64; 6]) {
        println!("{what}: {} cases, by number from 0 to 5: {:?}", self.cases, self.of_number);
        (self.cases, self.of_number)
    }

    fn count(&mut self, number: u64) -> u64 {
        self.cases += 1;
        self.of_number[number as usize] += 1;
        number
    }

    /// One call of `encode` with an output of length `room`; `number` is the type's own.
    fn encode(&mut self, flat: &Flat, number: u64, room: usize) {
        let (kinds, args) = (&flat.kinds[..], &flat.args[..]);
        let len = lomzegash::encoded_len(kinds.len());
        let answer = expected(number, len, len <= room);
        let sentinel = if room.is_multiple_of(2) { 0x5A } else { 0xA5 };
        let (port, plain) = self.bytes.lend(room, sentinel);
        let port = of_port(lomzegash::encode(kinds, args, port));
        let plain = of_plain(plain::encode(kinds, args, plain));
        assert_eq!((port, plain), (answer, answer), "encode of {flat:?} into {room}");
        self.bytes.compare(answer.1, sentinel);
    }

    /// One call of `decode` with outputs of the lengths `room`; `number` is the type's own.
    fn decode(&mut self, bytes: &[u8], number: u64, nodes: usize, room: (usize, usize)) {
        let answer = expected(number, nodes, nodes <= room.0 && nodes <= room.1);
        let sentinel = if room.0 == 0 { 0x5A } else { 0xA5 };
        let wide = u64::from_ne_bytes([sentinel; 8]);
        let (port_kinds, plain_kinds) = self.kinds.lend(room.0, sentinel);
        let (port_args, plain_args) = self.args.lend(room.1, wide);
        let port = of_port(lomzegash::decode(bytes, port_kinds, port_args));
        let plain = of_plain(plain::decode(bytes, plain_kinds, plain_args));
        assert_eq!((port, plain), (answer, answer), "decode of {bytes:02x?} into {room:?}");
        self.kinds.compare(answer.1, sentinel);
        self.args.compare(answer.1, wide);
    }
}

/// A part is as many of the last nodes as the plain Rust says, in the caller's own slices.
fn compare_part(part: &Part, flat: &Flat) {
    let port = (part.port)(flat.parts()).map_err(lomzegash::Error::number);
    let plain = (part.plain)(&flat.kinds, &flat.args).map_err(|refusal| refusal as u64);
    let expected = plain.map(|nodes| nodes.map(|nodes| flat.end(nodes)));
    assert_eq!(port.map(|part| part.map(place)), expected.map(|part| part.map(place)), "a part of {flat:?}");
}

/// What a call with an output answers: the type's own refusal, then 8, then the length of the result.
fn expected(number: u64, len: usize, has_room: bool) -> Answer {
    match (number, has_room) {
        (0, true) => (0, len),
        (0, false) => (8, 0),
        _ => (number, 0),
    }
}

fn of_port(result: Result<usize, lomzegash::Error>) -> Answer {
    result.map_or_else(|error| (error.number(), 0), |value| (0, value))
}

fn of_plain(result: Result<usize, plain::Refusal>) -> Answer {
    result.map_or_else(|refusal| (refusal as u64, 0), |value| (0, value))
}

fn refusal(result: Result<(), plain::Refusal>) -> u64 {
    result.map_or_else(|refusal| refusal as u64, |()| 0)
}

/// An output of the proved code and one of the plain Rust.
#[derive(Default)]
struct Outputs<T> {
    port: Vec<T>,
    plain: Vec<T>,
}

impl<T: Copy + PartialEq + Debug> Outputs<T> {
    /// Two outputs of length `len`, filled with `sentinel`, and so is the guard behind them.
    fn lend(&mut self, len: usize, sentinel: T) -> (&mut [T], &mut [T]) {
        for output in [&mut self.port, &mut self.plain] {
            output.clear();
            output.resize(len + GUARD, sentinel);
        }
        (&mut self.port[..len], &mut self.plain[..len])
    }

    /// Both hold the same, and nothing but the first `written` elements has changed.
    fn compare(&self, written: usize, sentinel: T) {
        assert_eq!(self.port, self.plain, "outputs differ");
        assert!(self.port[written..].iter().all(|&element| element == sentinel), "{:?} past {written}", self.port);
    }
}
