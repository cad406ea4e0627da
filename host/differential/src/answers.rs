//! Answers of the oracle, and of the plain Rust to merges, as lines, to be replayed where there is no Rust.
//!
//! One answer a line. A line is unsigned numbers in decimal with one space between:
//!
//!     entry input.. number value result..
//!
//! | entry | what | input | value | result |
//! |---|---|---|---|---|
//! | 1 | check | type | 0 | |
//! | 2 to 15 | the predicates below, in this order | type | 0 no, 1 yes | |
//! | 16, 17, 18 | equal, contains_dtype_recursive, can_cast_to | left type, right type | 0 no, 1 yes, 2 no verdict | |
//! | 19, 20, 21, 22 | inner_dtype, leaf_dtype, array_leaf_dtype, to_physical | type, room | nodes of the result, 0 for None | its kinds, its arguments |
//! | 23 | materialize_unknown | type, allow_unknown (0 or 1), room | the same | the same |
//! | 24 | get_shape | type | widths, 0 for None | the widths |
//! | 25 | get_time_units | unit, unit | the unit | |
//! | 26 | get_numeric_upcast_supertype_lossless | left type, right type, room | nodes of the result, 0 for None | its kinds, its arguments |
//! | 27 | get_supertype_with_options | left type, right type, allow_implode_list, allow_primitive_to_string (0 or 1 each), room | the same | the same |
//! | 28 | join_report | left type, right type | 0 keeps, 1 loses needlessly, 2 loses inevitably, 3 not integers | |
//! | 29 | merge | type, channel, the codes before it | the code that the channel now holds, 0 if empty | the codes after it |
//!
//! A type is the number of its kinds, the kinds, the number of its arguments, the arguments; the two numbers differ only
//! where the call is refused for it. Room is how many nodes an output can hold. The codes are the bytes of all 32 channels.
//! Number is 0 or the refusal's; beside a refusal the value is 0 and there is no result, but for merges: a refused one
//! leaves the codes as they were, and has them as its result. A line of the single number 0 is the last. Some lines have a
//! damaged answer, which nobody gave, see [`crate::record`].
//!
//! The predicates: is_nested 2, is_known 3, is_logical 4, is_primitive 5, is_primitive_numeric 6, is_temporal 7, is_float
//! 8, is_integer 9, is_signed_integer 10, is_unsigned_integer 11, is_string 12, is_unknown 13, contains_unknown 14,
//! contains_list_recursive 15.
//!
//! Numbers 1 to 5 are document 01's by the plain Rust, 6 is its by the kinds, 8 follows from the room, and the
//! reports follow from the ranges of integers and the oracle's supertype. polars-core has no channels, so all of a merge is
//! document 01's, with change request One's Null, by the plain Rust (`plain::channels`): by its book, the `Model`, in a
//! list of merges that started from empty channels, and by `merge`, its section for one offer, on channels of any
//! bytes. All else is the oracle's.

use lomzegash::Error;
use oracle::Type;
use std::fmt;
use trials::channels::Judge;
use trials::entries::{Outcome, PREDICATES, RELATIONS, WRITERS};
use trials::flat::Flat;
use trials::input::Input;
use trials::joins::{self, Join};

pub const CHECK: u64 = 1;
const FIRST_PREDICATE: u64 = 2;
const FIRST_RELATION: u64 = 16;
const FIRST_WRITER: u64 = 19;
const MATERIALIZE: u64 = 23;
const SHAPE: u64 = 24;
const TIME_UNITS: u64 = 25;
const LOSSLESS: u64 = 26;
pub const SUPERTYPE: u64 = 27;
const REPORT: u64 = 28;
pub const MERGE: u64 = 29;

/// The place in `WRITERS` from which on the writer is `materialize_unknown`, first with its flag on.
pub const MATERIALIZERS: usize = 4;

/// The calls on one type: the check, the shape, the predicates, and from this one on the writers.
const ONE_TYPE_WRITERS: usize = 2 + PREDICATES.len();
pub const ONE_TYPE_CALLS: usize = ONE_TYPE_WRITERS + WRITERS.len();

/// The room of an output where the result has so many nodes, 1 where there is no result.
pub type Room = fn(usize) -> usize;

/// A call, its entry first, and its answer: the number, the value and the result.
#[derive(Clone, Debug, PartialEq, Eq)]
pub struct Line {
    pub call: Vec<u64>,
    pub answer: Vec<u64>,
    pub is_damaged: bool,
}

impl Line {
    pub fn entry(&self) -> u64 {
        self.call[0]
    }

    /// 0, or the refusal's number.
    pub fn number(&self) -> u64 {
        self.answer[0]
    }
}

impl fmt::Display for Line {
    fn fmt(&self, f: &mut fmt::Formatter<'_>) -> fmt::Result {
        let words: Vec<String> = self.call.iter().chain(&self.answer).map(u64::to_string).collect();
        f.write_str(&words.join(" "))
    }
}

/// The lines so far.
#[derive(Default)]
pub struct Answers {
    pub lines: Vec<Line>,
}

impl Answers {
    /// One of the calls on one type.
    pub fn of_one_type(&mut self, call: usize, flat: &Flat, room: Room) {
        match call {
            0 => self.check(flat),
            1 => self.shape(flat),
            2..ONE_TYPE_WRITERS => self.predicate(call - 2, flat),
            _ => self.writer(call - ONE_TYPE_WRITERS, flat, room),
        }
    }

    pub fn check(&mut self, flat: &Flat) {
        let reply = answer(read(flat).map(|_| 0));
        self.line(&[&[CHECK], &words(flat)], reply);
    }

    fn predicate(&mut self, at: usize, flat: &Flat) {
        let reply = answer(read(flat).map(|(_, dtype)| (PREDICATES[at].oracle)(&dtype).into()));
        self.line(&[&[FIRST_PREDICATE + at as u64], &words(flat)], reply);
    }

    pub fn relation(&mut self, at: usize, left: &Flat, right: &Flat) {
        let types = read(left).and_then(|(_, left)| Ok((left, read(right)?.1)));
        let verdict = types.map(|(left, right)| (RELATIONS[at].oracle)(&left, &right));
        let reply = answer(verdict.map(|verdict| verdict.map_or(2, u64::from)));
        self.line(&[&[FIRST_RELATION + at as u64], &words(left), &words(right)], reply);
    }

    pub fn writer(&mut self, at: usize, flat: &Flat, room: Room) {
        let outcome = match read(flat) {
            Ok((input, dtype)) => (WRITERS[at].oracle)(&input, &dtype),
            Err(number) => Outcome::Refused(number),
        };
        let (room, reply) = written(&outcome, room);
        match at.checked_sub(MATERIALIZERS) {
            None => self.line(&[&[FIRST_WRITER + at as u64], &words(flat), &[room]], reply),
            Some(off) => self.line(&[&[MATERIALIZE], &words(flat), &[1 - off as u64, room]], reply),
        }
    }

    pub fn join(&mut self, join: Join, left: &Flat, right: &Flat, room: Room) {
        let (room, reply) = written(&join.outcome(&input(left), &input(right)), room);
        let (entry, flags) = match join {
            Join::Lossless => (LOSSLESS, vec![]),
            Join::Supertype(options) => {
                (SUPERTYPE, vec![options.allow_implode_list.into(), options.allow_primitive_to_string.into()])
            }
        };
        self.line(&[&[entry], &words(left), &words(right), &flags, &[room]], reply);
    }

    pub fn report(&mut self, left: &Flat, right: &Flat) {
        let reply = answer(joins::report(&input(left), &input(right)).map(|report| report as u64));
        self.line(&[&[REPORT], &words(left), &words(right)], reply);
    }

    /// A merge into a channel of those that the judge has, who then has what the merge leaves.
    pub fn merge(&mut self, judge: &mut impl Judge, channel: usize, column: &Flat) {
        let before = judge.codes();
        let code = judge.merge(channel, column).map_err(|refusal| refusal as u64);
        let reply = [answer(code.map(u64::from)), numbers(&judge.codes())].concat();
        self.line(&[&[MERGE], &words(column), &[channel as u64], &numbers(&before)], reply);
    }

    fn shape(&mut self, flat: &Flat) {
        let widths = read(flat).map(|(_, dtype)| dtype.get_shape().unwrap_or_default());
        let reply = match widths {
            Ok(widths) => [&[0, widths.len() as u64], &widths[..]].concat(),
            Err(number) => vec![number, 0],
        };
        self.line(&[&[SHAPE], &words(flat)], reply);
    }

    pub fn time_units(&mut self, left: u8, right: u8) {
        let unit =
            if left.max(right) > 2 { Err(Error::Argument.number()) } else { Ok(oracle::get_time_units(left, right)) };
        self.line(&[&[TIME_UNITS, left.into(), right.into()]], answer(unit.map(u64::from)));
    }

    fn line(&mut self, call: &[&[u64]], answer: Vec<u64>) {
        self.lines.push(Line { call: call.concat(), answer, is_damaged: false });
    }
}

/// The input and the crate's type, or the number from 1 to 5 that document 01 gives the nodes.
fn read(flat: &Flat) -> Result<(Input, Type), u64> {
    let input = input(flat);
    let dtype = input.dtype.clone()?;
    Ok((input, dtype))
}

/// The input, with what document 01 says of the nodes; where that is a refusal, there are no bytes.
fn input(flat: &Flat) -> Input {
    match plain::check(&flat.kinds, &flat.args) {
        Ok(()) => Input::from(flat),
        Err(refusal) => Input { bytes: vec![], dtype: Err(refusal as u64) },
    }
}

/// The room, and the answer with the result where there is one that has room.
fn written(outcome: &Outcome, room: Room) -> (u64, Vec<u64>) {
    let (kinds, args) = match outcome {
        Outcome::Written(bytes) => Type::decode(bytes).to_flat(),
        _ => Default::default(),
    };
    let nodes = kinds.len();
    let room = room(nodes.max(1));
    let reply = match outcome {
        Outcome::Written(_) if nodes > room => vec![Error::OutputTooShort.number(), 0],
        Outcome::Refused(number) => vec![*number, 0],
        _ => [&[0, nodes as u64], &numbers(&kinds)[..], &args].concat(),
    };
    (room as u64, reply)
}

/// A type as a line has it.
fn words(flat: &Flat) -> Vec<u64> {
    let (kinds, args) = (numbers(&flat.kinds), &flat.args);
    [&[kinds.len() as u64], &kinds[..], &[args.len() as u64], args].concat()
}

/// Kinds or codes as a line has them.
fn numbers(bytes: &[u8]) -> Vec<u64> {
    bytes.iter().copied().map(u64::from).collect()
}

/// An answer without a result.
fn answer(value: Result<u64, u64>) -> Vec<u64> {
    match value {
        Ok(value) => vec![0, value],
        Err(number) => vec![number, 0],
    }
}
