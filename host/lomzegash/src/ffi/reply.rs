//! What the entry points answer, and what each answer may be.

use crate::flat::Nodes;
use crate::kind::{INT128, UINT8};
use crate::supertype::JoinReport;
use crate::{ChannelTypes, Error, Shape};
use std::fmt::Debug;

/// The answer of nearly every entry point: number 0 and a value, or a refusal's number and value 0.
#[repr(C)]
#[derive(Debug)]
pub(super) struct Reply {
    pub(super) number: u64,
    pub(super) value: u64,
}

/// The answer with a shape: its refusal, or how many widths there are and the widths, zero behind the last. None has
/// no width.
#[repr(C)]
#[derive(Debug)]
pub(super) struct ShapeReply {
    pub(super) number: u64,
    pub(super) count: u64,
    pub(super) widths: [u64; Shape::MOST],
}

/// The answer to a merge, beside the types as the call leaves them.
#[repr(C)]
#[derive(Debug)]
pub(super) struct TypesReply {
    pub(super) reply: Reply,
    pub(super) types: ChannelTypes,
}

/// Every result below panics where the reply is none that the interface allows: the archive is not the one that belongs
/// here.
impl Reply {
    /// The value or the refusal.
    #[inline]
    pub(super) fn result(self) -> Result<usize, Error> {
        match (self.number, self.value) {
            (0, value) => Ok(value as usize),
            (number, 0) => Err(refusal(number, &self)),
            _ => ruled_out(&self),
        }
    }

    /// No value, 0, or the refusal.
    #[inline]
    pub(super) fn nothing(self) -> Result<(), Error> {
        self.one_of(&[()])
    }

    /// No, 0, or yes, 1, or the refusal.
    #[inline]
    pub(super) fn yes_or_no(self) -> Result<bool, Error> {
        self.one_of(&[false, true])
    }

    /// No, 0, yes, 1, or no verdict, 2, or the refusal.
    #[inline]
    pub(super) fn verdict(self) -> Result<Option<bool>, Error> {
        self.one_of(&[Some(false), Some(true), None])
    }

    /// One of three time units or the refusal.
    #[inline]
    pub(super) fn unit(self) -> Result<u8, Error> {
        self.one_of(&[0, 1, 2])
    }

    /// One of the reports or the refusal.
    #[inline]
    pub(super) fn join_report(self) -> Result<JoinReport, Error> {
        self.one_of(&JoinReport::ALL)
    }

    /// The code of an integer type, or 0, that of an empty channel, or the refusal.
    #[inline]
    pub(super) fn code(self) -> Result<u8, Error> {
        let is_code = |value| value == 0 || (UINT8.into()..=INT128.into()).contains(&value);
        match self {
            Reply { number: 0, value } if !is_code(value) => ruled_out(&self),
            _ => self.result().map(|code| code as u8),
        }
    }

    /// The number of bytes or nodes of a result, or None, 0, or the refusal.
    #[inline]
    pub(super) fn written(self) -> Result<Option<usize>, Error> {
        self.result().map(|bytes| (bytes > 0).then_some(bytes))
    }

    /// The number of bytes or nodes of a result that is never None, or the refusal.
    #[inline]
    pub(super) fn always_written(self) -> Result<usize, Error> {
        match self {
            Reply { number: 0, value: 0 } => ruled_out(&self),
            _ => self.result(),
        }
    }

    /// The last of the nodes that were lent, as many as the value says, or None, 0, or the refusal.
    #[inline]
    pub(super) fn part(self, lent: Nodes<'_>) -> Result<Option<Nodes<'_>>, Error> {
        self.written().map(|count| count.map(|count| last(lent, count)))
    }

    /// The last of the nodes that were lent, of which there is one at least, or the refusal.
    #[inline]
    pub(super) fn always_part(self, lent: Nodes<'_>) -> Result<Nodes<'_>, Error> {
        self.always_written().map(|count| last(lent, count))
    }

    /// The value's place among `values` or the refusal.
    fn one_of<T: Copy>(self, values: &[T]) -> Result<T, Error> {
        let Reply { number, value } = self;
        let place = self.result()?;
        Ok(*values.get(place).unwrap_or_else(|| ruled_out(&Reply { number, value })))
    }
}

impl ShapeReply {
    /// The widths, or None where there are none, or the refusal. Panics as those of [`Reply`].
    #[inline]
    pub(super) fn result(self) -> Result<Option<Shape>, Error> {
        let count = self.count as usize;
        if self.widths.get(count..).is_none_or(|unused| unused.iter().any(|&width| width > 0)) {
            ruled_out(&self)
        }
        match (self.number, count) {
            (0, 0) => Ok(None),
            (0, count) => Ok(Some(Shape { count, widths: self.widths })),
            (number, 0) => Err(refusal(number, &self)),
            _ => ruled_out(&self),
        }
    }
}

impl TypesReply {
    /// The code or the refusal, beside the types. Panics as those of [`Reply`].
    #[inline]
    pub(super) fn parts(self) -> (Result<u8, Error>, ChannelTypes) {
        (self.reply.code(), self.types)
    }
}

/// So many of the nodes, the last ones. Panics as the results of [`Reply`] where there are fewer.
#[inline]
fn last((kinds, args): Nodes<'_>, count: usize) -> Nodes<'_> {
    match (kinds.len().checked_sub(count), args.len().checked_sub(count)) {
        (Some(kind), Some(arg)) => (&kinds[kind..], &args[arg..]),
        _ => ruled_out(&format_args!("a part of {count} nodes")),
    }
}

fn refusal(number: u64, reply: &impl Debug) -> Error {
    Error::from_number(number).unwrap_or_else(|| ruled_out(reply))
}

fn ruled_out(reply: &impl Debug) -> ! {
    panic!("the archive gave {reply:?}, which the interface rules out")
}

#[cfg(test)]
mod tests {
    use super::*;
    use std::panic::{catch_unwind, UnwindSafe};

    fn value(value: u64) -> Reply {
        Reply { number: 0, value }
    }

    fn refused(number: u64) -> Reply {
        Reply { number, value: 0 }
    }

    fn shape(number: u64, count: u64, front: &[u64]) -> ShapeReply {
        let mut widths = [0; Shape::MOST];
        widths[..front.len()].copy_from_slice(front);
        ShapeReply { number, count, widths }
    }

    fn is_ruled_out<T>(result: impl FnOnce() -> T + UnwindSafe) -> bool {
        let message = catch_unwind(result).err().and_then(|panic| panic.downcast::<String>().ok());
        message.is_some_and(|message| message.contains("rules out"))
    }

    #[test]
    fn a_reply_is_a_value_or_a_refusal() {
        assert_eq!(value(7).result(), Ok(7));
        assert_eq!(refused(8).result(), Err(Error::OutputTooShort));
        assert_eq!([value(0).yes_or_no(), value(1).yes_or_no()], [Ok(false), Ok(true)]);
        assert_eq!([0, 1, 2].map(|v| value(v).verdict()), [Ok(Some(false)), Ok(Some(true)), Ok(None)]);
        assert_eq!([0, 1, 2, 3].map(|v| value(v).join_report()), JoinReport::ALL.map(Ok));
        assert_eq!([0, 2, 11].map(|v| value(v).code()), [Ok(0), Ok(2), Ok(11)]);
        assert_eq!(refused(12).code(), Err(Error::NoUpcast));
        assert_eq!([0, 11].map(|v| value(v).written()), [Ok(None), Ok(Some(11))]);
        assert_eq!(value(11).always_written(), Ok(11));
        assert_eq!(refused(7).always_written(), Err(Error::Unknown));
    }

    #[test]
    fn a_shape_is_widths_or_none_or_a_refusal() {
        assert_eq!(shape(0, 0, &[]).result(), Ok(None));
        assert_eq!(shape(5, 0, &[]).result(), Err(Error::Depth));
        let widths = |reply: ShapeReply| reply.result().map(|shape| shape.map(|shape| shape.widths().to_vec()));
        assert_eq!(widths(shape(0, 2, &[3, 0])), Ok(Some(vec![3, 0])));
        assert_eq!(widths(shape(0, 32, &[1; 32])), Ok(Some(vec![1; 32])));
    }

    #[test]
    fn a_part_is_the_last_nodes_or_none_or_a_refusal() {
        let (kinds, args) = ([28, 28, 8], [0, 0, 0]);
        let lent: Nodes = (&kinds, &args);
        assert_eq!(value(2).part(lent), Ok(Some((&kinds[1..], &args[1..]))));
        assert_eq!(value(3).always_part(lent), Ok(lent));
        assert_eq!(value(0).part(lent), Ok(None));
        assert_eq!((refused(4).part(lent), refused(5).always_part(lent)), (Err(Error::Shape), Err(Error::Depth)));
    }

    #[test]
    fn any_other_reply_is_ruled_out() {
        assert!(is_ruled_out(|| Reply { number: 8, value: 1 }.result()));
        assert!([13, 14].iter().all(|&number| is_ruled_out(move || refused(number).result())));
        assert!(is_ruled_out(|| value(1).nothing()));
        assert!(is_ruled_out(|| value(2).yes_or_no()));
        assert!(is_ruled_out(|| value(3).verdict()));
        assert!(is_ruled_out(|| value(3).unit()));
        assert!(is_ruled_out(|| value(4).join_report()));
        assert!([1, 12, 256, 258].iter().all(|&v| is_ruled_out(move || value(v).code())));
        assert!(is_ruled_out(|| value(0).always_written()));
        assert!(is_ruled_out(|| value(2).part((&[7], &[0])).is_ok()));
        assert!(is_ruled_out(|| value(2).always_part((&[28, 7], &[0])).is_ok()));
        assert!(is_ruled_out(|| value(0).always_part((&[7], &[0])).is_ok()));
        assert!(is_ruled_out(|| shape(0, 1, &[3, 4]).result()));
        assert!(is_ruled_out(|| shape(0, 33, &[]).result()));
        assert!(is_ruled_out(|| shape(5, 1, &[3]).result()));
        assert!([13, 14].iter().all(|&number| is_ruled_out(move || shape(number, 0, &[]).result())));
    }
}
