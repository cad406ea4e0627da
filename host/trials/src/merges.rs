//! Merges to try: columns of all types, damaged ones, and channels that there are or not.

use crate::channels::Codes;
use crate::damage;
use crate::draw;
use crate::flat::Flat;
use crate::leaves;
use crate::random::Random;
use lomzegash::kind::*;
use lomzegash::ChannelTypes;
use std::array;
use std::ops::Range;

/// A column merged into a channel.
#[derive(Clone, Debug)]
pub struct Merge {
    /// The channel, any number.
    pub channel: usize,
    /// The column.
    pub column: Column,
}

/// The type of a column in both forms, which may be anything at all.
#[derive(Clone, Debug)]
pub struct Column {
    /// Kinds and arguments.
    pub flat: Flat,
    /// An encoded type, or not.
    pub bytes: Vec<u8>,
}

impl Column {
    fn new(flat: Flat, bytes: Vec<u8>) -> Column {
        assert_eq!(plain::check(&flat.kinds, &flat.args), plain::check_encoded(&bytes), "{flat:?}, flat and encoded");
        Column { flat, bytes }
    }

    /// A type of one node.
    pub fn leaf(kind: u8, arg: u64) -> Column {
        Flat::new(&[(kind, arg)]).into()
    }

    /// Whether it is of type Null.
    pub fn is_null(&self) -> bool {
        self.flat.parts() == (&[NULL], &[0])
    }

    /// What the bytes hold; no node where they have the length of no type, and so the same refusal.
    fn from_bytes(bytes: Vec<u8>) -> Column {
        let flat = match plain::check_encoded(&bytes) {
            Err(plain::Refusal::Length) => Flat::default(),
            _ => Flat::read(&bytes),
        };
        Column::new(flat, bytes)
    }
}

impl From<Flat> for Column {
    fn from(flat: Flat) -> Column {
        let bytes = flat.laid_out();
        Column::new(flat, bytes)
    }
}

/// Some of the integer types: the fewer, the longer it takes until a channel's type stays as it is.
const INTEGERS: [&[u8]; 4] = [
    &[UINT8, UINT16, UINT32, UINT64, UINT128, INT8, INT16, INT32, INT64, INT128],
    &[UINT8, UINT16, UINT32, UINT64, UINT128],
    &[UINT8, UINT16, INT8, INT16, INT32],
    &[UINT64, UINT128, INT8, INT64],
];

/// Channels that there are not, next to the last one and far off; some are one in their lowest bits.
pub const NO_CHANNELS: [usize; 8] = [
    ChannelTypes::CHANNELS,
    ChannelTypes::CHANNELS + 1,
    2 * ChannelTypes::CHANNELS,
    1 << 8,
    1 << 16,
    1 << 32,
    1 << 63,
    usize::MAX,
];

/// How many of a hundred columns are Null: few or nearly all, so that channels stay empty for long.
const NULLS: [usize; 3] = [5, 15, 90];

/// A list of so many merges, of all integer types or of some, with Nulls and others between them, into all channels or
/// a few, and at times into none that there is.
pub fn list(random: &mut Random, len: usize) -> Vec<Merge> {
    let (integers, nulls) = (random.pick(&INTEGERS), random.pick(&NULLS));
    let count = random.pick(&[1, 3, ChannelTypes::CHANNELS]);
    let first = random.between(0, ChannelTypes::CHANNELS - count);
    let channels = first..first + count;
    let mut merge = || Merge { channel: channel(random, &channels), column: column(random, integers, nulls) };
    (0..len).map(|_| merge()).collect()
}

fn channel(random: &mut Random, channels: &Range<usize>) -> usize {
    if random.chance(5) {
        return random.pick(&NO_CHANNELS);
    }
    random.between(channels.start, channels.end - 1)
}

/// Null in so many of a hundred cases; of the others mostly one of these integer types, else any type or something
/// damaged.
fn column(random: &mut Random, integers: &[u8], nulls: usize) -> Column {
    if random.chance(nulls) {
        return Column::leaf(NULL, 0);
    }
    match random.below(20) {
        0 => Flat::new(&[random.pick(&leaves::FEW)]).into(),
        1 => {
            let size = size(random);
            draw::flat_of(random, size).into()
        }
        2..=4 => damaged(random),
        _ => Column::leaf(random.pick(integers), 0),
    }
}

/// How many nodes a type has that isn't an integer's: mostly few.
fn size(random: &mut Random) -> usize {
    let most = random.pick(&[1, 1, 2, 2, 4, 4, 12, 40]);
    random.between(1, most)
}

/// What is no type, but for damages that make another one.
fn damaged(random: &mut Random) -> Column {
    let size = size(random);
    let mut flat = draw::flat_of(random, size);
    match random.below(8) {
        0 => flat = Flat::lists(random.pick(&[33, 34, 40, 511, 512])),
        1 => flat = damage::random_nodes(random, size),
        2 => random.pick(&damage::LENGTHS)(&mut flat, random),
        3 => {
            let mut bytes = flat.laid_out();
            random.pick(&damage::BYTES)(&mut bytes, random);
            return Column::from_bytes(bytes);
        }
        _ => random.pick(&damage::NODES)(&mut flat, random),
    }
    flat.into()
}

/// Bytes of channels: any bytes, or such as are around the codes, or codes alone.
pub fn codes(random: &mut Random) -> Codes {
    let from = random.pick(&[&[0, 1, UINT8, UINT128, INT8, INT128, INT128 + 1, u8::MAX][..], INTEGERS[0], &[]]);
    array::from_fn(|_| if from.is_empty() { random.number() as u8 } else { random.pick(from) })
}
