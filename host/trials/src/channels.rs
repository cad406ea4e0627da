//! Merges of columns into channels, in each form of the call, beside the plain Rust.
//!
//! One comparison is one merge in one form: its answer, every channel's byte after it and the bytes around them are held to
//! what the judge says. A difference is a panic that shows the merge.

use crate::differential::Numbers;
use crate::flat::Flat;
use crate::merges::{Column, Merge};
use lomzegash::{flat, ChannelTypes, Error};
use plain::channels::Model;
use plain::Refusal;
use std::array;
use std::collections::BTreeSet;

/// The byte of each channel.
pub type Codes = [u8; ChannelTypes::CHANNELS];

/// The code that the channel of a merge now holds, or the refusal's number.
pub type Answer = Result<u8, u64>;

/// A form of the call.
pub struct Form {
    /// How the type comes, and how the types of the channels do.
    pub name: &'static str,
    /// Merges a column into a channel of these types.
    pub merge: fn(&mut ChannelTypes, usize, &Column) -> Result<u8, Error>,
}

/// Every form of the call.
pub const FORMS: &[Form] = &[
    Form { name: "encoded, lent", merge: |types, channel, column| types.merge(channel, &column.bytes) },
    Form { name: "flat, lent", merge: |types, channel, column| flat::merge(types, channel, column.flat.parts()) },
    Form { name: "flat, by value", merge: by_value },
];

fn by_value(types: &mut ChannelTypes, channel: usize, column: &Column) -> Result<u8, Error> {
    let answer;
    (answer, *types) = flat::merged(*types, channel, column.flat.parts());
    answer
}

/// Says what merges must come to.
pub trait Judge {
    /// The answer to a merge.
    fn merge(&mut self, channel: usize, column: &Flat) -> Result<u8, Refusal>;

    /// The byte of a channel that there is.
    fn code(&self, channel: usize) -> u8;

    /// The byte of each channel.
    fn codes(&self) -> Codes {
        array::from_fn(|channel| self.code(channel))
    }
}

/// Of types that were empty at the start; it knows nothing of their codes.
impl Judge for Model {
    fn merge(&mut self, channel: usize, column: &Flat) -> Result<u8, Refusal> {
        Model::merge(self, channel, &column.kinds, &column.args)
    }

    fn code(&self, channel: usize) -> u8 {
        Model::code(self, channel)
    }
}

/// Of types that started from any bytes.
impl Judge for Codes {
    fn merge(&mut self, channel: usize, column: &Flat) -> Result<u8, Refusal> {
        plain::channels::merge(self, channel, &column.kinds, &column.args)
    }

    fn code(&self, channel: usize) -> u8 {
        self[channel]
    }
}

/// The types of the channels, beside their judge.
#[derive(Clone)]
pub struct Judged<J> {
    types: ChannelTypes,
    judge: J,
}

impl Judged<Model> {
    /// All channels empty.
    pub fn empty() -> Judged<Model> {
        Judged { types: ChannelTypes::new(), judge: Model::new() }
    }
}

impl Judged<Codes> {
    /// Channels that hold these bytes.
    pub fn from_codes(codes: Codes) -> Judged<Codes> {
        Judged { types: ChannelTypes::from_codes(codes), judge: codes }
    }
}

/// What stands before and behind the types that are lent.
const GUARD: ChannelTypes = ChannelTypes::from_codes([0xA5; ChannelTypes::CHANNELS]);

/// Compares, and counts the merges by the number that they came to, and the Nulls that channels took.
#[derive(Default)]
pub struct Merging {
    of_number: Numbers,
    nulls: [u64; 2],
}

impl Merging {
    /// A list of merges, each on what the one before has left; at its end every channel is where the judge has it.
    pub fn list<'a, J: Judge>(
        &mut self,
        form: &Form,
        judged: &mut Judged<J>,
        merges: impl IntoIterator<Item = &'a Merge>,
    ) -> Vec<Answer> {
        let answers = merges.into_iter().map(|merge| self.merge(form, judged, merge)).collect();
        let expected = judged.judge.codes();
        assert_eq!(*judged.types.codes(), expected, "{}: the codes after a list and the expected ones", form.name);
        answers
    }

    /// A list of merges from these codes, and for each channel the list that keeps only its own merges: they get the same
    /// answers, and the channel ends with the same code.
    pub fn alone(&mut self, form: &Form, codes: Codes, merges: &[Merge]) {
        let mut whole = Judged::from_codes(codes);
        let answers = self.list(form, &mut whole, merges);
        let channels: BTreeSet<usize> =
            (0..ChannelTypes::CHANNELS).chain(merges.iter().map(|merge| merge.channel)).collect();
        for channel in channels {
            let (own, expected): (Vec<&Merge>, Vec<Answer>) =
                merges.iter().zip(&answers).filter(|(merge, _)| merge.channel == channel).unzip();
            let mut alone = Judged::from_codes(codes);
            assert_eq!(self.list(form, &mut alone, own), expected, "{}: channel {channel} alone", form.name);
            assert_eq!(alone.types.get(channel), whole.types.get(channel), "{}: channel {channel} alone", form.name);
        }
    }

    /// A list of merges after those that are judged, and the list without its Nulls: the other merges get the same
    /// answers, and all channels end with the same codes.
    pub fn without_nulls<J: Judge + Clone>(
        &mut self,
        form: &Form,
        judged: &mut Judged<J>,
        merges: &[Merge],
    ) -> Vec<Answer> {
        let mut without = judged.clone();
        let answers = self.list(form, judged, merges);
        let (others, expected): (Vec<&Merge>, Vec<Answer>) =
            merges.iter().zip(&answers).filter(|(merge, _)| !merge.column.is_null()).unzip();
        assert_eq!(self.list(form, &mut without, others), expected, "{}: without its Nulls", form.name);
        assert_eq!(without.types, judged.types, "{}: without its Nulls", form.name);
        answers
    }

    /// Prints how many merges there were and how many Nulls were taken, and gives how many merges came to each number.
    pub fn report(&self, what: &str) -> Numbers {
        let count: u64 = self.of_number.iter().sum();
        println!("{what}: {count} merges, by number from 0 to 13: {:?}", self.of_number);
        if self.nulls != [0; 2] {
            println!("  Nulls were taken by empty channels and by others: {:?}", self.nulls);
        }
        self.of_number
    }

    /// How many Nulls were taken: by empty channels, and by those that hold a type.
    pub fn nulls(&self) -> [u64; 2] {
        self.nulls
    }

    /// One merge: an accepted one gives its channel the code of its answer, a refused one and a Null leave every byte,
    /// and all leave the channel where the judge has it.
    fn merge<J: Judge>(&mut self, form: &Form, judged: &mut Judged<J>, merge: &Merge) -> Answer {
        let (before, Merge { channel, column }) = (judged.types, merge);
        let expected = judged.judge.merge(*channel, &column.flat).map_err(|refusal| refusal as u64);
        let mut lent = [GUARD, before, GUARD];
        let answer = (form.merge)(&mut lent[1], *channel, column).map_err(Error::number);
        assert_eq!(answer, expected, "{}: the answer to {merge:?} on {before:?} and the expected one", form.name);
        let mut codes = *before.codes();
        if let Ok(code) = answer {
            codes[*channel] = code;
        }
        let after = ChannelTypes::from_codes(codes);
        assert_eq!(lent, [GUARD, after, GUARD], "{}: what {merge:?} leaves of {before:?}", form.name);
        if let Some(code) = codes.get(*channel) {
            assert_eq!(*code, judged.judge.code(*channel), "{}: where {merge:?} leaves its channel", form.name);
        }
        if column.is_null() {
            assert_eq!(after, before, "{}: {merge:?} answers the code held", form.name);
            if let Ok(code) = answer {
                self.nulls[usize::from(code != 0)] += 1;
            }
        }
        judged.types = after;
        self.of_number[answer.err().unwrap_or(0) as usize] += 1;
        answer
    }
}
