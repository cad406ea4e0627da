//! Which merges are recorded.

use super::{leaf, no_types};
use crate::answers::Answers;
use lomzegash::kind::*;
use lomzegash::ChannelTypes;
use plain::channels::Model;
use std::array;
use trials::channels::{Codes, Judge};
use trials::flat::Flat;
use trials::merges::{self, NO_CHANNELS};
use trials::random::Random;

/// The columns of document 01's corner 18: two lists, each of which starts from empty channels.
const CORNER: [&[u8]; 2] = [&[UINT64, INT8, UINT128], &[UINT128, UINT8]];

/// How many lists are drawn from empty channels, and how many from any bytes.
const LISTS: usize = 3;

/// Merges of a list that is drawn.
const LENGTH: usize = 40;

/// The most nodes of a column in such a list: lines stay short.
const NODES: usize = 4;

/// The corner, the pairs of what is held and merged, each refusal, Nulls, then lists that are drawn.
pub fn all(answers: &mut Answers) {
    for channel in [0, ChannelTypes::CHANNELS - 1] {
        for kinds in CORNER {
            let mut model = Model::new();
            kinds.iter().for_each(|&kind| answers.merge(&mut model, channel, &leaf(kind)));
        }
    }
    pairs(answers);
    refusals(answers);
    nulls(answers);
    let mut random = Random::new(29);
    for _ in 0..LISTS {
        drawn(answers, &mut Model::new(), &mut random);
        let mut codes = merges::codes(&mut random);
        drawn(answers, &mut codes, &mut random);
    }
}

/// A node of each kind into a channel that holds 0, each code, a byte next to the codes or one far off; the other channels
/// hold their own numbers.
fn pairs(answers: &mut Answers) {
    for held in (0..=INT128 + 1).chain([u8::MAX]) {
        for kind in NULL..=FIELD {
            let channel = (usize::from(held) + usize::from(kind)) % ChannelTypes::CHANNELS;
            let mut codes: Codes = array::from_fn(|other| other as u8);
            codes[channel] = held;
            answers.merge(&mut codes, channel, &leaf(kind));
        }
    }
}

/// What is no type, and nested types, into a channel that there is not, one whose byte is no code and an empty one; and types
/// of one node into channels that there are not.
fn refusals(answers: &mut Answers) {
    let mut damaged = [1; ChannelTypes::CHANNELS];
    let nested = [Flat::lists(1), Flat::structs(1, &Flat::int8()), Flat::wide_struct(2)];
    for column in no_types().into_iter().chain(nested) {
        answers.merge(&mut damaged, ChannelTypes::CHANNELS, &column);
        answers.merge(&mut damaged, 5, &column);
        answers.merge(&mut Model::new(), 5, &column);
    }
    for channel in NO_CHANNELS {
        for kind in [INT8, STRING] {
            answers.merge(&mut damaged, channel, &leaf(kind));
        }
    }
}

/// Null, and then what is nearly Null, into channels that are empty, that hold a type or a byte that is no code, and
/// that there are not; then Nulls between the corner's columns.
fn nulls(answers: &mut Answers) {
    let mut codes: Codes = array::from_fn(|other| [0, INT8, 1, UINT128, INT128 + 1][other % 5]);
    let columns: [&[(u8, u64)]; 5] =
        [&[(NULL, 0)], &[(NULL, 1)], &[(NULL, u64::MAX)], &[(NULL, 0), (NULL, 0)], &[(LIST, 0), (NULL, 0)]];
    for column in columns.map(Flat::new) {
        for channel in [0, 1, 2, 3, 4, ChannelTypes::CHANNELS - 1, ChannelTypes::CHANNELS, usize::MAX] {
            answers.merge(&mut codes, channel, &column);
        }
    }
    for kinds in CORNER {
        let mut model = Model::new();
        for kind in kinds.iter().flat_map(|&kind| [NULL, NULL, kind, NULL]) {
            answers.merge(&mut model, 7, &leaf(kind));
        }
    }
}

/// A list of merges, but for its long columns.
fn drawn(answers: &mut Answers, judge: &mut impl Judge, random: &mut Random) {
    for merge in merges::list(random, LENGTH) {
        if merge.column.flat.kinds.len() <= NODES {
            answers.merge(judge, merge.channel, &merge.column.flat);
        }
    }
}
