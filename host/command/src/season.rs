//! Tank 7's season: the columns that its channels logged, merged one after another into the types of the channels.

use crate::answer;
use lomzegash::kind::{self, FLOAT64, INT16, INT32, INT8, NULL, UINT128, UINT16, UINT64, UINT8};
use lomzegash::{ChannelTypes, Error};

/// What is merged: a channel, the kind of a column, and what was logged there.
const COLUMNS: [(usize, u8, &str); 12] = [
    (0, INT32, "numbers of the old probes"),
    (0, UINT64, "numbers of the new probes"),
    (0, INT32, "an old probe once more"),
    (0, NULL, "a silent probe, dry all season"),
    (0, UINT128, "serial numbers, for which no type has room"),
    (1, UINT8, "strokes of the pump"),
    (1, UINT16, "strokes of a larger pump"),
    (1, INT8, "strokes with a sign"),
    (2, FLOAT64, "gravity, which is no whole number"),
    (2, INT16, "temperature"),
    (3, NULL, "a silent probe, the only one there"),
    (32, INT8, "a channel that isn't there"),
];

/// Prints each merge and its answer, then what the channels hold.
pub fn show() {
    lines().iter().for_each(|line| println!("{line}"));
}

fn lines() -> Vec<String> {
    let mut types = ChannelTypes::new();
    let mut lines = vec!["Tank 7's season. Each column is merged into its channel, and no number is lost:".into()];
    lines.extend(COLUMNS.map(|(channel, kind, logged)| {
        let column = lomzegash::encode_to_vec(&[kind], &[0]).expect("a type");
        let told = words(types.merge(channel, &column));
        format!("  channel {channel:<2}  {:<8} {logged:<43} {told}", answer(&column))
    }));
    let held = (0..ChannelTypes::CHANNELS).filter_map(|channel| Some((channel, name(types.get(channel)?))));
    let held: Vec<String> = held.map(|(channel, name)| format!("channel {channel} {name}")).collect();
    lines.push(format!("At its end: {}; the other channels are empty.", held.join(", ")));
    lines
}

fn words(merged: Result<u8, Error>) -> String {
    match merged {
        Ok(0) => "stays empty".into(),
        Ok(code) => format!("holds {}", name(code)),
        Err(error) => format!("refused by {}: {error}", error.number()),
    }
}

/// The name of a code that a channel holds.
fn name(code: u8) -> &'static str {
    kind::name(code).expect("a code is a kind")
}
