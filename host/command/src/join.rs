//! The question of the two tanks: what becomes of probe numbers where Int32, of old probes, and UInt64, of new ones, are
//! joined.

use crate::answer;
use lomzegash::kind::{INT32, UINT64};
use lomzegash::supertype::{
    get_numeric_upcast_supertype_lossless, get_supertype_with_options, join_report, JoinReport, SuperTypeOptions,
};
use lomzegash::Error;

/// Two probe numbers side by side, the first that 53 bits do not hold and the next.
const PROBES: [u64; 2] = [1 << 53, (1 << 53) + 1];

/// Prints what both rules say, what the report says, and two numbers that become one.
pub fn show() {
    lines().iter().for_each(|line| println!("{line}"));
}

fn lines() -> [String; 8] {
    let [old, new] = [INT32, UINT64].map(|kind| lomzegash::encode_to_vec(&[kind], &[0]).expect("a type"));
    let supertype = joined(|out| get_supertype_with_options(&old, &new, SuperTypeOptions::OFF, out));
    let lossless = joined(|out| get_numeric_upcast_supertype_lossless(&old, &new, out));
    let report = join_report(&old, &new).map_or_else(|error| error.to_string(), |report| words(report).into());
    let [seven, nine] = PROBES;
    let [as_seven, as_nine] = PROBES.map(|probe| probe as f64);
    [
        "Old probes are named by an Int32, new ones by a UInt64. What may one column of both be?".into(),
        format!("  get_supertype_with_options             {supertype}"),
        format!("  get_numeric_upcast_supertype_lossless  {lossless}"),
        format!("  join_report                            {report}"),
        "What becomes of two probe numbers?".into(),
        format!("  as Float64  {seven} becomes {as_seven}"),
        format!("              {nine} becomes {as_nine}: the same, and one tank follows the other's probe"),
        format!("  as Int128   {seven} and {nine} stay what they are"),
    ]
}

/// The type that a join writes, as text.
pub fn joined(join: impl FnOnce(&mut [u8]) -> Result<Option<usize>, Error>) -> String {
    let mut out = [0; 11];
    match join(&mut out) {
        Ok(Some(len)) => answer(&out[..len]),
        Ok(None) => "no such type".into(),
        Err(error) => format!("refused by {}: {error}", error.number()),
    }
}

fn words(report: JoinReport) -> &'static str {
    match report {
        JoinReport::Kept => "the supertype keeps every number of both",
        JoinReport::Avoidable => "the supertype loses numbers, and needlessly: an integer type holds all of both",
        JoinReport::Unavoidable => "the supertype loses numbers, and no integer type holds all of both",
        JoinReport::NotIntegers => "these aren't two integer types",
    }
}

#[cfg(test)]
mod tests {
    use super::*;

    #[test]
    fn each_report_has_its_words() {
        let expected = [
            "the supertype keeps every number of both",
            "the supertype loses numbers, and needlessly: an integer type holds all of both",
            "the supertype loses numbers, and no integer type holds all of both",
            "these aren't two integer types",
        ];
        assert_eq!(JoinReport::ALL.map(words), expected);
    }

    #[test]
    fn a_join_reads_as_its_type_or_its_refusal() {
        assert_eq!(joined(|_| Ok(None)), "no such type");
        assert_eq!(joined(|_| Err(Error::Nested)), "refused by 6: nested type in a supertype call");
    }
}
