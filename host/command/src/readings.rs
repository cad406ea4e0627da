//! Readings in degrees Plato, which are logged as Decimals, joined with the counters of tanks, which are integers.

use crate::answer;
use crate::join::joined;
use lomzegash::kind::{DECIMAL, INT128, INT32, INT64, UINT16};
use lomzegash::supertype::{get_supertype_with_options, SuperTypeOptions};

/// The kind and the argument of a type of one node.
type Leaf = (u8, u64);

/// Two digits behind the point, and eight or ten before it; and twenty behind it, and all that then have room before it.
const EIGHT: Leaf = (DECIMAL, 256 * 2 + 10);
const TEN: Leaf = (DECIMAL, 256 * 2 + 12);
const EIGHTEEN: Leaf = (DECIMAL, 256 * 20 + 38);

/// What is joined, and why the result is what it is.
const COLUMNS: [(Leaf, Leaf, &str); 5] = [
    (EIGHT, (UINT16, 0), "65535 has five digits, and eight have room"),
    (EIGHT, (INT32, 0), "2147483647 has ten digits"),
    ((INT32, 0), TEN, "ten have room"),
    (TEN, (INT128, 0), "as always beside 128 bits"),
    (EIGHTEEN, (INT64, 0), "9223372036854775807 has 19 digits, 18 have room, and it is lost"),
];

/// Prints each join and its answer.
pub fn show() {
    println!("Plato readings are logged as Decimals, counters of tanks as integers. What may one column of both be?");
    for (left, right, why) in COLUMNS {
        let [left, right] = [left, right].map(|(kind, arg)| lomzegash::encode_to_vec(&[kind], &[arg]).expect("a type"));
        let result = joined(|out| get_supertype_with_options(&left, &right, SuperTypeOptions::OFF, out));
        println!("  {:<15} with {:<14}  {result}: {why}", answer(&left), answer(&right));
    }
}
