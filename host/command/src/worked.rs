//! A few encoded types, good and bad, and what is said of them.

use crate::{answer, hex};

/// Bytes shown of a longer encoded type.
const SHOWN: usize = 24;

/// Prints each worked type, its bytes and the answer.
pub fn show() {
    for (title, text) in cases() {
        let bytes = hex::bytes(&text).expect("worked types are hexadecimal");
        println!("{title}\n  {}\n  {}", shortened(&bytes), answer(&bytes));
    }
}

/// The titles and the hexadecimal text of the worked types.
fn cases() -> Vec<(&'static str, String)> {
    let zero = "00".repeat(8);
    let lists = |count: usize| format!("{:02X}00 {} 07 {}", count + 1, "1C".repeat(count), zero.repeat(count + 1));
    vec![
        ("List(Int16), the example of document 01", format!("0200 1C08 {zero}{zero}")),
        (
            "a Struct of two fields",
            format!(
                "0600 1E1F011F1D13 0200000000000000 0700000000000000 {zero} 0900000000000000 0300000000000000 {zero}"
            ),
        ),
        ("33 Lists over Int8", lists(33)),
        ("List(Int16), one byte short", format!("0200 1C08 {zero}{}", "00".repeat(7))),
        ("a Decimal of precision 39", "0100 0F 2700000000000000".into()),
    ]
}

/// The bytes as text, cut where there are many.
fn shortened(bytes: &[u8]) -> String {
    if bytes.len() <= 3 * SHOWN {
        hex::text(bytes)
    } else {
        format!("{}... ({} bytes)", hex::text(&bytes[..SHOWN]), bytes.len())
    }
}
