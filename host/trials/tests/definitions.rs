//! What stands in `specs/` and no proof can hold to anything: numbers, held to Rust's own constants, and the names of the
//! units, held to the crate's.

const INTEGER: &str = include_str!("../../../crates/supertype_numbers/specs/Integer.antt");
const FORMAT: &str = include_str!("../../../crates/supertype_numbers/specs/Format.antt");
const TIME_UNIT: &str = include_str!("../../../crates/dtype/specs/TimeUnit.antt");

#[test]
fn the_widths_are_those_of_rusts_integers() {
    let unsigned = [u8::BITS, u16::BITS, u32::BITS, u64::BITS, u128::BITS];
    let signed = [i8::BITS, i16::BITS, i32::BITS, i64::BITS, i128::BITS];
    let by_kind: Vec<String> = unsigned.iter().chain(&signed).map(u32::to_string).collect();
    let definition = format!("\nwidth_of k = get_or (0 ∷ 0 ∷ {} ∷ []) k 0\n", by_kind.join(" ∷ "));
    assert!(INTEGER.contains(&definition), "{definition}");
}

/// binary16 has no type in stable Rust: its two numbers are held to its width and its largest number by `FormatLaws`.
#[test]
fn the_formats_are_those_of_rusts_floats() {
    let floats = [("binary32", f32::MANTISSA_DIGITS, f32::MAX_EXP), ("binary64", f64::MANTISSA_DIGITS, f64::MAX_EXP)];
    for (name, digits, past_most) in floats {
        let definition = format!("\n{name} = format {digits} {}\n", past_most - 1);
        assert!(FORMAT.contains(&definition), "{definition}");
    }
}

#[test]
#[cfg_attr(not(polars_src), ignore = "no text of polars-core 0.55.2")]
fn the_names_of_the_units_are_the_crates() {
    for (number, unit) in (0..).zip(["Nanoseconds", "Microseconds", "Milliseconds"]) {
        let letters: Vec<String> = oracle::to_ascii(number).bytes().map(|letter| letter.to_string()).collect();
        let definition = format!("\nto_ascii {unit} = {} ∷ []\n", letters.join(" ∷ "));
        assert!(TIME_UNIT.contains(&definition), "{definition}");
    }
}
