//! `lomzegash [HEX...]`: what each encoded type says, or why it is refused; without arguments, what becomes of probe
//! numbers where Int32 and UInt64 are joined, of readings where Decimals and integers are, a season of columns merged
//! into channels, and a few worked types.

#![forbid(unsafe_code)]

mod hex;
mod join;
mod readings;
mod render;
mod season;
mod worked;

use std::env;
use std::process::ExitCode;

fn main() -> ExitCode {
    let texts: Vec<String> = env::args().skip(1).collect();
    if texts.is_empty() {
        join::show();
        readings::show();
        season::show();
        println!("Encoded types:");
        worked::show();
        return ExitCode::SUCCESS;
    }
    for text in &texts {
        match hex::bytes(text) {
            Some(encoded) => println!("{}", answer(&encoded)),
            None => {
                eprintln!("not hexadecimal bytes: {text}");
                return ExitCode::from(2);
            }
        }
    }
    ExitCode::SUCCESS
}

/// The type as text, or the refusal's number and cause.
fn answer(encoded: &[u8]) -> String {
    match lomzegash::decode_to_vec(encoded) {
        Ok((kinds, args)) => render::text(&kinds, &args),
        Err(error) => format!("refused by {}: {error}", error.number()),
    }
}
