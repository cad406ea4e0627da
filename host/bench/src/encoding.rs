//! Checking, decoding and encoding, beside the plain Rust.

use crate::rows::{Call, BYTES, FLAT, PLAIN};
use crate::timing::{best, Times};
use std::hint::black_box;
use trials::flat::Flat;

/// Every timed call.
pub const CALLS: [Call; 3] = [
    Call { name: "check", form: BYTES, beside: PLAIN, time: check },
    Call { name: "decode", form: BYTES, beside: PLAIN, time: decode },
    Call { name: "encode", form: FLAT, beside: PLAIN, time: encode },
];

fn check(flat: &Flat) -> Times {
    let encoded = &flat.laid_out();
    best(|| lomzegash::check(black_box(encoded)).is_ok(), || plain::check_encoded(black_box(encoded)).is_ok())
}

fn decode(flat: &Flat) -> Times {
    let encoded = &flat.laid_out();
    let [mut to, mut other] = [flat.clone(), flat.clone()];
    best(
        || lomzegash::decode(black_box(encoded), black_box(&mut to.kinds), black_box(&mut to.args)).is_ok(),
        || plain::decode(black_box(encoded), black_box(&mut other.kinds), black_box(&mut other.args)).is_ok(),
    )
}

fn encode(flat: &Flat) -> Times {
    let Flat { kinds, args } = flat;
    let [mut out, mut other] = [flat.laid_out(), flat.laid_out()];
    best(
        || lomzegash::encode(black_box(kinds), black_box(args), black_box(&mut out)).is_ok(),
        || plain::encode(black_box(kinds), black_box(args), black_box(&mut other)).is_ok(),
    )
}
