//! Inputs of the differential runs.

use crate::flat::Flat;
use lomzegash::kind::UNKNOWN_ANY;
use oracle::Type;
use plain::sheet;
use std::thread;

/// Bytes for the port, and for the oracle what they are.
pub struct Input {
    /// An encoded type, or not.
    pub bytes: Vec<u8>,
    /// The crate's type, or the number from 1 to 5 that document 01 gives the bytes.
    pub dtype: Result<Type, u64>,
}

impl Input {
    /// Reads the bytes; the plain Rust says whether they are a type.
    pub fn new(bytes: Vec<u8>) -> Input {
        let dtype = plain::check_encoded(&bytes).map(|()| Type::decode(&bytes)).map_err(|refusal| refusal as u64);
        if let Ok(dtype) = &dtype {
            assert!(dtype.encode() == bytes, "the oracle reads {} as another type", hex(&bytes));
        }
        Input { bytes, dtype }
    }

    /// The kinds and the arguments; None where the length isn't that of a number of nodes.
    pub fn nodes(&self) -> Option<Flat> {
        sheet::split(&self.bytes).is_some().then(|| Flat::read(&self.bytes))
    }

    /// The kind of the first node of a type.
    pub(crate) fn root(&self) -> u8 {
        self.kinds()[0]
    }

    /// Whether the unknown type `any` is a part of the type.
    pub fn has_any(&self) -> bool {
        self.dtype.is_ok() && self.kinds().contains(&UNKNOWN_ANY)
    }

    /// The kinds of a type.
    fn kinds(&self) -> &[u8] {
        sheet::split(&self.bytes).expect("a type has the length of its number of nodes").0
    }
}

impl From<&Flat> for Input {
    fn from(flat: &Flat) -> Input {
        Input::new(flat.laid_out())
    }
}

/// The crate's types of two inputs, or the number from 1 to 5 of the left or else of the right.
pub(crate) fn types<'a>(left: &'a Input, right: &'a Input) -> Result<(&'a Type, &'a Type), u64> {
    match (&left.dtype, &right.dtype) {
        (Ok(left), Ok(right)) => Ok((left, right)),
        (Err(number), _) | (_, Err(number)) => Err(*number),
    }
}

/// The bytes as hexadecimal text.
pub fn hex(bytes: &[u8]) -> String {
    bytes.iter().map(|byte| format!("{byte:02X}")).collect()
}

/// Shows the inputs of a comparison where a panic ends it, also one inside the port's safe crate.
pub(crate) struct Shown<'a>(pub(crate) &'a [&'a Input]);

impl Drop for Shown<'_> {
    fn drop(&mut self) {
        if thread::panicking() {
            for (input, which) in self.0.iter().zip(["first", "second"]) {
                eprintln!("{which} input: {}", hex(&input.bytes));
            }
        }
    }
}
