//! Types come and go unchanged, and every corner of document 01 is what the crate's text answers, and so are change
//! request Two's rows and request Three's sentences; and host/plain reads the nested arms as it does.

mod dtype;
mod nested;
mod round_trip;
mod second_reading;
mod supertype;
mod types;
