//! Finds the crate's text, checks it and hands it to the compiler, with the features that document 01 asks for.
//!
//! Sets the cfg `polars_src` where there is a text, and tells the build scripts of the crates that use the oracle
//! (`build/dependent.rs`). Nothing is written but OUT_DIR.

#[path = "build/sources.rs"]
mod sources;

use sources::{Folder, Source, INNER_FLAGS, SOURCES, VARIABLE};
use std::path::Path;
use std::process::exit;
use std::{env, fs};

/// The features of the crate that are on: those of the types that document 01 uses.
const ON: [&str; 14] = [
    "dtype-array",
    "dtype-date",
    "dtype-datetime",
    "dtype-decimal",
    "dtype-duration",
    "dtype-f16",
    "dtype-i128",
    "dtype-i16",
    "dtype-i8",
    "dtype-struct",
    "dtype-time",
    "dtype-u128",
    "dtype-u16",
    "dtype-u8",
];

/// The other features that the text asks about. They are off.
const OFF: [&str; 9] = [
    "bigidx",
    "dsl-schema",
    "dtype-categorical",
    "dtype-extension",
    "object",
    "rows",
    "serde",
    "serde-lazy",
    "timezones",
];

fn main() {
    println!("cargo::rerun-if-changed=build.rs");
    println!("cargo::rerun-if-changed=build/sources.rs");
    println!("cargo::rerun-if-env-changed={VARIABLE}");
    println!("cargo::rustc-check-cfg=cfg(polars_src)");
    if let Err(message) = Folder::locate(env::var_os(VARIABLE)).and_then(compile) {
        eprintln!("{message}");
        exit(1);
    }
}

fn compile(folder: Option<Folder>) -> Result<(), String> {
    let Some(folder) = folder else {
        // It isn't there, so that cargo runs this script every time, and the text is seen when it comes.
        println!("cargo::rerun-if-changed={}", sources::DEFAULT);
        return Ok(());
    };
    for source in &SOURCES {
        write_out(source, &folder)?;
    }
    set_features();
    println!("cargo::rustc-cfg=polars_src");
    println!("cargo::metadata=FOUND=1");
    Ok(())
}

/// Writes a checked text to OUT_DIR, where the library includes it, and beside it the edited one of supertype.rs.
fn write_out(source: &Source, folder: &Folder) -> Result<(), String> {
    let path = folder.find(source.path)?;
    println!("cargo::rerun-if-changed={}", path.display());
    let text = source.read(&path)?;
    if source.name == INNER_FLAGS.source {
        write(INNER_FLAGS.name, &INNER_FLAGS.of(&text)?)?;
    }
    write(source.name, &text)
}

fn write(name: &str, text: &str) -> Result<(), String> {
    let out = env::var("OUT_DIR").map_err(|error| format!("OUT_DIR: {error}"))?;
    fs::write(Path::new(&out).join(name), text).map_err(|error| format!("cannot write {name} to {out}: {error}"))
}

fn set_features() {
    for feature in ON {
        println!("cargo::rustc-cfg=feature=\"{feature}\"");
    }
    for feature in ON.iter().chain(&OFF) {
        println!("cargo::rustc-check-cfg=cfg(feature, values(\"{feature}\"))");
    }
}
