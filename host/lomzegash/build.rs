//! Links the archive of the proved C entry points.
//!
//! LOMZEGASH_ARCHIVE, where set, is the archive's absolute path. Otherwise the archive is proved and built here, by
//! `rt lib` in crates/capi.

use std::path::{Path, PathBuf};
use std::process::{exit, Command};
use std::{env, fs};

const VARIABLE: &str = "LOMZEGASH_ARCHIVE";
const ROOT: &str = "../..";

fn main() {
    println!("cargo::rerun-if-env-changed={VARIABLE}");
    if let Err(message) = archive().and_then(|path| link(&path)) {
        eprintln!("{message}");
        exit(1);
    }
}

/// The archive's path, from the environment or just built.
fn archive() -> Result<PathBuf, String> {
    match env::var_os(VARIABLE).filter(|path| !path.is_empty()) {
        Some(path) => {
            let path = PathBuf::from(path);
            println!("cargo::rerun-if-changed={}", path.display());
            Ok(path)
        }
        None => build(),
    }
}

/// Proves and builds the archive from the repository's Rattle crates.
fn build() -> Result<PathBuf, String> {
    for source in sources()? {
        println!("cargo::rerun-if-changed={}", source.display());
    }
    let folder = Path::new(ROOT).join("crates/capi");
    let run = Command::new("rt")
        .arg("lib")
        .current_dir(&folder)
        .output()
        .map_err(|error| format!("cannot run `rt`, which builds the archive (or set {VARIABLE}): {error}"))?;
    if !run.status.success() {
        let said = [run.stdout, run.stderr].concat();
        let said = String::from_utf8_lossy(&said);
        return Err(format!("`rt lib` in crates/capi failed, {}:\n{said}", run.status));
    }
    Ok(folder.join("out/libcapi.a"))
}

/// What the archive is made of: of each crate all but its out/, which rt writes.
fn sources() -> Result<Vec<PathBuf>, String> {
    let crates = Path::new(ROOT).join("crates");
    let folders = fs::read_dir(&crates).map_err(|error| format!("cannot read {}: {error}", crates.display()))?;
    let parts = folders.flatten().flat_map(|folder| ["src", "specs", "proofs"].map(|part| folder.path().join(part)));
    let mut sources: Vec<_> = parts.filter(|part| part.is_dir()).collect();
    sources.push(Path::new(ROOT).join("crates.txt"));
    Ok(sources)
}

/// Copies the archive to this build's own folder, where it stays when rt makes another, and has it linked.
fn link(archive: &Path) -> Result<(), String> {
    let folder = env::var("OUT_DIR").map_err(|error| format!("OUT_DIR: {error}"))?;
    fs::read(archive)
        .and_then(|bytes| fs::write(Path::new(&folder).join("libcapi.a"), bytes))
        .map_err(|error| format!("cannot copy the archive {} to {folder}: {error}", archive.display()))?;
    println!("cargo::rustc-link-search=native={folder}");
    println!("cargo::rustc-link-lib=static=capi");
    Ok(())
}
