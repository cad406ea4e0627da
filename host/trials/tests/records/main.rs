//! What is written in README.md and docs/ beside the sources: the list of entry points, the names of definitions, laws and
//! tests, and the width of lines; and how the Rattle crates are written.

mod entry_points;
mod house;
mod names;

use std::fs;
use std::path::{Path, PathBuf};

const ROOT: &str = concat!(env!("CARGO_MANIFEST_DIR"), "/../..");

fn read(file: &Path) -> String {
    fs::read_to_string(file).unwrap_or_else(|error| panic!("{}: {error}", file.display()))
}

/// What a folder of the repository holds, in order.
fn entries(folder: impl AsRef<Path>) -> Vec<PathBuf> {
    let folder = Path::new(ROOT).join(folder);
    let mut paths: Vec<PathBuf> = fs::read_dir(&folder)
        .unwrap_or_else(|error| panic!("{}: {error}", folder.display()))
        .map(|entry| entry.expect("an entry of a folder").path())
        .collect();
    paths.sort();
    paths
}

/// The files in a folder and below it.
fn files(folder: impl AsRef<Path>) -> Vec<PathBuf> {
    let (folders, mut files): (Vec<_>, Vec<_>) = entries(folder).into_iter().partition(|path| path.is_dir());
    files.extend(folders.iter().flat_map(self::files));
    files
}

/// Tables aside.
#[test]
fn prose_is_at_most_120_columns_wide() {
    let at_top = ["README.md", "NOTICE"].map(|name| Path::new(ROOT).join(name));
    for file in at_top.into_iter().chain(files("docs")) {
        let text = read(&file);
        let wide = text.lines().find(|line| !line.starts_with('|') && line.chars().count() > 120);
        assert_eq!(wide, None, "{}", file.display());
    }
}
