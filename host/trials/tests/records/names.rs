//! The definitions, laws, functions, tests, mistakes and files that README.md and docs/ name, and those that they must.

use crate::{entries, files, read, ROOT};
use std::collections::HashSet;
use std::path::Path;

/// The names in a text: letters, digits, `_` and `-`.
fn names(text: &str) -> impl Iterator<Item = &str> {
    text.split(|c: char| !(c.is_alphanumeric() || c == '_' || c == '-')).filter(|name| !name.is_empty())
}

/// Every name in the Rattle crates and in the host's, those of files among them.
fn known() -> HashSet<String> {
    let parts = ["src", "specs", "proofs", "must-fail"];
    let crates = entries("crates").into_iter().flat_map(|path| parts.map(|part| path.join(part)));
    let hosts = entries("host").into_iter().flat_map(|path| ["src", "tests"].map(|part| path.join(part)));
    let folders = crates.chain(hosts).filter(|folder| folder.is_dir());
    let texts = folders.flat_map(|folder| files(&folder)).map(|file| format!("{} {}", file.display(), read(&file)));
    texts.flat_map(|text| names(&text).map(String::from).collect::<Vec<_>>()).collect()
}

/// What stands in backquotes.
fn quoted(text: &str) -> impl Iterator<Item = &str> {
    text.split('`').skip(1).step_by(2)
}

/// The rows of a page's tables, without their first column.
fn cells(page: &str) -> String {
    let rows = page.lines().filter_map(|line| line.strip_prefix("| ")?.split_once(" | "));
    rows.map(|(_, rest)| rest).collect::<Vec<_>>().join("\n")
}

/// Whether a file stands at a path from the root, from crates/ or from one of the crates.
fn stands(path: &str) -> bool {
    let root = Path::new(ROOT);
    let folders = [root.to_path_buf(), root.join("crates")].into_iter().chain(entries("crates"));
    folders.into_iter().any(|folder| folder.join(path).exists())
}

/// The words of a text, headings aside, that are a path to a file.
fn paths(text: &str) -> impl Iterator<Item = &str> {
    let lines = text.lines().filter(|line| !line.starts_with('#'));
    let words = lines.flat_map(|line| line.split(|c: char| c.is_whitespace() || "`(),;:|".contains(c)));
    words.filter(|word| word.contains('/') && [".antt", ".rt", ".rs", ".md"].iter().any(|end| word.ends_with(end)))
}

#[test]
fn the_names_are_in_the_sources() {
    let known = known();
    for page in ["docs/PORT-OTHER.md", "docs/ENTRY_POINTS.md"] {
        let cells = cells(&read(&Path::new(ROOT).join(page)));
        let quoted = quoted(&cells).filter(|text| !text.contains('/')).flat_map(names);
        let unknown: Vec<&str> = quoted.filter(|name| !known.contains(*name)).collect();
        assert!(unknown.is_empty(), "{page}: {unknown:?}");
    }
}

/// The names that files of `specs/` declare for others.
fn declared() -> HashSet<String> {
    let folders = entries("crates").into_iter().map(|path| path.join("specs")).filter(|path| path.is_dir());
    let text: String = folders.flat_map(entries).map(|file| read(&file)).collect();
    let declarations = text.lines().filter_map(|line| line.split_once("pub ")).map(|(_, rest)| rest);
    let named = declarations.map(|rest| rest.trim_start_matches("record ").trim_start_matches("data "));
    named.filter_map(|rest| names(rest).next()).map(String::from).collect()
}

#[test]
fn the_definitions_of_the_entry_points_are_in_specs() {
    let page = read(&Path::new(ROOT).join("docs/ENTRY_POINTS.md"));
    let column = page.lines().filter(|line| line.starts_with("| `")).filter_map(|line| line.split(" | ").nth(3));
    let declared = declared();
    let unknown: Vec<&str> = column.flat_map(quoted).flat_map(names).filter(|name| !declared.contains(*name)).collect();
    assert!(unknown.is_empty(), "{unknown:?}");
}

/// The notes aside, which name the files of their own day.
#[test]
fn the_files_are_there() {
    let pages = entries("docs").into_iter().filter(|path| path.is_file());
    for page in pages.chain([Path::new(ROOT).join("README.md")]) {
        let text = read(&page);
        let absent: Vec<&str> = paths(&text).filter(|path| !stands(path)).collect();
        assert!(absent.is_empty(), "{}: {absent:?}", page.display());
    }
}

/// The mistakes that an edit makes: each by a comment of one word, or the one by the edit's name.
fn mistakes(edit: &Path) -> Vec<String> {
    let text = read(edit);
    let words = text.lines().filter_map(|line| line.strip_prefix("# ")).filter(|line| names(line).eq([*line]));
    let named: Vec<String> = words.map(String::from).collect();
    let label = edit.file_stem().expect("a name").to_string_lossy().into_owned();
    if named.is_empty() {
        vec![label]
    } else {
        named
    }
}

/// The mistakes in the last column of the table of wrong functions; where two crates make one of a name, it says which.
fn listed_mistakes() -> HashSet<String> {
    let page = read(&Path::new(ROOT).join("docs/WRONG_FUNCTIONS.md"));
    let last = page.lines().filter_map(|line| line.strip_suffix(" |")?.rsplit(" | ").next());
    last.flat_map(quoted).filter(|name| !name.contains('/')).map(String::from).collect()
}

#[test]
fn the_mistakes_are_those_of_the_table() {
    let folders = entries("crates").into_iter().map(|path| path.join("must-fail")).filter(|path| path.is_dir());
    let made: HashSet<String> = folders.flat_map(entries).flat_map(|edit| mistakes(&edit)).collect();
    let listed = listed_mistakes();
    let (missing, unknown): (Vec<_>, Vec<_>) = (made.difference(&listed).collect(), listed.difference(&made).collect());
    assert!(made == listed, "missing: {missing:?}; not made: {unknown:?}");
}

/// Each file in a row that names its crate.
#[test]
fn readme_lists_every_file_of_specs() {
    let readme = read(&Path::new(ROOT).join("README.md"));
    for folder in entries("crates").into_iter().map(|path| path.join("specs")).filter(|path| path.is_dir()) {
        let path = folder.strip_prefix(ROOT).expect("under the root").to_string_lossy().into_owned();
        let rows: Vec<&str> = readme.lines().filter(|line| line.starts_with('|') && line.contains(&path)).collect();
        for file in entries(&folder).iter().filter(|file| !file.ends_with("Lib.antt")) {
            let name = file.file_name().expect("a name").to_string_lossy().into_owned();
            assert!(rows.iter().any(|row| row.contains(&*name)), "{path}/{name}");
        }
    }
}
