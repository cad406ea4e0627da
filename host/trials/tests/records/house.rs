//! How the Rattle crates are written: the width of lines, names with one meaning each, comments that stand alone, functions
//! of a size that can be read, and C entry points without logic.

use crate::{entries, read, ROOT};
use std::collections::HashMap;
use std::path::{Path, PathBuf};

/// The files of one folder of every crate.
fn in_crates(folder: &str) -> Vec<PathBuf> {
    let folders = entries("crates").into_iter().map(|path| path.join(folder)).filter(|path| path.is_dir());
    folders.flat_map(entries).collect()
}

/// Their lines, each with its file and number.
fn lines(files: Vec<PathBuf>) -> Vec<(String, String)> {
    let numbered = |file: PathBuf| {
        let name = file.strip_prefix(ROOT).unwrap_or(&file).display().to_string();
        let lines: Vec<String> = read(&file).lines().map(String::from).collect();
        lines.into_iter().enumerate().map(move |(at, line)| (format!("{name}:{}", at + 1), line)).collect::<Vec<_>>()
    };
    files.into_iter().flat_map(numbered).collect()
}

fn code_and_definitions() -> Vec<(String, String)> {
    lines([in_crates("src"), in_crates("specs")].concat())
}

#[test]
fn code_and_definitions_are_at_most_120_columns_wide() {
    let wide: Vec<String> = code_and_definitions()
        .into_iter()
        .filter(|(_, line)| line.chars().count() > 120)
        .map(|(place, _)| place)
        .collect();
    assert!(wide.is_empty(), "{wide:?}");
}

/// A comment says what its own item is: it doesn't lean on the one above it.
#[test]
fn comments_stand_alone() {
    let leaning = |line: &str| {
        let text = line.trim_start();
        let comment = text.starts_with("//") || text.starts_with("--");
        comment && ["so too", "So too", "likewise", "Likewise"].iter().any(|words| text.contains(words))
    };
    let found: Vec<String> =
        code_and_definitions().into_iter().filter(|(_, line)| leaning(line)).map(|(place, _)| place).collect();
    assert!(found.is_empty(), "{found:?}");
}

/// The name that a line of `specs/` declares for others: a definition, a record or data, at the margin.
fn definition(line: &str) -> Option<&str> {
    let forms = ["abbrev pub ", "unfoldable pub ", "pub record ", "pub data "];
    let rest = forms.iter().find_map(|form| line.strip_prefix(form))?;
    rest.split_whitespace().next()
}

/// The type that a line of `src/` declares.
fn declared_type(line: &str) -> Option<&str> {
    let line = line.strip_prefix("pub ").unwrap_or(line);
    let rest = ["enum ", "struct "].iter().find_map(|form| line.strip_prefix(form))?;
    rest.split(|c: char| !c.is_alphanumeric()).next()
}

#[test]
fn a_name_has_one_meaning() {
    let mut places: HashMap<String, Vec<String>> = HashMap::new();
    for (place, line) in code_and_definitions() {
        let name = if place.contains("/specs/") { definition(&line) } else { declared_type(&line) };
        if let Some(name) = name {
            places.entry(name.to_string()).or_default().push(place);
        }
    }
    assert!(places.len() > 200, "definitions and types were found");
    let twice: Vec<_> = places.iter().filter(|(_, found)| found.len() > 1).collect();
    assert!(twice.is_empty(), "{twice:?}");
}

/// The number of lines of each function's body.
fn bodies(text: &str) -> Vec<(String, usize)> {
    let lines: Vec<&str> = text.lines().collect();
    let mut found = Vec::new();
    for (at, line) in lines.iter().enumerate() {
        let margin = line.len() - line.trim_start().len();
        let (open, close) = (format!("{}{{", &line[..margin]), format!("{}}}", &line[..margin]));
        let declares = ["fn ", "pub fn ", "pub extern \"C\" fn "].iter().any(|form| line[margin..].starts_with(form));
        if declares {
            let start = lines[at..].iter().position(|line| *line == open);
            let end = lines[at..].iter().position(|line| *line == close);
            if let (Some(start), Some(end)) = (start, end) {
                found.push((line.trim().to_string(), end.saturating_sub(start + 1)));
            }
        }
    }
    found
}

#[test]
fn functions_are_at_most_40_lines_long() {
    let found: Vec<_> = in_crates("src").iter().flat_map(|file| bodies(&read(file))).collect();
    assert!(found.len() > 200, "functions were found");
    let long: Vec<_> = found.iter().filter(|(_, lines)| *lines > 40).collect();
    assert!(long.is_empty(), "{long:?}");
}

/// A C entry point calls a function and gives its answer as two numbers: it decides nothing.
#[test]
fn the_c_entry_points_hold_no_logic() {
    for file in entries(Path::new("crates/capi/src")) {
        let text = read(&file);
        let words = text.lines().filter(|line| !line.trim_start().starts_with("//")).flat_map(str::split_whitespace);
        let branch = words.filter(|word| ["if", "match", "while", "loop", "for"].contains(word)).count();
        assert_eq!(branch, 0, "{}", file.display());
    }
}
