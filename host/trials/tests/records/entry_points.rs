//! docs/ENTRY_POINTS.md and the sources: every function that a caller may use stands there once, and nothing else does.

use crate::{entries, read, ROOT};
use std::path::{Path, PathBuf};

const PAGE: &str = include_str!("../../../../docs/ENTRY_POINTS.md");

/// A public function by its path, and whether its contract asks something of the caller.
struct Function {
    path: String,
    asks: bool,
}

/// The names in the first column of a part's tables. Those of functions have brackets after them.
fn listed(part: &str) -> Vec<String> {
    let text = PAGE.split("\n## ").find(|text| text.starts_with(part)).expect("a part of the page");
    text.lines()
        .filter_map(|line| line.strip_prefix("| `")?.split('`').next())
        .map(|name| name.trim_end_matches("()").to_string())
        .collect()
}

/// Fails with the names that only one of two lists has, and with those that the page has twice.
fn compare(mut page: Vec<String>, mut sources: Vec<String>) {
    page.sort();
    sources.sort();
    let missing: Vec<_> = sources.iter().filter(|name| !page.contains(name)).collect();
    let unknown: Vec<_> = page.iter().filter(|name| !sources.contains(name)).collect();
    let twice: Vec<_> = page.windows(2).filter(|pair| pair[0] == pair[1]).map(|pair| &pair[0]).collect();
    assert!(page == sources, "missing: {missing:?}; not in the sources: {unknown:?}; twice: {twice:?}");
    assert!(!page.is_empty());
}

/// The word that a text starts with.
fn word(text: &str) -> &str {
    text.split(|c: char| !(c.is_alphanumeric() || c == '_' || c == '$')).next().unwrap_or_default()
}

/// The name that a line declares by one of these.
fn declared<'a>(line: &'a str, forms: &[&str]) -> Option<&'a str> {
    forms.iter().find_map(|form| line.trim_start().strip_prefix(form)).map(word)
}

/// The type that an `impl` is of, whatever its parameters.
fn implemented(line: &str) -> Option<&str> {
    let rest = line.strip_prefix("impl")?;
    let named = if rest.starts_with('<') { rest.split_once("> ")?.1 } else { rest.strip_prefix(' ')? };
    Some(word(named))
}

/// The public functions that a module's own text declares.
fn own_functions(text: &str, path: &str) -> Vec<Function> {
    let lines: Vec<&str> = text.lines().collect();
    let mut owner = path.to_string();
    let mut functions = Vec::new();
    for (at, line) in lines.iter().enumerate() {
        if let Some(name) = implemented(line) {
            owner = format!("{path}::{name}");
        } else if *line == "}" {
            owner = path.to_string();
        } else if let Some(name) = declared(line, &["pub fn ", "pub const fn "]) {
            let asks = lines[at..].iter().take_while(|line| line.trim() != "{").any(|line| asks(line));
            functions.push(Function { path: format!("{owner}::{name}"), asks });
        }
    }
    functions
}

fn asks(line: &str) -> bool {
    line.trim_start().starts_with("requires")
}

/// The public functions of a module, of its public modules, and of the types that it passes on from private ones.
fn functions(file: &Path, path: &str) -> Vec<Function> {
    let text = read(file);
    let mut found = own_functions(&text, path);
    let beside = |module: &str| file.with_file_name(module).with_extension(file.extension().expect("an extension"));
    for line in text.lines() {
        if let Some(module) = declared(line, &["pub mod "]) {
            found.extend(functions(&beside(module), &format!("{path}::{module}")));
        } else if let Some(module) = declared(line, &["pub use "]) {
            found.extend(functions(&beside(module), path));
        }
    }
    found
}

/// The public functions of every Rattle library but the one that exports to C.
fn rattle() -> Vec<Function> {
    let roots = entries("crates").into_iter().filter(|path| !path.ends_with("capi"));
    roots
        .map(|path| (path.join("src/lib.rt"), path))
        .filter(|(lib, _)| lib.exists())
        .flat_map(|(lib, path)| functions(&lib, &path.file_name().expect("a name").to_string_lossy()))
        .collect()
}

/// The lines of a macro call that are one word: the names it makes functions of.
fn made(text: &str, call: &str) -> Vec<String> {
    let block = text.split(call).nth(1).and_then(|rest| rest.split("\n}").next()).expect("the call");
    block.lines().map(str::trim).filter(|line| !line.is_empty() && word(line) == *line).map(String::from).collect()
}

/// The functions of the safe crate; in place of the macro's `$name` those that it makes.
fn rust() -> Vec<String> {
    let src = PathBuf::from(format!("{ROOT}/host/lomzegash/src"));
    let predicates = made(&read(&src.join("dtype.rs")), "\npredicates! {");
    let paths = functions(&src.join("lib.rs"), "lomzegash").into_iter().map(|function| function.path);
    let (made, plain): (Vec<String>, Vec<String>) = paths.partition(|path| path.ends_with("$name"));
    let expanded = made.iter().flat_map(|path| predicates.iter().map(|name| path.replace("$name", name)));
    plain.into_iter().chain(expanded).collect()
}

/// The names that lines of these files declare by a form.
fn names(files: &[PathBuf], form: &str) -> Vec<String> {
    let texts: Vec<String> = files.iter().map(|file| read(file)).collect();
    texts.iter().flat_map(|text| text.lines()).filter_map(|line| declared(line, &[form])).map(String::from).collect()
}

/// The functions that the C header declares: a type, a name, a bracket.
fn header() -> Vec<String> {
    let text = read(&PathBuf::from(format!("{ROOT}/include/lomzegash.h")));
    let declarations = text.lines().filter(|line| line.starts_with("lz_") && line.contains('('));
    declarations.filter_map(|line| line.split_once(' ')).map(|(_, rest)| word(rest).to_string()).collect()
}

#[test]
fn the_symbols_of_c_are_the_exports() {
    compare(listed("From C"), names(&entries("crates/capi/src"), "pub extern \"C\" fn "));
}

#[test]
fn the_symbols_of_c_are_the_headers() {
    compare(listed("From C"), header());
}

#[test]
fn the_functions_of_rust_are_the_crates() {
    compare(listed("From Rust"), rust());
}

#[test]
fn the_functions_of_rattle_are_the_crates() {
    let page = [listed("From Rattle"), listed("Public functions that are no entry points")].concat();
    compare(page, rattle().into_iter().map(|function| function.path).collect());
}

#[test]
fn no_entry_point_asks_anything() {
    let page = listed("From Rattle");
    let asking: Vec<String> = rattle().into_iter().filter(|function| function.asks).map(|f| f.path).collect();
    assert!(!asking.is_empty());
    let entries: Vec<_> = asking.iter().filter(|path| page.contains(path)).collect();
    assert!(entries.is_empty(), "they have a `requires`: {entries:?}");
}
