//! The build takes the crate's text and no other.

#[path = "../build/sources.rs"]
mod sources;

use sources::{hash, Cut, Edit, Folder, Source, DEFAULT, INNER_FLAGS, SOURCES, VARIABLE};
use std::path::{Path, PathBuf};
use std::{env, fs};

/// The folder that is named or the default one, if there is one.
fn located() -> Option<Folder> {
    Folder::locate(env::var_os(VARIABLE)).expect("the oracle was built from it")
}

/// The folder from which the oracle was built.
fn folder() -> Folder {
    located().expect("there is a text")
}

/// Each source with its file's text.
fn texts(folder: &Folder) -> Vec<(&'static Source, String)> {
    let read = |source: &Source| fs::read_to_string(folder.find(source.path).unwrap()).unwrap();
    SOURCES.iter().map(|source| (source, read(source))).collect()
}

/// The places of a source's own bytes in its file.
fn extent(source: &Source, file: &str) -> (usize, usize) {
    let Some(cut) = &source.cut else { return (0, file.len()) };
    let start_of = |line: usize| file.split_inclusive('\n').take(line - 1).map(str::len).sum();
    (start_of(*cut.lines.start()), start_of(cut.lines.end() + 1))
}

#[test]
#[cfg_attr(not(polars_src), ignore = "no text of polars-core 0.55.2")]
fn the_text_is_taken_as_it_is() {
    let folder = folder();
    for (source, file) in texts(&folder) {
        let (start, end) = extent(source, &file);
        let close = source.cut.as_ref().map_or("", |cut| cut.close);
        let expected = file[start..end].to_owned() + close;
        assert_eq!(source.check(&file).as_ref(), Ok(&expected));
        assert_eq!(
            source.check(&file.replace('\n', "\r\n")),
            Ok(expected),
            "{} with the line ends of Windows",
            source.name
        );
    }
}

#[test]
#[cfg_attr(not(polars_src), ignore = "no text of polars-core 0.55.2")]
fn an_edited_text_is_refused() {
    let folder = folder();
    for (source, file) in texts(&folder) {
        let (start, end) = extent(source, &file);
        // The last byte ends the last line; so might the end of the file.
        let places = (start..end - 1).step_by(997).chain([end - 2]);
        for at in places.filter(|&at| file.is_char_boundary(at)) {
            let (before, after) = file.split_at(at);
            let next = after.chars().next().unwrap();
            let other = if next == 'x' { 'y' } else { 'x' };
            let rest = &after[next.len_utf8()..];
            for edited in
                [format!("{before}{rest}"), format!("{before}{other}{rest}"), format!("{before}{other}{after}")]
            {
                assert!(source.check(&edited).is_err(), "{} edited at byte {at}", source.name);
            }
        }
        assert!(source.check("").is_err());
    }
}

#[test]
#[cfg_attr(not(polars_src), ignore = "no text of polars-core 0.55.2")]
fn an_edit_is_named_with_its_file() {
    let folder = folder();
    let path = Path::new(env!("CARGO_TARGET_TMPDIR")).join("edited.rs");
    for (source, file) in texts(&folder) {
        fs::write(&path, file.to_uppercase()).unwrap();
        let error = source.read(&path).unwrap_err();
        assert!(error.starts_with(path.to_str().unwrap()), "{error}");
    }
}

#[test]
#[cfg_attr(not(polars_src), ignore = "no text of polars-core 0.55.2")]
fn the_published_layout_is_found() {
    let folder = folder();
    let published = Folder(PathBuf::from(env!("CARGO_TARGET_TMPDIR")).join("polars-core"));
    for (source, file) in texts(&folder) {
        let path = published.0.join(source.path);
        fs::create_dir_all(path.parent().unwrap()).unwrap();
        fs::write(&path, &file).unwrap();
        assert_eq!(published.find(source.path), Ok(path.clone()));
        assert!(source.read(&path).is_ok());
    }
}

/// Of the texts that the library includes: all bytes before and behind the body of the flags' default are the crate's.
#[test]
#[cfg_attr(not(polars_src), ignore = "no text of polars-core 0.55.2")]
fn the_text_with_inner_flags_differs_in_one_line() {
    let included = |name: &str| fs::read_to_string(Path::new(env!("OUT_DIR")).join(name)).unwrap();
    let (source, file) = texts(&folder()).into_iter().find(|(source, _)| source.name == INNER_FLAGS.source).unwrap();
    let text = included(source.name);
    assert_eq!(source.check(&file).as_ref(), Ok(&text));
    let (before, after) = text.split_once(INNER_FLAGS.line).unwrap();
    assert!(before.ends_with("impl Default for SuperTypeFlags {\n    fn default() -> Self {\n"));
    assert!(after.starts_with("\n    }\n}\n"));
    assert!(!INNER_FLAGS.other.contains('\n'));
    assert_eq!(included(INNER_FLAGS.name), format!("{before}{}{after}", INNER_FLAGS.other));
}

#[test]
fn an_edit_is_of_a_line_that_stands_there_once() {
    let edit = Edit { source: "text.rs", name: "edited.rs", line: "  two", other: "2" };
    assert_eq!(edit.of("one\n  two\nthree\n"), Ok("one\n2\nthree\n".to_owned()));
    for (text, times) in [("one\n", 0), ("two\n", 0), ("  two, three\n", 0), ("  two\n  two\n", 2)] {
        assert_eq!(edit.of(text), Err(format!("text.rs has the line \"  two\" {times} times and not once")));
    }
}

#[test]
fn there_is_an_oracle_where_there_is_a_text() {
    assert_eq!(oracle::AVAILABLE, located().is_some());
}

#[test]
fn a_named_folder_must_be_there() {
    let located = |path: &str| Folder::locate(Some(path.into()));
    assert!(located("/no/such/folder").is_err_and(|error| error.contains(VARIABLE)));
    assert!(located("src").is_err_and(|error| error.contains("absolute")));
    let default = Path::new(DEFAULT).is_dir();
    assert_eq!(located("").map(|folder| folder.is_some()), Ok(default));
    let Ok(Some(wrong)) = located(env!("CARGO_MANIFEST_DIR")) else { panic!("this folder is there") };
    assert!(wrong.find("src/datatypes/dtype.rs").is_err_and(|error| error.contains("src/datatypes/dtype.rs")));
}

#[test]
fn a_cut_is_the_lines_between_its_first_and_its_last() {
    let source = |lines, text| Source {
        path: "",
        name: "cut.rs",
        cut: Some(Cut { lines, first: "two", last: "three", close: "}\n" }),
        hash: hash(text),
    };
    let expected = "two\nthree\n}\n";
    assert_eq!(source(2..=3, expected).check("one\ntwo\nthree\nfour\n"), Ok(expected.to_owned()));
    assert_eq!(source(2..=3, expected).check("two\nthree\nfour\n"), Err("line 2 is not \"two\"".to_owned()));
    assert_eq!(source(2..=3, expected).check("one\ntwo\n"), Err("line 3 is not \"three\"".to_owned()));
    assert!(source(2..=4, expected).check("one\ntwo\nother\nthree\n").is_err());
}
