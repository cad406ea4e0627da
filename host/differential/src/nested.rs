//! Answers of the oracle to nested joins, as a file of definitions whose rows the prover computes: crates/recorded.
//!
//! A row has the flags of the call, those of its inner calls, the left type, the right type and the answer.

mod drawn;
mod fields;
mod leaves;
#[cfg(test)]
mod limits;
#[cfg(test)]
mod sorts;
mod tree;
mod worked;

use std::collections::HashSet;
use std::fmt;
use tree::{dtype, tree, written, Tree};
use trials::random::Random;

/// A pair of flags: allow_implode_list and allow_primitive_to_string.
type Flags = [bool; 2];

const OFF: Flags = [false, false];
const IMPLODE: Flags = [true, false];
const BOTH: Flags = [true, true];

/// The crate's own.
const DEFAULT: Flags = [false, true];

/// Rows of one list.
const ROWS: usize = 100;

/// The most columns of a line.
const COLUMNS: usize = 120;

/// How many rows crates/recorded was asked for.
#[cfg(test)]
const COUNT: usize = 2100;

/// What each line of a list begins with.
const INDENT: &str = "    ";

/// What stands before the lists, behind the comment.
const USES: &str = "\
use Rattle.std.specs.Prelude.{true, false, List, [], ◌∷◌}
use Rattle.std.specs.Prelude.{None, Some}
use Rattle.flat.specs.Kind.{Null, Boolean, UInt8, UInt16, UInt32, UInt64, UInt128, Int8, Int16, Int32, Int64, Int128}
use Rattle.flat.specs.Kind.{Float16, Float32, Float64, Decimal, String, Binary, BinaryOffset}
use Rattle.flat.specs.Kind.{Date, Datetime, Duration, Time}
use Rattle.flat.specs.Kind.{UnknownAny, UnknownStr, UnknownFloat, UnknownIntPos, UnknownIntNeg}
use Rattle.flat.specs.Tree.{leaf, list, array, struct, empty, field}
use Rattle.recorded.specs.Recorded.{Recorded, asked}";

/// What is asked.
#[derive(Clone, Debug, PartialEq, Eq, Hash)]
struct Asked {
    outer: Flags,
    inner: Flags,
    left: Tree,
    right: Tree,
}

/// What is asked, and the oracle's answer.
struct Row {
    asked: Asked,
    answer: Option<Tree>,
}

impl Asked {
    /// The oracle's answer with these inner flags.
    fn answer_with(&self, inner: Flags) -> Option<Tree> {
        let answer = dtype(&self.left).get_supertype_with_inner_options(&dtype(&self.right), self.outer, inner);
        answer.map(|dtype| tree(&dtype))
    }
}

impl From<Asked> for Row {
    fn from(asked: Asked) -> Row {
        let answer = asked.answer_with(asked.inner);
        Row { asked, answer }
    }
}

impl fmt::Display for Row {
    fn fmt(&self, f: &mut fmt::Formatter<'_>) -> fmt::Result {
        let Asked { outer, inner, left, right } = &self.asked;
        let [left, right] = [left, right].map(written);
        write!(f, "asked {} {} {} {} ({left}) ({right}) ", outer[0], outer[1], inner[0], inner[1])?;
        match &self.answer {
            Some(dtype) => write!(f, "(Some ({}))", written(dtype)),
            None => f.write_str("None"),
        }
    }
}

/// At least so many rows, the same ones every time: those of the request's sentences, then random ones. None is there twice.
fn rows(count: usize) -> Vec<Row> {
    let mut rows: Vec<Row> = worked::all().into_iter().map(Row::from).collect();
    let mut known: HashSet<Asked> = rows.iter().map(|row| row.asked.clone()).collect();
    let mut random = Random::new(3);
    while rows.len() < count {
        let row = drawn::row(&mut random);
        if known.insert(row.asked.clone()) {
            rows.push(row);
        }
    }
    rows
}

/// The lines of the file.
pub fn recorded(count: usize) -> Vec<String> {
    let mut lines: Vec<String> = comment(count).lines().chain(USES.lines()).map(String::from).collect();
    let rows = rows(count);
    let lists = rows.chunks(ROWS);
    let all = all_lists(lists.len());
    for (at, rows) in lists.enumerate() {
        lines.extend([String::new(), format!("unfoldable pub rows{at} : List Recorded"), format!("rows{at} =")]);
        let rows: Vec<String> = rows.iter().map(Row::to_string).collect();
        lines.extend(broken(&rows[0]));
        lines.extend(rows[1..].iter().flat_map(|row| broken(&format!("∷ {row}"))));
        lines.extend(broken("∷ []"));
    }
    lines.extend(all);
    lines
}

/// The list of so many lists.
fn all_lists(count: usize) -> Vec<String> {
    let head = ["", "-- all of them", "abbrev pub rows : List (List Recorded)", "rows ="].map(String::from);
    let lists: String = (0..count).map(|at| format!("rows{at} ∷ ")).collect();
    head.into_iter().chain(broken(&format!("{lists}[]"))).collect()
}

fn comment(count: usize) -> String {
    format!(
        "\
-- Answers of the crate's own text to nested joins, as `differential --nested {count}` prints them (host/differential): the
-- flags of the call, those of its inner calls, the left type, the right type and the answer. Assumes nothing: these are
-- definitions."
    )
}

/// A row as lines: where it is too long, it goes on in the next.
fn broken(row: &str) -> Vec<String> {
    let mut lines: Vec<String> = vec![];
    for piece in pieces(row) {
        match lines.last_mut() {
            Some(line) if columns(line) + 1 + columns(piece) <= COLUMNS => {
                line.push(' ');
                line.push_str(piece);
            }
            _ => lines.push(format!("{INDENT}{piece}")),
        }
    }
    lines
}

/// What stays on one line: each argument of a row, or where it is too long, each of its fields.
fn pieces(row: &str) -> Vec<&str> {
    let mut open = 0;
    let is_between = |letter| {
        open += i32::from(letter == '(') - i32::from(letter == ')');
        letter == ' ' && open == 0
    };
    let arguments = row.split(is_between);
    let is_short = |argument| columns(INDENT) + columns(argument) <= COLUMNS;
    arguments.flat_map(|argument| if is_short(argument) { vec![argument] } else { fields_of(argument) }).collect()
}

/// The argument, cut before each field that stands behind another.
fn fields_of(mut argument: &str) -> Vec<&str> {
    let mut fields = vec![];
    while let Some(end) = argument.find(") (field ") {
        fields.push(&argument[..=end]);
        argument = &argument[end + 2..];
    }
    fields.push(argument);
    fields
}

fn columns(text: &str) -> usize {
    text.chars().count()
}

#[cfg(test)]
mod tests {
    use super::*;

    #[test]
    #[cfg_attr(not(polars_src), ignore = "no text of polars-core 0.55.2")]
    fn the_computed_rows_are_the_recorded_ones() {
        let file = include_str!("../../../crates/recorded/specs/Rows.antt");
        let again = format!("record again: --nested {COUNT} > crates/recorded/specs/Rows.antt");
        assert!(recorded(COUNT).iter().eq(file.lines()), "{again}");
    }

    #[test]
    #[cfg_attr(not(polars_src), ignore = "no text of polars-core 0.55.2")]
    fn lines_are_at_most_120_columns_wide_and_lists_have_100_rows() {
        let lines = recorded(COUNT + 7);
        assert!(lines.iter().all(|line| columns(line) <= COLUMNS));
        let lists: Vec<&[String]> = lines.split(|line| line.is_empty()).skip(1).collect();
        let rows = lists.iter().map(|list| list.iter().filter(|line| line.contains("asked ")).count());
        // The last is the list of lists.
        assert!(rows.eq([ROWS; COUNT / ROWS].into_iter().chain([7, 0])));
    }

    #[test]
    fn a_long_row_goes_on_before_an_argument() {
        let short = format!("({})", "x ".repeat(40));
        let row = format!("asked true {short} {short} none");
        assert_eq!(broken(&row), [format!("    asked true {short}"), format!("    {short} none")]);
        let [field, rest] = ["0", "1"].map(|name| format!("(field {name} (leaf Int8 {})", "0".repeat(50)));
        let row = format!("asked (struct {field} {rest} empty))) none");
        assert_eq!(broken(&row), [format!("    asked (struct {field}"), format!("    {rest} empty))) none")]);
    }
}
