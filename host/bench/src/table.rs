//! The table of several runs.

/// The columns; of the last four the first is of the port's nanoseconds, the others of the ratio to the other side's.
const HEADS: [&str; 9] = ["call", "form", "input", "nodes", "beside", "ns", "least", "median", "most"];

/// The columns of numbers, which end under each other.
const NUMBERS: [usize; 5] = [3, 5, 6, 7, 8];

/// A line of the table.
type Cells = Vec<String>;

/// A row of one run.
struct Timed<'a> {
    what: &'a str,
    port: f64,
    other: f64,
}

/// The table over these runs, at least one, which must have the same rows.
pub fn table(runs: &[String]) -> String {
    let runs: Vec<Vec<Timed>> = runs.iter().map(|run| run.lines().map(timed).collect()).collect();
    let what = |run: &[Timed]| run.iter().map(|row| row.what.to_owned()).collect::<Vec<_>>();
    assert!(runs.iter().all(|run| what(run) == what(&runs[0])), "the runs have different rows");
    let rows = (0..runs[0].len()).map(|at| cells(&runs.iter().map(|run| &run[at]).collect::<Vec<_>>()));
    laid_out(rows.collect())
}

/// Reads a row as it is printed.
fn timed(line: &str) -> Timed<'_> {
    let parts = || {
        let (rest, other) = line.rsplit_once('\t')?;
        let (what, port) = rest.rsplit_once('\t')?;
        Some(Timed { what, port: port.parse().ok()?, other: other.parse().ok()? })
    };
    parts().unwrap_or_else(|| panic!("no row: {line}"))
}

/// The line of one row, over the runs.
fn cells(row: &[&Timed]) -> Cells {
    let nanoseconds = sorted(row.iter().map(|timed| timed.port));
    let ratios = sorted(row.iter().map(|timed| timed.port / timed.other));
    let numbers = [ratios[0], median(&ratios), ratios[ratios.len() - 1]].map(|ratio| format!("{ratio:.2}"));
    let what = row[0].what.split('\t').map(String::from);
    what.chain([format!("{:.1}", median(&nanoseconds))]).chain(numbers).collect()
}

fn sorted(numbers: impl Iterator<Item = f64>) -> Vec<f64> {
    let mut numbers: Vec<f64> = numbers.collect();
    numbers.sort_by(f64::total_cmp);
    numbers
}

/// The middle one, or between the two middle ones.
fn median(sorted: &[f64]) -> f64 {
    (sorted[(sorted.len() - 1) / 2] + sorted[sorted.len() / 2]) / 2.0
}

/// The lines as a table in Markdown.
fn laid_out(rows: Vec<Cells>) -> String {
    let rule = |at: usize| if NUMBERS.contains(&at) { "---:" } else { "---" };
    let mut lines = vec![HEADS.map(String::from).to_vec(), (0..HEADS.len()).map(rule).map(String::from).collect()];
    lines.extend(rows);
    let width = |at: usize| lines.iter().map(|cells| cells[at].len()).max().unwrap_or(0);
    let widths: Vec<usize> = (0..HEADS.len()).map(width).collect();
    lines.iter().map(|cells| line(cells, &widths)).collect()
}

fn line(cells: &Cells, widths: &[usize]) -> String {
    let padded = cells.iter().zip(widths).enumerate().map(|(at, (cell, &width))| {
        if NUMBERS.contains(&at) {
            format!(" {cell:>width$} |")
        } else {
            format!(" {cell:<width$} |")
        }
    });
    format!("|{}\n", padded.collect::<String>())
}

#[cfg(test)]
mod tests {
    use super::*;

    /// Two rows in four runs, of which one has the fastest port and one the slowest other side.
    #[test]
    fn a_line_has_the_median_time_and_the_least_median_and_most_ratio() {
        let run = |[port, other]: [f64; 2]| {
            format!("check\tbytes\tInt64\t1\tplain Rust\t{port:.3}\t{other:.3}\nequal\tflat\tInt64\t1\tthe crate\t2.000\t4.000\n")
        };
        let runs = [[12.0, 10.0], [6.0, 12.0], [9.0, 10.0], [10.0, 10.0]].map(run);
        let expected = "\
| call  | form  | input | nodes | beside     |   ns | least | median | most |
| ---   | ---   | ---   |  ---: | ---        | ---: |  ---: |   ---: | ---: |
| check | bytes | Int64 |     1 | plain Rust |  9.5 |  0.50 |   0.95 | 1.20 |
| equal | flat  | Int64 |     1 | the crate  |  2.0 |  0.50 |   0.50 | 0.50 |
";
        assert_eq!(table(&runs), expected);
        assert_eq!(median(&[1.0, 2.0, 7.0]), 2.0);
    }

    #[test]
    #[should_panic(expected = "the runs have different rows")]
    fn runs_of_different_rows_have_no_table() {
        let run = |call: &str| format!("{call}\tbytes\tInt64\t1\tplain Rust\t1.000\t1.000\n");
        table(&[run("check"), run("decode")]);
    }
}
