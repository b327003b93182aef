//! The Markdown: docs/BENCHMARKS.md as a whole.

use std::env;
use std::ffi::OsStr;
use std::fmt::Write;

use crate::machine;
use crate::measure::{growth, Effort, Measured, Result};
use crate::peers::{korrigwen, sqlite, Kind, PEERS};
use crate::readings::Readings;
use crate::summary::summary;
use crate::workloads::{Series, RULES};

/// SQLite counts its instructions in 32 bits; a run of so many seconds may have
/// passed that.
const MACHINE_STEPS_WRAP: f64 = 15.0;

const COMMAND: &str = "cargo run --release -p korrigwen-bench";

const WHAT: &str = "\
Korrigwen beside other ways to compute the same joins: its own steps in plain Rust (`scan`), three joins with hash
tables (the TreeTracker join of paper 001, a binary hash join, Yannakakis's algorithm), and SQLite. All run in one
process on the same job files, and nothing is timed before their records are found equal. Reading alone is compared
with a plain reader.
";

/// What the document is made of; `options` are those of the command that ran,
/// and `plot` is the name of the plot's file.
pub struct Report<'a> {
    pub kinds: &'a [Kind],
    pub measured: &'a [Measured],
    pub readings: &'a Readings,
    pub effort: &'a Effort,
    pub options: String,
    pub plot: &'a OsStr,
}

pub fn write(report: &Report) -> String {
    let Report {
        kinds, measured, ..
    } = report;
    let mut text = head(&report.options);
    let _ = write!(
        text,
        "![Time against N for Example 1.1 and for Diamond]({})\n\n",
        report.plot.display()
    );
    text += &summary(kinds, measured, report.readings);
    let _ = write!(text, "## Peers\n\n{PEERS}\n## Workloads\n\n{RULES}\n");
    text += &times(kinds, measured, report.effort);
    text += &growths(kinds, measured);
    text += &work(kinds, measured);
    text += &reading(report.readings);
    text
}

fn head(options: &str) -> String {
    format!(
        "# Benchmarks\n\n\
         <!-- Written by the command below. Edits here are lost. -->\n\n\
         {WHAT}\n\
         In `harness/`:\n\n    {}{COMMAND}{options}\n\n\
         | | |\n|---|---|\n\
         | Processor | {} |\n| Cores | {} |\n| Library | {} |\n\
         | Compiler of the peers | {} |\n| SQLite | {} |\n| Date | {} |\n\n",
        archive_folder(),
        machine::processor(),
        machine::cores(),
        env!("BENCH_LIBRARY"),
        env!("BENCH_RUSTC"),
        sqlite::version(),
        machine::today(),
    )
}

/// The folder of the library's archive as the command line had it.
fn archive_folder() -> String {
    env::var("KORRIGWEN_ARCHIVE_DIR")
        .map(|folder| format!("KORRIGWEN_ARCHIVE_DIR={folder} "))
        .unwrap_or_default()
}

/// A workload's times in one line.
pub fn line(measured: &Measured) -> String {
    let korrigwen = measured.results[0].seconds;
    let mut text = format!("{}, N {}:", measured.name, count(measured.n as u64));
    for result in &measured.results {
        let _ = write!(
            text,
            "  {} {} ({})",
            result.kind.name(),
            seconds(result.seconds),
            ratio(result.seconds / korrigwen)
        );
    }
    text
}

/// A row of a Markdown table.
pub fn row(cells: &[String]) -> String {
    format!("| {} |\n", cells.join(" | "))
}

/// The head of a Markdown table: the first column to the left, the others to
/// the right.
pub fn heading(cells: &[String]) -> String {
    let rule: Vec<&str> = (0..cells.len())
        .map(|at| if at == 0 { "---" } else { "---:" })
        .collect();
    format!("{}|{}|\n", row(cells), rule.join("|"))
}

pub fn texts(cells: &[&str]) -> Vec<String> {
    cells.iter().map(|&cell| cell.to_owned()).collect()
}

fn times(kinds: &[Kind], measured: &[Measured], effort: &Effort) -> String {
    let mut text = format!(
        "## Time\n\n\
         The median of as many repeats as fit {} s, {} at most and 5 at least (3 over 1 s, 1 over 10 s), the peers in \
         turns. In brackets the multiple of Korrigwen's time: under 1 is faster than Korrigwen. The last column is \
         the median of Korrigwen's time divided by that of `scan` in the same turn. – is a peer that would have \
         taken over {} s for one run.\n\n",
        effort.seconds_each, effort.most_repeats, effort.longest_run
    );
    let mut cells = texts(&["Workload", "N", "Bytes", "Records"]);
    cells.extend(kinds.iter().map(|kind| kind.name().to_owned()));
    cells.push("Korrigwen ÷ scan".to_owned());
    text += &heading(&cells);
    for workload in measured {
        text += &row(&times_of(kinds, workload));
    }
    text + "\n"
}

fn times_of(kinds: &[Kind], workload: &Measured) -> Vec<String> {
    let korrigwen = &workload.results[0];
    let mut cells = vec![
        workload.name.clone(),
        count(workload.n as u64),
        count(workload.bytes as u64),
        count(korrigwen.counts.records),
    ];
    cells.extend(kinds.iter().map(|&kind| match workload.of(kind) {
        None => "–".to_owned(),
        Some(result) if kind == Kind::Korrigwen => seconds(result.seconds),
        Some(result) => format!(
            "{} ({})",
            seconds(result.seconds),
            ratio(result.seconds / korrigwen.seconds)
        ),
    }));
    cells.push(workload.to_scan.map_or("–".to_owned(), ratio));
    cells
}

/// What a peer paid on a workload, if it says.
type Cost = fn(&Result) -> Option<f64>;

/// For each series the exponents between the two largest N that a peer ran.
fn growths(kinds: &[Kind], measured: &[Measured]) -> String {
    let mut text = "## Growth with N\n\n\
        The exponent e of N^e between the two largest N that the peer ran: of the shortest time, which other work on \
        the machine disturbs least, and of the rows touched.\n\n"
        .to_owned();
    let mut cells = texts(&["Series"]);
    cells.extend(kinds.iter().map(|kind| kind.name().to_owned()));
    text += &heading(&cells);
    for series in Series::ALL {
        let costs: [(&str, Cost); 2] = [
            ("time", |result| Some(result.shortest)),
            ("rows touched", |result| {
                result.counts.touched.map(|n| n as f64)
            }),
        ];
        for (name, cost) in costs {
            let mut cells = vec![format!("{}, {name}", series.name())];
            let exponent = |&kind| exponent(measured, series, kind, cost);
            cells.extend(kinds.iter().map(exponent));
            text += &row(&cells);
        }
    }
    text + "\n"
}

fn exponent(measured: &[Measured], series: Series, kind: Kind, cost: Cost) -> String {
    let of_series = measured.iter().filter(|m| m.series == Some(series));
    let points: Vec<(usize, f64)> = of_series
        .filter_map(|m| Some((m.n, cost(m.of(kind)?)?)))
        .collect();
    match points[..] {
        [.., before, last] => format!("{:.2}", growth(before, last)),
        _ => "–".to_owned(),
    }
}

fn work(kinds: &[Kind], measured: &[Measured]) -> String {
    let mut text = "## Lookups and rows touched\n\n\
        Lookups / rows touched: a row is touched when a scan looks at it, when it is entered into a hash \
        table or tried in a semijoin, and when it comes out of a bucket. Korrigwen looks at the rows that \
        `scan` looks at; its lookups and steps are its own counts. SQLite says how many instructions its \
        machine ran, unless they may be over 2^32.\n\n"
        .to_owned();
    let mut cells = texts(&["Workload", "N", "Steps"]);
    cells.extend(kinds.iter().map(|kind| kind.name().to_owned()));
    text += &heading(&cells);
    for workload in measured {
        let steps = workload.results[0].counts.steps;
        let mut cells = vec![
            workload.name.clone(),
            count(workload.n as u64),
            optional(steps),
        ];
        cells.extend(kinds.iter().map(|&kind| match workload.of(kind) {
            None => "–".to_owned(),
            Some(result) => work_of(result),
        }));
        text += &row(&cells);
    }
    text + "\n"
}

fn work_of(result: &Result) -> String {
    let counts = &result.counts;
    match (counts.lookups, counts.touched) {
        (Some(lookups), Some(touched)) => format!("{} / {}", count(lookups), count(touched)),
        (Some(lookups), None) => format!("{} / as scan", count(lookups)),
        _ if result.seconds > MACHINE_STEPS_WRAP => "–".to_owned(),
        _ => optional(counts.machine_steps),
    }
}

fn reading(readings: &Readings) -> String {
    let mut text = format!(
        "## Reading and refusing\n\n\
         One call of `korrigwen_read`, and of a plain reader in Rust with the same checks and no `unsafe`. Both hand \
         back the same answer of {} bytes, all of it written in a refusal too. The times are the median of batches of \
         500 calls, the two readers and all files in turns. The last column is the median of Korrigwen's time divided \
         by the plain reader's in the same turn. The last row is this workload as a whole: the sums of the times, and \
         the median of the ratio of the sums in a turn.\n\n",
        size_of::<korrigwen::Reading>()
    );
    let names = [
        "File",
        "Bytes",
        "Answer",
        "Korrigwen",
        "plain Rust",
        "Korrigwen ÷ plain",
    ];
    text += &heading(&texts(&names));
    for case in readings.files.iter().chain([&readings.all]) {
        text += &row(&[
            case.name.to_owned(),
            count(case.bytes as u64),
            case.answer.clone(),
            seconds(case.korrigwen),
            seconds(case.plain),
            ratio(case.to_plain),
        ]);
    }
    text
}

/// A time with three digits.
pub fn seconds(seconds: f64) -> String {
    let (value, unit) = match seconds {
        s if s >= 1.0 => (s, "s"),
        s if s >= 1e-3 => (s * 1e3, "ms"),
        s if s >= 1e-6 => (s * 1e6, "µs"),
        s => (s * 1e9, "ns"),
    };
    format!("{} {unit}", three_digits(value))
}

pub fn ratio(ratio: f64) -> String {
    match ratio {
        r if r < 0.01 => format!("{r:.4}"),
        r if r < 0.1 => format!("{r:.3}"),
        r if r < 10.0 => format!("{r:.2}"),
        r if r < 100.0 => format!("{r:.1}"),
        r => count(r.round() as u64),
    }
}

fn three_digits(value: f64) -> String {
    match value {
        v if v >= 100.0 => format!("{v:.0}"),
        v if v >= 10.0 => format!("{v:.1}"),
        v => format!("{v:.2}"),
    }
}

fn optional(number: Option<u64>) -> String {
    number.map_or_else(|| "–".to_owned(), count)
}

/// A number with commas between thousands.
pub fn count(number: u64) -> String {
    let digits = number.to_string();
    let mut text = String::new();
    for (at, digit) in digits.chars().enumerate() {
        if at > 0 && (digits.len() - at).is_multiple_of(3) {
            text.push(',');
        }
        text.push(digit);
    }
    text
}

#[cfg(test)]
mod tests {
    use super::{count, ratio, seconds};

    #[test]
    fn numbers_as_text() {
        assert_eq!(count(0), "0");
        assert_eq!(count(999), "999");
        assert_eq!(count(16_777_216), "16,777,216");
        assert_eq!(seconds(0.002_904), "2.90 ms");
        assert_eq!(seconds(12.34), "12.3 s");
        assert_eq!(seconds(1.5e-7), "150 ns");
        assert_eq!(ratio(0.0013), "0.0013");
        assert_eq!(ratio(1.299), "1.30");
        assert_eq!(ratio(1234.4), "1,234");
    }
}
