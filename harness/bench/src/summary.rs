//! The summary above the tables, worked out from the numbers of the run.

use crate::measure::Measured;
use crate::peers::Kind;
use crate::readings::Readings;
use crate::table::{count, heading, ratio, row, seconds, texts};

const TARGET: &str = "\
The target of being within 1.3 times of plain Rust is held against the workloads at their largest N, and against reading
and refusing as a whole; this summary is about the same. Small N show the cost of a step more than that of searching.
";

pub fn summary(kinds: &[Kind], measured: &[Measured], readings: &Readings) -> String {
    let largest = at_largest_n(measured);
    let hashed = Kind::HASHED.into_iter().filter(|kind| kinds.contains(kind));
    let hashed: Vec<Kind> = hashed.collect();
    let mut text = format!("## Summary\n\n{TARGET}\n");
    text += &beside_scan(&largest);
    text += &beside_plain_reader(readings);
    if !hashed.is_empty() {
        text += &beside_hashed(&hashed, &largest);
    }
    text + "\n"
}

/// Of each series the workload with the largest N, and all outside a series.
fn at_largest_n(measured: &[Measured]) -> Vec<&Measured> {
    let larger = |of: &Measured| {
        let mut series = measured.iter().filter(|m| m.series == of.series);
        of.series.is_some() && series.any(|m| m.n > of.n)
    };
    measured.iter().filter(|m| !larger(m)).collect()
}

/// The greatest of the ratios to `scan`.
fn beside_scan(largest: &[&Measured]) -> String {
    let ratios = largest.iter().filter_map(|m| Some((m.to_scan?, m)));
    match ratios.max_by(|(a, _), (b, _)| a.total_cmp(b)) {
        None => String::new(),
        Some((most, workload)) => format!(
            "- Korrigwen ÷ `scan` is {} at most ({}, N {}).\n",
            ratio(most),
            workload.name,
            count(workload.n as u64)
        ),
    }
}

/// The ratio to the plain reader over all files, and the greatest of one file.
fn beside_plain_reader(Readings { files, all }: &Readings) -> String {
    match files.iter().max_by(|a, b| a.to_plain.total_cmp(&b.to_plain)) {
        None => String::new(),
        Some(most) => format!(
            "- Korrigwen ÷ plain reader, for reading and refusing alone, is {} over all files, and {} at most \
             ({}: {} against {}).\n",
            ratio(all.to_plain),
            ratio(most.to_plain),
            most.name,
            seconds(most.korrigwen),
            seconds(most.plain)
        ),
    }
}

/// How many times as long as a peer Korrigwen takes, if it takes longer.
fn lead(workload: &Measured, kind: Kind) -> Option<f64> {
    let times = workload.results[0].seconds / workload.of(kind)?.seconds;
    (times > 1.0).then_some(times)
}

/// Where peers with hash tables are faster than Korrigwen, and by how much.
fn beside_hashed(hashed: &[Kind], largest: &[&Measured]) -> String {
    let leads = largest.iter().flat_map(|&workload| {
        let leads = hashed.iter().map(|&kind| (lead(workload, kind), kind));
        leads.filter_map(move |(lead, kind)| Some((lead?, kind, workload)))
    });
    let Some((most, kind, workload)) = leads.max_by(|a, b| a.0.total_cmp(&b.0)) else {
        return "- No peer with hash tables is faster than Korrigwen.\n".to_owned();
    };
    let is_led = |workload: &Measured| hashed.iter().any(|&kind| lead(workload, kind).is_some());
    let (led, others): (Vec<&Measured>, Vec<&Measured>) = largest.iter().partition(|m| is_led(m));
    let mut text = format!(
        "- Peers with hash tables are faster than Korrigwen on {} of {} workloads, by up to {} times ({}, {}).",
        led.len(),
        largest.len(),
        ratio(most),
        workload.name,
        kind.name()
    );
    if !others.is_empty() {
        let names: Vec<&str> = others.iter().map(|m| m.name.as_str()).collect();
        text += &format!(" None is on: {}.", names.join("; "));
    }
    text += "\n\nKorrigwen's time divided by the peer's, where that is over 1:\n\n";
    text + &leads_table(hashed, &led)
}

fn leads_table(hashed: &[Kind], led: &[&Measured]) -> String {
    let mut cells = texts(&["Workload", "N"]);
    cells.extend(hashed.iter().map(|kind| kind.name().to_owned()));
    let mut text = heading(&cells);
    for workload in led {
        let mut cells = vec![workload.name.clone(), count(workload.n as u64)];
        let lead = |&kind| lead(workload, kind).map_or("–".to_owned(), ratio);
        cells.extend(hashed.iter().map(lead));
        text += &row(&cells);
    }
    text
}

#[cfg(test)]
mod tests {
    use super::*;
    use crate::measure::Result;
    use crate::peers::Counts;
    use crate::readings::ReadingMeasured;
    use crate::workloads::Series;

    /// A workload with the times of Korrigwen, `scan` and some hashed peers.
    fn measured(name: &str, series: Option<Series>, n: usize, times: &[f64]) -> Measured {
        let kinds = [Kind::Korrigwen, Kind::Scan, Kind::TreeTracker, Kind::Binary];
        let result = |(kind, &seconds): (Kind, &f64)| Result {
            kind,
            seconds,
            shortest: seconds,
            counts: Counts::default(),
        };
        Measured {
            name: name.to_owned(),
            series,
            n,
            bytes: 0,
            results: kinds.into_iter().zip(times).map(result).collect(),
            to_scan: Some(times[0] / times[1]),
        }
    }

    /// A reading that takes a plain reader 4 ns.
    fn read(name: &'static str, korrigwen: f64) -> ReadingMeasured {
        ReadingMeasured {
            name,
            bytes: 0,
            answer: String::new(),
            korrigwen,
            plain: 4e-9,
            to_plain: korrigwen / 4e-9,
        }
    }

    fn readings(files: Vec<ReadingMeasured>) -> Readings {
        let all = read("all", 7e-9);
        Readings { files, all }
    }

    #[test]
    fn only_the_largest_n_counts() {
        let all = [
            measured("D", Some(Series::Diamond), 10, &[9.0, 1.0, 1.0, 1.0]),
            measured("D", Some(Series::Diamond), 20, &[2.2, 2.0, 3.0]),
            measured("Star", None, 5, &[3.0, 2.4, 1.5, 4.0]),
            measured("Chain", None, 1_000, &[1.2, 1.0, 2.0, 0.1]),
        ];
        let files = vec![read("short", 6e-9), read("whole", 8e-9)];
        let text = summary(&Kind::ALL, &all, &readings(files));
        let expected = "\
- Korrigwen ÷ `scan` is 1.25 at most (Star, N 5).
- Korrigwen ÷ plain reader, for reading and refusing alone, is 1.75 over all files, and 2.00 at most (whole: 8.00 ns against 4.00 ns).
- Peers with hash tables are faster than Korrigwen on 2 of 3 workloads, by up to 12.0 times (Chain, binary hash join). None is on: D.

Korrigwen's time divided by the peer's, where that is over 1:

| Workload | N | TreeTracker, hashed | binary hash join | Yannakakis |
|---|---:|---:|---:|---:|
| Star | 5 | 2.00 | – | – |
| Chain | 1,000 | – | 12.0 | – |

";
        assert_eq!(
            text.split_once("that of searching.\n\n").map(|t| t.1),
            Some(expected)
        );
    }

    #[test]
    fn without_hashed_peers() {
        let all = [measured("Star", None, 5, &[3.0, 2.4])];
        let text = summary(&[Kind::Korrigwen, Kind::Scan], &all, &readings(vec![]));
        assert!(text.ends_with("1.25 at most (Star, N 5).\n\n"), "{text}");
    }
}
