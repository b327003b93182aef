//! Runs the peers on a workload, holds their answers against each other, and
//! times them.

use std::time::Instant;

use crate::peers::{Counts, Input, Kind, Peer, Records};
use crate::tables::joined_values;
use crate::workloads::{Series, Workload};

/// How long is measured. Times are in seconds.
pub struct Effort {
    /// For each peer on each workload, in which it runs several times.
    pub seconds_each: f64,
    pub most_repeats: usize,
    /// A peer that would take longer for one run, judged by the smaller
    /// workloads of the series, is left out.
    pub longest_run: f64,
}

impl Effort {
    pub fn new(quick: bool) -> Effort {
        Effort {
            seconds_each: if quick { 0.05 } else { 0.6 },
            most_repeats: if quick { 15 } else { 201 },
            longest_run: if quick { 1.0 } else { 100.0 },
        }
    }

    fn repeats(&self, seconds: f64) -> usize {
        let least = match seconds {
            s if s < 1.0 => 5,
            s if s < 10.0 => 3,
            _ => 1,
        };
        let fitting = (self.seconds_each / seconds) as usize;
        // An odd number, so that the median is one of the times.
        fitting.clamp(least, self.most_repeats) | 1
    }
}

/// One peer on one workload.
#[derive(Clone, Debug)]
pub struct Result {
    pub kind: Kind,
    /// The median of the repeats, and the shortest.
    pub seconds: f64,
    pub shortest: f64,
    pub counts: Counts,
}

/// One workload; peers that were left out are missing.
pub struct Measured {
    pub name: String,
    pub series: Option<Series>,
    pub n: usize,
    pub bytes: usize,
    pub results: Vec<Result>,
    /// Korrigwen's time divided by that of `scan`.
    pub to_scan: Option<f64>,
}

impl Measured {
    pub fn of(&self, kind: Kind) -> Option<&Result> {
        self.results.iter().find(|result| result.kind == kind)
    }
}

/// Measures one workload; `before` are those that were measured already.
pub fn workload(
    workload: Workload,
    kinds: &[Kind],
    before: &[Measured],
    effort: &Effort,
) -> Measured {
    let Workload {
        name,
        series,
        n,
        file,
    } = workload;
    let fits = |kind: &Kind| expected_seconds(before, series, n, *kind) < effort.longest_run;
    let kinds: Vec<Kind> = kinds.iter().copied().filter(fits).collect();
    let input = Input::new(file);
    let mut peers: Vec<Box<dyn Peer + '_>> = kinds.iter().map(|k| k.prepare(&input)).collect();
    let (counts, first_times) = first_runs(&mut peers);
    check(&input, &kinds, &mut peers, &counts);
    let times = repeat(&mut peers, &first_times, effort);
    let paired = kinds.get(1) == Some(&Kind::Scan);
    Measured {
        name,
        series,
        n,
        bytes: input.file.len(),
        to_scan: paired.then(|| median_ratio(&times[0], &times[1])),
        results: kinds
            .iter()
            .zip(&times)
            .zip(counts)
            .map(|((&kind, times), counts)| Result {
                kind,
                seconds: median(times.iter().copied()),
                shortest: times.iter().copied().fold(f64::INFINITY, f64::min),
                counts,
            })
            .collect(),
    }
}

/// How long a peer will take at N, going on as between the last two sizes of
/// the series, but with the cube of N at most, and where there is only one.
/// Infinitely long if it was left out at the last size already, and no time
/// outside a series.
fn expected_seconds(before: &[Measured], series: Option<Series>, n: usize, kind: Kind) -> f64 {
    let mut smaller = before
        .iter()
        .rev()
        .filter(|m| series.is_some() && m.series == series);
    let Some(last) = smaller.next() else {
        return 0.0;
    };
    let Some(result) = last.of(kind) else {
        return f64::INFINITY;
    };
    let exponent = match smaller.next().and_then(|m| m.of(kind).map(|r| (m.n, r))) {
        Some((n, earlier)) => growth((n, earlier.shortest), (last.n, result.shortest)).min(3.0),
        None => 3.0,
    };
    result.shortest * (n as f64 / last.n as f64).powf(exponent)
}

/// The exponent with which the second number of each pair grows by the first.
pub fn growth((n1, cost1): (usize, f64), (n2, cost2): (usize, f64)) -> f64 {
    (cost2 / cost1).ln() / (n2 as f64 / n1 as f64).ln()
}

fn timed(peer: &mut dyn Peer) -> (Counts, f64) {
    let start = Instant::now();
    let counts = peer.run();
    (counts, start.elapsed().as_secs_f64())
}

fn first_runs(peers: &mut [Box<dyn Peer + '_>]) -> (Vec<Counts>, Vec<f64>) {
    peers.iter_mut().map(|peer| timed(peer.as_mut())).unzip()
}

/// The times of all repeats. The peers take turns, each spread evenly over the
/// whole time, so that a change of the machine's speed meets all of them;
/// Korrigwen and `scan` run equally often. Where one repeat is enough the first
/// run stands for it.
fn repeat(peers: &mut [Box<dyn Peer + '_>], first: &[f64], effort: &Effort) -> Vec<Vec<f64>> {
    let mut repeats: Vec<usize> = first.iter().map(|&s| effort.repeats(s)).collect();
    if let [korrigwen, second, ..] = &mut repeats[..] {
        *second = *korrigwen;
    }
    let rounds = repeats.iter().copied().max().unwrap_or(0);
    let mut times = vec![Vec::new(); peers.len()];
    for round in 0..rounds {
        for (at, peer) in peers.iter_mut().enumerate() {
            let due = (round + 1) * repeats[at] / rounds > round * repeats[at] / rounds;
            if due && repeats[at] == 1 {
                times[at].push(first[at]);
            } else if due {
                times[at].push(timed(peer.as_mut()).1);
            }
        }
    }
    times
}

pub fn median(values: impl Iterator<Item = f64>) -> f64 {
    let mut values: Vec<f64> = values.collect();
    values.sort_by(f64::total_cmp);
    values[values.len() / 2]
}

/// The median of a time divided by another's in the same turn, so that a
/// machine whose speed changes does not blur it.
pub fn median_ratio(times: &[f64], others: &[f64]) -> f64 {
    median(times.iter().zip(others).map(|(time, other)| time / other))
}

/// Every peer gives Korrigwen's records; `scan` has its marks and steps too,
/// and so have all that count document 01's lookups.
pub fn check(input: &Input, kinds: &[Kind], peers: &mut [Box<dyn Peer + '_>], counts: &[Counts]) {
    let (korrigwen, others) = peers.split_first_mut().expect("Korrigwen is first");
    let marks = korrigwen.marks().map(<[u8]>::to_vec);
    let Records::Rows(expected) = korrigwen.records() else {
        panic!("Korrigwen gives row numbers");
    };
    for ((peer, kind), counted) in others.iter_mut().zip(&kinds[1..]).zip(&counts[1..]) {
        let name = kind.name();
        assert_eq!(counted.records, counts[0].records, "records of {name}");
        if matches!(kind, Kind::Scan | Kind::TreeTracker) {
            assert_eq!(counted.lookups, counts[0].lookups, "lookups of {name}");
        }
        if *kind == Kind::Scan {
            assert_eq!(counted.steps, counts[0].steps, "steps of {name}");
            assert_eq!(peer.marks(), marks.as_deref(), "marks of {name}");
        }
        match peer.records() {
            Records::Rows(rows) => assert!(rows == expected, "records of {name}"),
            Records::Values(mut values) => {
                values.sort_unstable();
                let same = values == sorted_values(input, expected);
                assert!(same, "values of {name}");
            }
        }
    }
}

fn sorted_values(input: &Input, records: &[u32]) -> Vec<Vec<i32>> {
    let records = records.chunks(input.tables.len());
    let mut values: Vec<Vec<i32>> = records.map(|r| joined_values(&input.tables, r)).collect();
    values.sort_unstable();
    values
}
