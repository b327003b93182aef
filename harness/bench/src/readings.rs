//! Reading alone: Korrigwen's read and a plain reader in Rust, on accepted and
//! refused files.

use std::hint::black_box;
use std::time::Instant;

use korrigwen_harness::build::{entry_at, set_u32, Table, FIELDS, OFFSET, ROWS};
use korrigwen_harness::{build, reader};

use crate::job::{self, Refusal, MOST_TABLES};
use crate::measure::{median, median_ratio};
use crate::peers::korrigwen::{self, Entry, Reading};

pub struct ReadingMeasured {
    pub name: &'static str,
    pub bytes: usize,
    pub answer: String,
    /// Seconds of one call, the median of many batches.
    pub korrigwen: f64,
    pub plain: f64,
    /// Korrigwen's time divided by the plain reader's.
    pub to_plain: f64,
}

/// The workload of reading and refusing alone: its files, and all of them read
/// one after the other.
pub struct Readings {
    pub files: Vec<ReadingMeasured>,
    pub all: ReadingMeasured,
}

/// Files for reading, made of a chain of 8 tables that nearly fills a file.
fn cases() -> Vec<(&'static str, Vec<u8>)> {
    let chain = |last| {
        let mut masks: Vec<u32> = (0..8).map(|table| 0b11 << table).collect();
        masks[7] = last;
        let tables: Vec<Table> = masks.iter().map(|&m| Table::filled(m, 1_000)).collect();
        build::job(&[0, 1, 2, 3, 4, 5, 6, 7], &tables)
    };
    let good = chain(0b11 << 7);
    let with = |at: usize, number: u32| {
        let mut file = good.clone();
        set_u32(&mut file, at, number);
        file
    };
    let with_plan = |from: usize, bytes: &[u8]| {
        let mut file = good.clone();
        file[4 + from..][..bytes.len()].copy_from_slice(bytes);
        file
    };
    let mut longer = good.clone();
    longer.push(0);
    vec![
        ("accepted, 8 tables", good.clone()),
        ("too short", vec![0; 11]),
        ("too long", vec![0; 65_536]),
        ("no tables", with(0, 0)),
        ("contents cut off", good[..100].to_vec()),
        ("first plan byte faulty", with_plan(0, &[8])),
        ("last plan byte faulty", with_plan(7, &[0])),
        ("first field count faulty", with(entry_at(0) + FIELDS, 3)),
        ("last field count faulty", with(entry_at(7) + FIELDS, 3)),
        ("last row count too large", with(entry_at(7) + ROWS, 4_097)),
        ("last offset faulty", with(entry_at(7) + OFFSET, 0)),
        ("last body cut off", good[..good.len() - 1].to_vec()),
        ("one byte left over", longer),
        ("no parent, early", with_plan(1, &[2, 1])),
        ("no parent, late", chain(0b1000_0001)),
    ]
}

pub fn measure(quick: bool) -> Readings {
    let cases = cases();
    for (name, file) in &cases {
        check(name, file);
    }
    let times = time_all(&cases, if quick { 11 } else { 2_001 });
    let files: Vec<ReadingMeasured> = cases
        .iter()
        .zip(&times)
        .map(|((name, file), [korrigwen, plain])| ReadingMeasured {
            name,
            bytes: file.len(),
            answer: match job::read(file) {
                Ok(_) => "accepted".to_owned(),
                Err(refusal) => format!("{} at {}", refusal.number, refusal.place),
            },
            korrigwen: median(korrigwen.iter().copied()),
            plain: median(plain.iter().copied()),
            to_plain: median_ratio(korrigwen, plain),
        })
        .collect();
    let all = ReadingMeasured {
        name: "all of them, one after the other",
        bytes: files.iter().map(|file| file.bytes).sum(),
        answer: "–".to_owned(),
        korrigwen: files.iter().map(|file| file.korrigwen).sum(),
        plain: files.iter().map(|file| file.plain).sum(),
        to_plain: ratio_of_sums(&times),
    };
    Readings { files, all }
}

/// What `korrigwen_read` does, by the plain reader: the same answer, all but
/// number and place 0 in a refusal. It is not inlined, as Korrigwen is not.
#[inline(never)]
fn read_plainly(file: &[u8]) -> Reading {
    match job::read(file) {
        Ok(job) => Reading {
            number: 0,
            place: 0,
            k: job.k,
            plan: job.plan,
            entries: job.entries.map(|entry| Entry {
                fields: entry.fields,
                rows: entry.rows,
                mask: entry.mask,
                offset: entry.offset,
            }),
            parents: job.parents,
        },
        Err(Refusal { number, place }) => Reading {
            number,
            place,
            k: 0,
            plan: [0; MOST_TABLES],
            entries: [Entry::default(); MOST_TABLES],
            parents: [0; MOST_TABLES],
        },
    }
}

/// Korrigwen's answer is the plain reader's, and its number and place are the
/// model's.
pub fn check(name: &str, file: &[u8]) {
    let answer = korrigwen::read(file);
    assert_eq!(answer, read_plainly(file), "{name}");
    let models = reader::read(file).map_or_else(|r| (r.number, r.place), |_| (0, 0));
    assert_eq!((answer.number, answer.place as u32), models, "{name}");
}

/// Seconds of one call in each turn: Korrigwen's and the plain reader's.
type Times = [Vec<f64>; 2];

/// The times of each file. A turn has all files, so that a change of the
/// machine's speed meets all of them.
fn time_all(cases: &[(&str, Vec<u8>)], turns: usize) -> Vec<Times> {
    let mut times = vec![Times::default(); cases.len()];
    for _ in 0..turns {
        for ((_, file), [korrigwen, plain]) in cases.iter().zip(&mut times) {
            korrigwen.push(time_batch(file, korrigwen::read));
            plain.push(time_batch(file, read_plainly));
        }
    }
    times
}

/// Seconds of one call, over a batch long enough for the clock. The black box
/// gets a reference to the answer, since handing over the answer copies it.
fn time_batch(file: &[u8], read: impl Fn(&[u8]) -> Reading) -> f64 {
    const CALLS: u32 = 500;
    let start = Instant::now();
    for _ in 0..CALLS {
        black_box(&read(black_box(file)));
    }
    start.elapsed().as_secs_f64() / f64::from(CALLS)
}

/// The median ratio of what all files take in a turn.
fn ratio_of_sums(times: &[Times]) -> f64 {
    let [korrigwen, plain] = [0, 1].map(|reader| {
        let turns = 0..times[0][reader].len();
        let sum = |turn: usize| times.iter().map(|of_file| of_file[reader][turn]).sum();
        turns.map(sum).collect::<Vec<f64>>()
    });
    median_ratio(&korrigwen, &plain)
}
