//! The peers: ways to compute the join of one job, each prepared before the
//! clock starts.

mod binary;
mod index;
pub mod korrigwen;
mod scan;
pub mod sqlite;
#[cfg(test)]
mod tests;
mod tree_tracker;
mod yannakakis;

use crate::job::{self, Job};
use crate::tables::{self, Table};
use index::Index;

/// The peers in words, for the table's reader.
pub const PEERS: &str = "\
| Peer | What it is | What is timed |
|---|---|---|
| Korrigwen | `korrigwen_begin`, and one call of `korrigwen_run` with an area that has room for all records | reading the file twice, the join |
| scan | the same steps in plain Rust over the bytes of the file: no index, no hash table, no budget, no `unsafe` | reading the file, the join |
| TreeTracker, hashed | paper 001, Figure 2b: hash tables, failing rows deleted from their buckets | building the hash tables, the join |
| binary hash join | paper 001, Figure 2a: left-deep and pipelined | building the hash tables, the join |
| Yannakakis | paper 001, Figure 4: semijoins up to the root, then the hash join with the same hash tables | building the hash tables, the semijoins, the join |
| SQLite | in memory, `NATURAL JOIN`, its own plan, no index but those it makes itself | stepping through all rows and reading their columns |

All take the job's plan but SQLite. The tables of the last four are decoded, and SQLite's filled and its statement
prepared, before the clock starts. All write their records as row numbers into memory that was written to before, but
SQLite, which hands out values. Before anything is timed, every peer's records are compared with Korrigwen's, in order
(SQLite's values as sorted lists), and so are the steps, lookups and marks of `scan` and the lookups of the hashed
TreeTracker join.
";

#[derive(Clone, Copy, Debug, PartialEq, Eq)]
pub enum Kind {
    Korrigwen,
    Scan,
    TreeTracker,
    Binary,
    Yannakakis,
    Sqlite,
}

impl Kind {
    /// The peers that look rows up in hash tables.
    pub const HASHED: [Kind; 3] = [Kind::TreeTracker, Kind::Binary, Kind::Yannakakis];

    /// Korrigwen comes first: the others are held against it.
    pub const ALL: [Kind; 6] = [
        Kind::Korrigwen,
        Kind::Scan,
        Kind::TreeTracker,
        Kind::Binary,
        Kind::Yannakakis,
        Kind::Sqlite,
    ];

    pub fn name(self) -> &'static str {
        match self {
            Kind::Korrigwen => "Korrigwen",
            Kind::Scan => "scan",
            Kind::TreeTracker => "TreeTracker, hashed",
            Kind::Binary => "binary hash join",
            Kind::Yannakakis => "Yannakakis",
            Kind::Sqlite => "SQLite",
        }
    }

    pub fn prepare(self, input: &Input) -> Box<dyn Peer + '_> {
        match self {
            Kind::Korrigwen => Box::new(korrigwen::Korrigwen::new(input)),
            Kind::Scan => Box::new(scan::Scan::new(input)),
            Kind::TreeTracker => Box::new(tree_tracker::TreeTracker::new(input)),
            Kind::Binary => Box::new(binary::BinaryJoin::new(input)),
            Kind::Yannakakis => Box::new(yannakakis::Yannakakis::new(input)),
            Kind::Sqlite => Box::new(sqlite::Sqlite::new(input)),
        }
    }
}

/// An accepted job as the peers get it.
pub struct Input {
    pub file: Vec<u8>,
    pub job: Job,
    pub tables: Vec<Table>,
    pub expected_records: usize,
}

impl Input {
    pub fn new(file: Vec<u8>) -> Input {
        let job = job::read(&file).expect("the job is accepted");
        let tables = tables::decode(&file, &job);
        let mut marks = vec![0; job.total_rows()];
        let counts = scan::join(&file, &mut marks, &mut Vec::new());
        Input {
            file,
            job,
            tables,
            expected_records: counts.records as usize,
        }
    }

    /// An empty list that takes all records without growing. Its memory has
    /// been written to, so that no run pays for getting it.
    fn room_for_records(&self) -> Vec<u32> {
        let mut room = vec![1; self.expected_records * self.tables.len()];
        room.clear();
        room
    }
}

pub trait Peer {
    /// One whole run: this is what is timed.
    fn run(&mut self) -> Counts;

    /// The records of the last run; not timed.
    fn records(&mut self) -> Records<'_>;

    /// The marks after the last run, of a peer that has document 01's marks.
    fn marks(&self) -> Option<&[u8]> {
        None
    }
}

/// What a run counted; nothing where the peer does not count that.
#[derive(Clone, Copy, Debug, Default, PartialEq, Eq)]
pub struct Counts {
    pub records: u64,
    pub steps: Option<u64>,
    pub lookups: Option<u64>,
    /// How often a row was looked at: in a scan, on its way into a hash table,
    /// in a semijoin, or as it came out of a bucket.
    pub touched: Option<u64>,
    /// Instructions of SQLite's machine.
    pub machine_steps: Option<u64>,
}

impl Counts {
    /// The same with work added that was done before.
    fn and(self, lookups: u64, touched: u64) -> Counts {
        Counts {
            lookups: self.lookups.map(|n| n + lookups),
            touched: self.touched.map(|n| n + touched),
            ..self
        }
    }
}

pub enum Records<'a> {
    /// Row numbers in plan order, one record after another, in document 01's
    /// order.
    Rows(&'a [u32]),
    /// Each record's joined values, ascending by column, in any order.
    Values(Vec<Vec<i32>>),
}

/// The hash tables of all positions over all their rows; the root's is empty.
fn index_all(tables: &[Table]) -> Vec<Index> {
    let entered = |(at, table): (usize, &Table)| {
        let rows = if at == 0 { 0 } else { table.rows as u32 };
        Index::build(table, (0..rows).rev())
    };
    tables.iter().enumerate().map(entered).collect()
}

/// How many rows `index_all` enters.
fn rows_below_the_root(tables: &[Table]) -> u64 {
    tables[1..].iter().map(|table| table.rows as u64).sum()
}
