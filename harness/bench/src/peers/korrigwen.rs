//! Korrigwen: beginning, and one call of run with an area that has room for all
//! records.

use ::korrigwen::{begin, run, Reason, STEP_LIMIT};

use super::{Counts, Input, Peer, Records};

/// Reading alone, with the answer as the library writes it.
pub use ::korrigwen::foreign::{read, Entry, Reading};

pub struct Korrigwen<'a> {
    file: &'a [u8],
    tables: usize,
    marks: Vec<u8>,
    area: Vec<u32>,
    records: usize,
}

impl<'a> Korrigwen<'a> {
    /// The area is one record longer than needed, since room is tested before
    /// the last step too.
    pub fn new(input: &'a Input) -> Korrigwen<'a> {
        let tables = input.tables.len();
        Korrigwen {
            file: &input.file,
            tables,
            marks: vec![0; input.job.total_rows()],
            area: vec![1; (input.expected_records + 1) * tables],
            records: 0,
        }
    }
}

impl Peer for Korrigwen<'_> {
    fn run(&mut self) -> Counts {
        let marks = &mut self.marks;
        let fresh = begin(self.file, marks).expect("it begins");
        let ran = run(self.file, &fresh, marks, STEP_LIMIT, &mut self.area);
        let (reason, end) = ran.expect("it runs");
        assert_eq!(reason, Reason::Ended, "one call comes to the end");
        self.records = end.records as usize;
        Counts {
            records: end.records.into(),
            steps: Some(end.steps.into()),
            lookups: Some(end.lookups.into()),
            ..Counts::default()
        }
    }

    fn records(&mut self) -> Records<'_> {
        Records::Rows(&self.area[..self.records * self.tables])
    }

    fn marks(&self) -> Option<&[u8]> {
        Some(&self.marks)
    }
}
