//! What a run that reached its end must meet whatever the steps were: its
//! records are the natural join, by nested loops, and both bounds hold.

use crate::join::{bodies, natural_join, Body};
use crate::reader::Job;
use crate::runner::{marked, State};

/// Choices of rows up to which the natural join is also made by going through
/// all of them.
const MOST_CHOICES: usize = 300;

/// Rows tried up to which a job is run to its end.
const MOST_TRIES: usize = 200_000;

/// The records of the natural join, one after another; none if that takes too
/// many tries. For few choices both ways of nested loops must agree.
pub fn joined(file: &[u8], job: &Job) -> Option<Vec<u32>> {
    let bodies = bodies(file, job);
    let mut loops = Loops {
        bodies: &bodies,
        chosen: Vec::new(),
        values: [None; 32],
        records: Vec::new(),
        tries: 0,
    };
    loops.go_on();
    if loops.tries > MOST_TRIES {
        return None;
    }
    let records = loops.records;
    let counts = bodies.iter().map(|body| body.rows.len());
    let choices = counts.fold(1, |all: usize, rows| all.saturating_mul(rows));
    if choices <= MOST_CHOICES {
        assert_eq!(natural_join(file, job).concat(), records, "two joins");
    }
    Some(records)
}

/// Nested loops that leave a row as soon as a value of it differs from one that
/// was chosen for the column before. Nothing here knows of keys and parents.
struct Loops<'a> {
    bodies: &'a [Body],
    chosen: Vec<u32>,
    /// The values chosen so far, by column.
    values: [Option<i32>; 32],
    records: Vec<u32>,
    tries: usize,
}

impl Loops<'_> {
    /// The loop of the next position, and those within it.
    fn go_on(&mut self) {
        let Some(body) = self.bodies.get(self.chosen.len()) else {
            self.records.extend(&self.chosen);
            return;
        };
        for (number, row) in body.rows.iter().enumerate() {
            self.tries += 1;
            if self.tries > MOST_TRIES {
                return;
            }
            let before = self.values;
            if self.agrees(body, row) {
                self.chosen.push(number as u32);
                self.go_on();
                self.chosen.pop();
            }
            self.values = before;
        }
    }

    /// Whether a row's values are those chosen before, where there are any; the
    /// others are chosen now.
    fn agrees(&mut self, body: &Body, row: &[i32]) -> bool {
        body.columns.iter().zip(row).all(|(&column, &value)| {
            let chosen = &mut self.values[column as usize];
            *chosen.get_or_insert(value) == value
        })
    }
}

/// Demand 3's bounds at the end of a run: lookups are at most k − 1 for each
/// record and each marked row, and "steps are at most 3 × lookups + records + 1".
pub fn bounds_hold(job: &Job, state: &State, marks: &[u8]) -> bool {
    let lookups = u64::from(state.lookups);
    let records = u64::from(state.records);
    let marked = marked(job, marks) as u64;
    lookups <= (job.k as u64 - 1) * (records + marked)
        && u64::from(state.steps) <= 3 * lookups + records + 1
}

#[cfg(test)]
mod tests {
    use super::*;
    use crate::build::{job, job_p7, job_v, job_w, Table};
    use crate::reader::read;

    fn records(file: &[u8]) -> Option<Vec<u32>> {
        joined(file, &read(file).unwrap())
    }

    #[test]
    fn joins_of_the_documents_jobs() {
        assert_eq!(records(&job_w()), Some(vec![1, 1, 0]));
        assert_eq!(records(&job_v()), Some(vec![]));
        assert_eq!(records(&job_p7()), Some(vec![0, 1]));
    }

    #[test]
    fn great_joins_are_left() {
        let tables = [Table::filled(1, 600), Table::filled(2, 600)];
        assert_eq!(records(&job(&[0, 1], &tables)), None);
    }

    #[test]
    fn bounds_of_w() {
        let w = read(&job_w()).unwrap();
        let state = State {
            steps: 12,
            lookups: 5,
            records: 1,
            ..State::fresh()
        };
        let marks = [0, 0, 1, 0, 1, 0];
        assert!(bounds_hold(&w, &state, &marks));
        let more = State {
            lookups: 7,
            ..state
        };
        assert!(!bounds_hold(&w, &more, &marks));
        let slow = State { steps: 18, ..state };
        assert!(!bounds_hold(&w, &slow, &marks));
    }
}
