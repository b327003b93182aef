//! Calls with forged states, marks that no run made, and records of any kind.

use super::engine::Mismatch;
use super::kinds::*;
use super::states::{fitting, misfit, near_step_limit, row_counts, MISFITS};
use super::trial::Trial;
use crate::frames::MOST_NUMBERS;
use crate::reader::Job;
use crate::runner::total_rows;

/// Rows up to which a forged state may be run without a small budget.
const FEW_ROWS: usize = 300;

// ---- states ---------------------------------------------------------------------

impl Trial<'_> {
    /// Some runs from fitting states, and some from others.
    pub fn forged_states(&mut self, job: &Job) -> Result<(), Mismatch> {
        for _ in 0..1 + self.dice.below(3) {
            self.fitting_state(job)?;
        }
        for _ in 0..1 + self.dice.below(3) {
            self.misfit(job)?;
        }
        Ok(())
    }

    /// "A fitting state that no run reached is stepped by the same rules", here
    /// under any marks.
    fn fitting_state(&mut self, job: &Job) -> Result<(), Mismatch> {
        let mut state = fitting(&mut self.dice, job);
        self.figures.saw(FITTING_STATE);
        if self.dice.once_in(4) {
            state = near_step_limit(&mut self.dice, state);
            self.figures.saw(NEAR_STEP_LIMIT);
        }
        let rows = total_rows(job);
        let length = rows + self.dice.below(3);
        let marks = match self.dice.once_in(2) {
            true => vec![0; length],
            false => {
                self.figures.saw(FOREIGN_MARKS);
                self.any_marks(length)
            }
        };
        let few = self.dice.below(40) as u32;
        let budget = match rows <= FEW_ROWS {
            true => self.dice.one(&[0, 1, few, few, u32::MAX]),
            false => few,
        };
        let area = self.dice.below(5 * job.k);
        let stop = self.run(state.flat(), marks, budget, area)?;
        self.hold(stop.is_some(), "a fitting state was refused")
    }

    /// 13: "state does not fit the job".
    fn misfit(&mut self, job: &Job) -> Result<(), Mismatch> {
        let respect = self.dice.one(&MISFITS);
        let Some(state) = misfit(&mut self.dice, job, respect) else {
            return Ok(());
        };
        self.figures.saw(respect);
        let length = total_rows(job) + self.dice.below(3);
        let marks = self.any_marks(length);
        let budget = self.dice.below(20) as u32;
        let area = self.dice.below(3 * job.k);
        let stop = self.run(state, marks, budget, area)?;
        // Arbitrary numbers may happen to fit.
        let refused = stop.is_none() || respect == ARBITRARY_STATE;
        self.hold(refused, "a state that does not fit was run")
    }
}

// ---- records --------------------------------------------------------------------

impl Trial<'_> {
    /// Joins the values of some of these records, and of others that do not fit.
    pub fn values(&mut self, job: &Job, records: &[u32]) -> Result<(), Mismatch> {
        let all: Vec<&[u32]> = records.chunks(job.k).collect();
        for _ in 0..all.len().min(3) {
            let record = self.dice.one(&all);
            self.good_record(job, record)?;
        }
        let some = match all.len() {
            0 => vec![0; job.k],
            _ => self.dice.one(&all).to_vec(),
        };
        self.bad_record(job, some)
    }

    /// A record of a run, with a value area that is long enough, longer, or too
    /// short: 15.
    fn good_record(&mut self, job: &Job, record: &[u32]) -> Result<(), Mismatch> {
        let columns = distinct_columns(job);
        let longer = self.dice.below(4);
        let length = match self.dice.below(5) {
            0 => columns - 1,
            1 => self.dice.below(columns),
            _ => columns + longer,
        };
        if length + 1 == columns {
            self.figures.saw(VALUES_SHORT_BY_ONE);
        } else if length < columns {
            self.figures.saw(VALUES_MUCH_SHORT);
        } else if length > columns {
            self.figures.saw(VALUES_LONGER);
        }
        let number = self.join_values(record, length)?;
        let right = if length < columns { 15 } else { 0 };
        self.hold(number == right, "a run's record does not fit")
    }

    /// 14: "a record fits when it has k row numbers, each in range, and any two
    /// of its rows agree on every shared column". The value area may be too
    /// short as well.
    fn bad_record(&mut self, job: &Job, record: Vec<u32>) -> Result<(), Mismatch> {
        let (kind, record) = self.made_bad(job, record);
        let columns = distinct_columns(job);
        let short = self.dice.once_in(4);
        let length = match short {
            true => columns - 1,
            false => columns + self.dice.below(2),
        };
        // Another row, or an arbitrary one, may happen to fit.
        if self.join_values(&record, length)? == 14 {
            self.figures.saw(kind);
            if short {
                self.figures.saw(RECORD_AND_VALUES);
            }
        }
        Ok(())
    }

    /// The record with something wrong, and what that is.
    fn made_bad(&mut self, job: &Job, mut record: Vec<u32>) -> (&'static str, Vec<u32>) {
        let rows = row_counts(job);
        let p = self.dice.below(job.k);
        let any = self.dice.number();
        let kind = self.dice.one(&[
            RECORD_SHORT,
            RECORD_LONG,
            ROW_TOO_HIGH,
            ROWS_DISAGREE,
            ROWS_DISAGREE,
            ARBITRARY_RECORD,
        ]);
        match kind {
            RECORD_SHORT => record.truncate(p),
            RECORD_LONG => record.extend(vec![0; 1 + self.dice.below(MOST_NUMBERS - 8)]),
            ROW_TOO_HIGH => {
                let least = rows[p];
                record[p] = self.dice.one(&[least, least, least + 1, any.max(least)]);
            }
            ROWS_DISAGREE => record[p] = any % rows[p].max(1),
            _ => record = (0..job.k).map(|_| self.dice.below(8) as u32).collect(),
        }
        (kind, record)
    }
}

fn distinct_columns(job: &Job) -> usize {
    let all = job.entries.iter().fold(0, |all, entry| all | entry.mask);
    all.count_ones() as usize
}
