//! The linked library's operations. Each call goes through one of the crate's
//! two layers: the foreign functions, whose answers show that all the rest is 0
//! in a refusal, or the safe functions that a caller uses.

use korrigwen::{foreign, Entry, Job, Refusal, State};

use super::memory::Operations;
use crate::dice::Dice;
use crate::runner::FLAT;

/// The library.
pub struct Linked {
    dice: Dice,
}

impl Default for Linked {
    fn default() -> Linked {
        Linked {
            dice: Dice::seeded(1),
        }
    }
}

impl Linked {
    /// Whether this call goes through the safe function.
    fn safe(&mut self) -> bool {
        self.dice.once_in(2)
    }
}

impl Operations for Linked {
    fn read(&mut self, file: &[u8]) -> Vec<u64> {
        if self.safe() {
            return match korrigwen::read(file) {
                Ok(job) => reading_numbers(0, 0, &job),
                Err(refusal) => refused(refusal, 51),
            };
        }
        let reading = foreign::read(file);
        let job = Job {
            k: reading.k,
            plan: reading.plan,
            entries: reading.entries,
            parents: reading.parents,
        };
        reading_numbers(reading.number, reading.place, &job)
    }

    fn begin(&mut self, file: &[u8], marks: &mut [u8]) -> Vec<u64> {
        if self.safe() {
            return match korrigwen::begin(file, marks) {
                Ok(state) => with_state(vec![0, 0], state),
                Err(refusal) => refused(refusal, 2 + FLAT),
            };
        }
        let begun = foreign::begin(file, marks);
        let numbers = vec![u64::from(begun.number), begun.place as u64];
        with_state(numbers, begun.state)
    }

    fn run(
        &mut self,
        file: &[u8],
        state: &[u32; FLAT],
        marks: &mut [u8],
        budget: u32,
        area: &mut [u32],
    ) -> Vec<u64> {
        let state = State::from(*state);
        if self.safe() {
            return match korrigwen::run(file, &state, marks, budget, area) {
                Ok((reason, next)) => with_state(vec![0, 0, reason_number(reason)], next),
                Err(refusal) => refused(refusal, 3 + FLAT),
            };
        }
        let ran = foreign::run(file, &state, marks, budget, area);
        let numbers = [ran.number.into(), ran.place as u64, ran.reason.into()];
        with_state(numbers.to_vec(), ran.state)
    }

    fn join_values(&mut self, file: &[u8], record: &[u32], values: &mut [i32]) -> Vec<u64> {
        if self.safe() {
            return match korrigwen::join_values(file, record, values) {
                Ok(columns) => vec![0, 0, columns as u64],
                Err(refusal) => refused(refusal, 3),
            };
        }
        let joined = foreign::join_values(file, record, values);
        vec![
            u64::from(joined.number),
            joined.place as u64,
            joined.columns as u64,
        ]
    }
}

/// Number and place, then zeros up to this many numbers.
fn refused(refusal: Refusal, length: usize) -> Vec<u64> {
    let mut numbers = vec![u64::from(refusal.number), refusal.place as u64];
    numbers.resize(length, 0);
    numbers
}

fn reading_numbers(number: u32, place: usize, job: &Job) -> Vec<u64> {
    let entry = |entry: &Entry| [entry.fields, entry.rows, entry.mask, entry.offset];
    let mut numbers = vec![u64::from(number), place as u64, job.k as u64];
    numbers.extend(job.plan.map(u64::from));
    numbers.extend(job.entries.iter().flat_map(entry).map(u64::from));
    numbers.extend(job.parents.map(|parent| parent as u64));
    numbers
}

fn with_state(mut numbers: Vec<u64>, state: State) -> Vec<u64> {
    numbers.extend(<[u32; FLAT]>::from(state).map(u64::from));
    numbers
}

fn reason_number(reason: korrigwen::Reason) -> u64 {
    use korrigwen::Reason::*;
    match reason {
        Ended => 0,
        StepLimit => 1,
        BudgetSpent => 2,
        NoRoom => 3,
    }
}
