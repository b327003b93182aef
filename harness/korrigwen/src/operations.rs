//! The four operations, with a refusal as an error.

use std::error::Error;
use std::fmt;

use crate::foreign::{self, Entry, State};

/// Why an operation was refused: the number in document 01's table and its place.
#[derive(Clone, Copy, Debug, PartialEq, Eq, Hash)]
pub struct Refusal {
    /// 1 to 15.
    pub number: u32,
    /// The faulty plan byte, entry or plan position; 0 where the number says it all.
    pub place: usize,
}

impl fmt::Display for Refusal {
    /// The line that the program prints.
    fn fmt(&self, to: &mut fmt::Formatter) -> fmt::Result {
        write!(to, "refused {} at {}", self.number, self.place)
    }
}

impl Error for Refusal {}

/// An accepted job. Places from `k` on are 0, and so is the root's parent.
#[derive(Clone, Copy, Debug, PartialEq, Eq)]
pub struct Job {
    /// The number of tables.
    pub k: usize,
    /// Table numbers, in plan order.
    pub plan: [u8; 8],
    /// The contents entries, by table number.
    pub entries: [Entry; 8],
    /// The parents' plan positions, in plan order.
    pub parents: [usize; 8],
}

impl Job {
    /// The total of rows: how many bytes a mark area needs.
    pub fn rows(&self) -> usize {
        self.entries.iter().map(|entry| entry.rows as usize).sum()
    }

    /// The number of distinct columns: how many places a value area needs.
    pub fn columns(&self) -> usize {
        let all = self.entries.iter().fold(0, |all, entry| all | entry.mask);
        all.count_ones() as usize
    }
}

/// Why a run stopped, in the order in which it is tested before each step.
#[derive(Clone, Copy, Debug, PartialEq, Eq, Hash)]
pub enum Reason {
    /// The run has ended.
    Ended,
    /// The step count is at [`crate::STEP_LIMIT`].
    StepLimit,
    /// The call took as many steps as it was allowed.
    BudgetSpent,
    /// The area has fewer free places than the job has tables.
    NoRoom,
}

impl Reason {
    /// The reason with this number. The library gives no other.
    fn numbered(number: u32) -> Reason {
        match number {
            0 => Reason::Ended,
            1 => Reason::StepLimit,
            2 => Reason::BudgetSpent,
            3 => Reason::NoRoom,
            _ => unreachable!("reasons are 0 to 3"),
        }
    }
}

/// The refusal, unless the number is 0.
fn accepted(number: u32, place: usize) -> Result<(), Refusal> {
    match number {
        0 => Ok(()),
        _ => Err(Refusal { number, place }),
    }
}

/// Reads and checks a job file: refusals 1 to 11.
pub fn read(file: &[u8]) -> Result<Job, Refusal> {
    let reading = foreign::read(file);
    accepted(reading.number, reading.place)?;
    Ok(Job {
        k: reading.k,
        plan: reading.plan,
        entries: reading.entries,
        parents: reading.parents,
    })
}

/// Begins a run and gives the fresh state: refusals 1 to 12. The first bytes of the mark area, one
/// for each row of the job, become 0; no other byte is written.
pub fn begin(file: &[u8], marks: &mut [u8]) -> Result<State, Refusal> {
    let begun = foreign::begin(file, marks);
    accepted(begun.number, begun.place)?;
    Ok(begun.state)
}

/// Takes at most `budget` steps and gives the reason for stopping and the next state: refusals 1 to
/// 13. The records that the call completed, as many as `records` went up, stand at the front of the
/// area, k row numbers each in plan order; later places are untouched.
pub fn run(
    file: &[u8],
    state: &State,
    marks: &mut [u8],
    budget: u32,
    area: &mut [u32],
) -> Result<(Reason, State), Refusal> {
    let ran = foreign::run(file, state, marks, budget, area);
    accepted(ran.number, ran.place)?;
    Ok((Reason::numbered(ran.reason), ran.state))
}

/// Joins a record's values and gives the number of distinct columns: refusals 1 to 11, 14 and 15.
/// The values, ascending by column, stand at the front of the value area; later places are
/// untouched.
pub fn join_values(file: &[u8], record: &[u32], values: &mut [i32]) -> Result<usize, Refusal> {
    let joined = foreign::join_values(file, record, values);
    accepted(joined.number, joined.place)?;
    Ok(joined.columns)
}

#[cfg(test)]
mod tests;
