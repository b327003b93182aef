//! A call of an operation, what the model expects of it, and answers as
//! numbers.

use crate::join::join_values;
use crate::reader::{read, Job, Refusal};
use crate::runner::{begin, run, Reason, State, FLAT};

/// One call: the file, the operation, and all that is handed over and lent.
#[derive(Clone, Debug)]
pub struct Call<'a> {
    pub file: &'a [u8],
    pub operation: Operation,
}

/// An operation with what it gets beside the file; lent areas as they come.
#[derive(Clone, Debug)]
pub enum Operation {
    Read,
    Begin {
        marks: Vec<u8>,
    },
    Run {
        state: [u32; FLAT],
        marks: Vec<u8>,
        budget: u32,
        area: Vec<u32>,
    },
    JoinValues {
        record: Vec<u32>,
        values: Vec<i32>,
    },
}

/// What an operation answered.
#[derive(Clone, Debug, PartialEq, Eq)]
pub enum Answer {
    Read(Result<Job, Refusal>),
    Begun(Result<State, Refusal>),
    Ran(Result<(Reason, State), Refusal>),
    Joined(Result<usize, Refusal>),
}

/// What a call left: its answer, and every lent area. An area that the
/// operation does not have is empty.
#[derive(Clone, Debug, PartialEq, Eq)]
pub struct Outcome {
    pub answer: Answer,
    pub marks: Vec<u8>,
    pub area: Vec<u32>,
    pub values: Vec<i32>,
}

impl Call<'_> {
    /// What the model answers and leaves.
    pub fn expected(&self) -> Outcome {
        let mut marks = Vec::new();
        let mut area = Vec::new();
        let mut values = Vec::new();
        let answer = match &self.operation {
            Operation::Read => Answer::Read(read(self.file)),
            Operation::Begin { marks: lent } => {
                marks.clone_from(lent);
                Answer::Begun(begin(self.file, &mut marks))
            }
            Operation::Run {
                state,
                marks: lent_marks,
                budget,
                area: lent_area,
            } => {
                marks.clone_from(lent_marks);
                area.clone_from(lent_area);
                let answer = run_numbers(self.file, state, &mut marks, *budget, &mut area);
                Answer::Ran(answer)
            }
            Operation::JoinValues {
                record,
                values: lent,
            } => {
                values.clone_from(lent);
                Answer::Joined(join_values(self.file, record, &mut values))
            }
        };
        Outcome {
            answer,
            marks,
            area,
            values,
        }
    }
}

/// The model's run for any 14 numbers. Numbers of no state get 13, which comes
/// after all that is wrong with the file and the mark area.
pub fn run_numbers(
    file: &[u8],
    numbers: &[u32; FLAT],
    marks: &mut [u8],
    budget: u32,
    area: &mut [u32],
) -> Result<(Reason, State), Refusal> {
    match State::from_flat(numbers) {
        Some(state) => run(file, state, marks, budget, area),
        None => {
            begin(file, &mut marks.to_vec())?;
            Err(Refusal {
                number: 13,
                place: 0,
            })
        }
    }
}

impl Answer {
    /// The refusal, if it is one.
    pub fn refusal(&self) -> Option<Refusal> {
        match self {
            Answer::Read(answer) => answer.as_ref().err(),
            Answer::Begun(answer) => answer.as_ref().err(),
            Answer::Ran(answer) => answer.as_ref().err(),
            Answer::Joined(answer) => answer.as_ref().err(),
        }
        .copied()
    }

    /// The answer as the C interface has it (include/korrigwen.h): number and
    /// place, 0 and 0 where it is accepted, then all the rest, which is 0 in a
    /// refusal.
    pub fn numbers(&self) -> Vec<u64> {
        let refusal = self.refusal().map_or([0, 0], |refusal| {
            [u64::from(refusal.number), u64::from(refusal.place)]
        });
        let mut numbers = refusal.to_vec();
        match self {
            Answer::Read(Ok(job)) => put_job(job, &mut numbers),
            Answer::Begun(Ok(state)) => numbers.extend(state.flat().map(u64::from)),
            Answer::Ran(Ok((reason, state))) => {
                numbers.push(u64::from(reason.number()));
                numbers.extend(state.flat().map(u64::from));
            }
            Answer::Joined(Ok(columns)) => numbers.push(*columns as u64),
            _ => {}
        }
        numbers.resize(self.length(), 0);
        numbers
    }

    /// How many numbers the C interface has for this answer.
    fn length(&self) -> usize {
        match self {
            Answer::Read(_) => 2 + 1 + 8 + 4 * 8 + 8,
            Answer::Begun(_) => 2 + FLAT,
            Answer::Ran(_) => 2 + 1 + FLAT,
            Answer::Joined(_) => 2 + 1,
        }
    }
}

/// k, the plan, the entries and the parents. Places from k on and the root's
/// parent are 0.
fn put_job(job: &Job, numbers: &mut Vec<u64>) {
    let mut plan = [0; 8];
    let mut entries = [[0; 4]; 8];
    let mut parents = [0; 8];
    for i in 0..job.k {
        let entry = job.entries[i];
        plan[i] = u64::from(job.plan[i]);
        entries[i] = [entry.fields, entry.rows, entry.mask, entry.offset].map(u64::from);
        parents[i] = job.parents[i].unwrap_or(0) as u64;
    }
    numbers.push(job.k as u64);
    numbers.extend(plan);
    numbers.extend(entries.as_flattened());
    numbers.extend(parents);
}

#[cfg(test)]
mod tests {
    use super::*;
    use crate::build::job_w;

    fn numbers(file: &[u8], operation: Operation) -> Vec<u64> {
        Call { file, operation }.expected().answer.numbers()
    }

    #[test]
    fn numbers_of_w() {
        let reading = numbers(&job_w(), Operation::Read);
        assert_eq!(reading.len(), 51);
        assert_eq!(reading[..11], [0, 0, 3, 0, 1, 2, 0, 0, 0, 0, 0]);
        assert_eq!(reading[11..19], [2, 2, 3, 60, 2, 3, 6, 76]);
        assert_eq!(reading[43..], [0, 0, 1, 0, 0, 0, 0, 0]);
        let begun = numbers(&job_w(), Operation::Begin { marks: vec![1; 6] });
        assert_eq!(begun, [0, 0, 1, 0, 0, 0, 0, 0, 0, 0, 0, 0, 0, 0, 0, 0]);
    }

    #[test]
    fn a_refusal_is_number_and_place_alone() {
        let reading = numbers(&job_w()[..103], Operation::Read);
        assert_eq!(reading[..2], [9, 2]);
        assert!(reading.len() == 51 && reading[2..].iter().all(|&n| n == 0));
    }

    #[test]
    fn no_state_comes_after_file_and_marks() {
        let number = |file: &[u8], marks: usize| {
            let answer = run_numbers(file, &[3; FLAT], &mut vec![0; marks], 1, &mut []);
            answer.unwrap_err().number
        };
        assert_eq!(number(&job_w()[..11], 0), 1);
        assert_eq!(number(&job_w(), 5), 12);
        assert_eq!(number(&job_w(), 6), 13);
    }
}
