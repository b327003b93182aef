//! The calls that are made for one job.

use super::calls::{Answer, Call, Operation, Outcome};
use super::engine::{At, Engine, Mismatch};
use super::figures::Figures;
use super::jobs::{make, Made};
use super::kinds::*;
use super::states::no_state;
use crate::dice::Dice;
use crate::faults::standing;
use crate::reader::{Job, Refusal};
use crate::runner::{total_rows, Reason, State, FLAT};

/// A job in the making of its calls.
pub struct Trial<'a> {
    pub seed: u64,
    pub calls: usize,
    pub file: &'a [u8],
    pub dice: Dice,
    pub engine: &'a mut dyn Engine,
    pub figures: &'a mut Figures,
}

/// What an accepted run call gave.
pub struct Stop {
    pub reason: Reason,
    pub state: State,
    pub marks: Vec<u8>,
    pub area: Vec<u32>,
}

/// The file of the job with this seed, and the dice for its calls.
pub fn file_of(seed: u64) -> (Made, Dice) {
    let mut dice = Dice::seeded(seed);
    let made = make(&mut dice);
    (made, dice)
}

/// Makes the job with this seed and all its calls.
pub fn try_job(seed: u64, engine: &mut dyn Engine, figures: &mut Figures) -> Result<(), Mismatch> {
    let (made, dice) = file_of(seed);
    figures.jobs += 1;
    made.kinds.iter().for_each(|kind| figures.saw(kind));
    figures.saw_faults(&standing(&made.file));
    let mut trial = Trial {
        seed,
        calls: 0,
        file: &made.file,
        dice,
        engine,
        figures,
    };
    match trial.read()? {
        Ok(job) => trial.accepted(&job),
        Err(_) => trial.refused(),
    }
}

// ---- single calls ---------------------------------------------------------------

impl Trial<'_> {
    /// Makes a call, has it compared, and gives what it left.
    fn make(&mut self, operation: Operation) -> Result<Outcome, Mismatch> {
        let file = self.file;
        let call = Call { file, operation };
        let expected = call.expected();
        self.calls += 1;
        self.figures.count(&expected.answer);
        self.engine.check(self.at(), &call, &expected)?;
        Ok(expected)
    }

    fn at(&self) -> At {
        At {
            seed: self.seed,
            call: self.calls,
        }
    }

    /// Goes on if the check holds.
    pub fn hold(&self, holds: bool, what: &str) -> Result<(), Mismatch> {
        match holds {
            true => Ok(()),
            false => Err(Mismatch {
                at: self.at(),
                what: what.to_string(),
                call: None,
            }),
        }
    }

    fn read(&mut self) -> Result<Result<Job, Refusal>, Mismatch> {
        match self.make(Operation::Read)?.answer {
            Answer::Read(answer) => Ok(answer),
            other => unreachable!("reading gave {other:?}"),
        }
    }

    /// Begins; gives the marks afterwards.
    pub fn begin(&mut self, marks: Vec<u8>) -> Result<Vec<u8>, Mismatch> {
        Ok(self.make(Operation::Begin { marks })?.marks)
    }

    /// A run call; gives nothing if it is refused.
    pub fn run(
        &mut self,
        state: [u32; FLAT],
        marks: Vec<u8>,
        budget: u32,
        area: usize,
    ) -> Result<Option<Stop>, Mismatch> {
        let area = self.engine.area(area);
        let outcome = self.make(Operation::Run {
            state,
            marks,
            budget,
            area,
        })?;
        let Answer::Ran(Ok((reason, state))) = outcome.answer else {
            return Ok(None);
        };
        Ok(Some(Stop {
            reason,
            state,
            marks: outcome.marks,
            area: outcome.area,
        }))
    }

    /// A run call that is not refused, for its state comes from a run.
    pub fn run_on(
        &mut self,
        state: &State,
        marks: Vec<u8>,
        budget: u32,
        area: usize,
    ) -> Result<Stop, Mismatch> {
        let stop = self.run(state.flat(), marks, budget, area)?;
        self.hold(stop.is_some(), "a state that was handed back does not fit")?;
        Ok(stop.expect("held"))
    }

    /// Joins values into an area of this length; gives the refusal's number, or
    /// 0.
    pub fn join_values(&mut self, record: &[u32], values: usize) -> Result<u32, Mismatch> {
        let values = self.engine.value_area(values);
        let record = record.to_vec();
        let outcome = self.make(Operation::JoinValues { record, values })?;
        Ok(outcome.answer.refusal().map_or(0, |refusal| refusal.number))
    }

    /// So many bytes of any content, about half of them 0.
    pub fn any_marks(&mut self, length: usize) -> Vec<u8> {
        let byte = |_| match self.dice.once_in(2) {
            true => 0,
            false => self.dice.number() as u8,
        };
        (0..length).map(byte).collect()
    }
}

// ---- a job's calls --------------------------------------------------------------

impl Trial<'_> {
    /// A refused file: the three other operations give its number too, whatever
    /// else is wrong.
    fn refused(&mut self) -> Result<(), Mismatch> {
        let marks = self.marks_for_a_refused_file();
        self.begin(marks)?;
        let marks = self.marks_for_a_refused_file();
        self.run_refused_file(marks)?;

        let length = self.dice.below(10);
        let any = self.dice.number();
        let record = vec![self.dice.one(&[0, 1, any]); length];
        if length == 0 || record[0] == any {
            self.figures.saw(FILE_AND_RECORD);
        }
        let values = self.dice.below(10);
        self.join_values(&record, values)?;
        Ok(())
    }

    /// No marks at all, or some.
    fn marks_for_a_refused_file(&mut self) -> Vec<u8> {
        let length = self.dice.one(&[0, 0, 3, 12]);
        if length == 0 {
            self.figures.saw(FILE_AND_MARKS);
        }
        self.any_marks(length)
    }

    /// A run call on a refused file, with a state that may be no state.
    fn run_refused_file(&mut self, marks: Vec<u8>) -> Result<(), Mismatch> {
        let respect = self.dice.one(&[FITTING_STATE, NO_KIND, ARBITRARY_STATE]);
        let state = match respect {
            FITTING_STATE => State::fresh().flat(),
            _ => {
                self.figures.saw(FILE_AND_STATE);
                no_state(&mut self.dice, &State::fresh(), respect)
            }
        };
        let budget = self.dice.below(20) as u32;
        let area = self.dice.below(20);
        self.run(state, marks, budget, area)?;
        Ok(())
    }

    /// An accepted file.
    fn accepted(&mut self, job: &Job) -> Result<(), Mismatch> {
        self.figures.accepted += 1;
        self.short_marks(job)?;
        let records = self.walk(job)?;
        self.forged_states(job)?;
        self.values(job, &records)
    }

    /// 12: "mark area shorter than the total of rows", by one or by more, and
    /// also with a state that does not fit.
    fn short_marks(&mut self, job: &Job) -> Result<(), Mismatch> {
        let rows = total_rows(job);
        if rows == 0 || !self.dice.once_in(3) {
            return Ok(());
        }
        let length = match self.dice.once_in(2) {
            true => rows - 1,
            false => self.dice.below(rows),
        };
        self.figures.saw(match length + 1 == rows {
            true => MARKS_SHORT_BY_ONE,
            false => MARKS_MUCH_SHORT,
        });
        let marks = self.any_marks(length);
        self.begin(marks.clone())?;
        let mut state = State::fresh().flat();
        if self.dice.once_in(2) {
            self.figures.saw(MARKS_AND_STATE);
            state = no_state(&mut self.dice, &State::fresh(), NO_KIND);
        }
        self.run(state, marks, 5, 10)?;
        Ok(())
    }
}
