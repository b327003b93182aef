//! Runs of an accepted job: from its beginning to its end in calls of random
//! budgets and areas, and with a pause at every step.

use super::checks::{bounds_hold, joined};
use super::engine::Mismatch;
use super::kinds::*;
use super::trial::{Stop, Trial};
use crate::dice::Dice;
use crate::frames::MOST_AREA;
use crate::reader::Job;
use crate::runner::{run, total_rows, Kind, Reason, State};

/// Steps up to which every pause is tried, always and now and then.
const FEW_STEPS: u32 = 24;
const SOME_STEPS: u32 = 120;

/// Calls after which a run goes on with the greatest budget and area.
const MANY_CALLS: usize = 60;

/// The uninterrupted run of a job.
struct Whole {
    state: State,
    marks: Vec<u8>,
    records: Vec<u32>,
}

/// How a run is cut into calls: about so many steps and records in each.
struct Pace {
    k: usize,
    steps: usize,
    records: usize,
}

impl Pace {
    fn draw(dice: &mut Dice, job: &Job, whole: &Whole) -> Pace {
        let calls = dice.one(&[1, 1, 2, 3, 5, 9]);
        Pace {
            k: job.k,
            steps: 1 + whole.state.steps as usize / calls,
            records: 1 + whole.state.records as usize / calls,
        }
    }

    /// The budget of the next call; 0 and the greatest now and then.
    fn budget(&self, dice: &mut Dice) -> u32 {
        let about = 1 + dice.below(2 * self.steps) as u32;
        match dice.below(16) {
            0 => 0,
            1..=2 => u32::MAX,
            _ => about,
        }
    }

    /// The area of the next call; now and then too small for a record.
    fn area(&self, dice: &mut Dice) -> usize {
        let records = 1 + dice.below(2 * self.records);
        let area = match dice.below(16) {
            0 => dice.below(self.k),
            1 => self.k - 1,
            2 => self.k,
            _ => records * self.k + dice.below(self.k + 1),
        };
        area.min(MOST_AREA)
    }
}

impl Trial<'_> {
    /// All runs from the beginning. Gives the records, or those that were seen
    /// of a job too great to be run to its end.
    pub fn walk(&mut self, job: &Job) -> Result<Vec<u32>, Mismatch> {
        let Some(records) = joined(self.file, job) else {
            return self.some_calls(job);
        };
        let whole = self.whole(job, records)?;
        for _ in 0..1 + self.dice.below(2) {
            self.carry_to_the_end(job, &whole)?;
        }
        self.pauses(job, &whole)?;
        Ok(whole.records)
    }

    /// The uninterrupted run by the model, whose records must be the natural
    /// join, and which must keep both bounds.
    fn whole(&mut self, job: &Job, records: Vec<u32>) -> Result<Whole, Mismatch> {
        let mut marks = vec![0; total_rows(job)];
        let mut area = vec![0; records.len() + job.k];
        let answer = run(self.file, State::fresh(), &mut marks, u32::MAX, &mut area);
        let (reason, state) = answer.expect("accepted");
        self.hold(reason == Reason::Ended, "the uninterrupted run did not end")?;
        area.truncate(state.records as usize * job.k);
        self.hold(area == records, "the records are not the natural join")?;
        self.hold(bounds_hold(job, &state, &marks), "a bound of demand 3")?;
        Ok(Whole {
            state,
            marks,
            records,
        })
    }

    /// Begins with a mark area that is long enough or longer.
    fn begun(&mut self, job: &Job) -> Result<Vec<u8>, Mismatch> {
        let longer = self.dice.below(4);
        self.figures.saw(match longer {
            0 => MARKS_EXACT,
            _ => MARKS_LONGER,
        });
        let marks = self.any_marks(total_rows(job) + longer);
        self.begin(marks)
    }

    /// Counts what is special about a run call.
    fn note(&mut self, job: &Job, budget: u32, area: usize, written: usize) {
        match budget {
            0 => self.figures.saw(NO_BUDGET),
            u32::MAX => self.figures.saw(GREATEST_BUDGET),
            _ => {}
        }
        if area + 1 == job.k {
            self.figures.saw(AREA_SHORT_BY_ONE);
        }
        if area == job.k {
            self.figures.saw(AREA_OF_ONE_RECORD);
        }
        if 0 < written && written < area {
            self.figures.saw(PLACES_LEFT);
        }
    }

    /// A run to its end in calls of random size. Together they give what the
    /// uninterrupted run gives.
    fn carry_to_the_end(&mut self, job: &Job, whole: &Whole) -> Result<(), Mismatch> {
        let pace = Pace::draw(&mut self.dice, job, whole);
        let mut marks = self.begun(job)?;
        let mut state = State::fresh();
        let mut records = Vec::new();
        let mut calls = 0;
        while state.kind != Kind::Ended {
            let (budget, area) = match calls < MANY_CALLS {
                true => (pace.budget(&mut self.dice), pace.area(&mut self.dice)),
                false => (u32::MAX, MOST_AREA),
            };
            let stop = self.run_on(&state, marks, budget, area)?;
            let written = written(job, &state, &stop);
            self.note(job, budget, area, written.len());
            records.extend(written);
            state = stop.state;
            marks = stop.marks;
            calls += 1;
        }
        self.figures.ended += 1;
        self.figures.records += u64::from(state.records);
        self.as_uninterrupted(whole, &state, &marks, &records)?;
        if self.dice.once_in(8) {
            // "after the end nothing more happens"
            let stop = self.run_on(&state, marks, 7, 7)?;
            self.hold(stop.state == state, "a step after the end")?;
        }
        Ok(())
    }

    /// The end of an interrupted run is that of the uninterrupted one.
    fn as_uninterrupted(
        &self,
        whole: &Whole,
        state: &State,
        marks: &[u8],
        records: &[u32],
    ) -> Result<(), Mismatch> {
        let rows = whole.marks.len();
        self.hold(*state == whole.state, "another state after pauses")?;
        self.hold(marks[..rows] == whole.marks, "other marks after pauses")?;
        self.hold(records == whole.records, "other records after pauses")
    }

    /// Every pause of a small run: so many steps, and then the rest.
    fn pauses(&mut self, job: &Job, whole: &Whole) -> Result<(), Mismatch> {
        let steps = whole.state.steps;
        let area = whole.records.len() + job.k;
        let small = steps <= FEW_STEPS || steps <= SOME_STEPS && self.dice.once_in(12);
        if !small || area > MOST_AREA {
            return Ok(());
        }
        for before in 0..=steps {
            let live = vec![0; whole.marks.len()];
            let first = self.run_on(&State::fresh(), live, before, area)?;
            let mut records = written(job, &State::fresh(), &first).to_vec();
            let rest = self.run_on(&first.state, first.marks, u32::MAX, area)?;
            records.extend(written(job, &first.state, &rest));
            self.as_uninterrupted(whole, &rest.state, &rest.marks, &records)?;
            self.figures.pause_points += 1;
        }
        Ok(())
    }

    /// Some calls from the beginning of a job that is too great to be run to its
    /// end. Gives the records that were seen.
    fn some_calls(&mut self, job: &Job) -> Result<Vec<u32>, Mismatch> {
        self.figures.left += 1;
        let mut marks = self.begun(job)?;
        let mut state = State::fresh();
        let mut records = Vec::new();
        for _ in 0..4 {
            let budget = self.dice.below(400) as u32;
            let area = self.dice.below(MOST_AREA + 1);
            let stop = self.run_on(&state, marks, budget, area)?;
            records.extend(written(job, &state, &stop));
            state = stop.state;
            marks = stop.marks;
        }
        self.figures.records += u64::from(state.records);
        Ok(records)
    }
}

/// The records that a call wrote to the front of its area.
fn written<'a>(job: &Job, before: &State, stop: &'a Stop) -> &'a [u32] {
    &stop.area[..(stop.state.records - before.records) as usize * job.k]
}
