//! Engines that are wrong on purpose: the tests must find each of them.

use super::calls::{run_numbers, Answer};
use super::engine::{Engine, Mismatch};
use super::figures::Figures;
use super::memory::{Memory, Operations};
use super::trial::try_job;
use crate::join::join_values;
use crate::reader::read;
use crate::runner::{begin, total_rows, FLAT};

/// What is wrong.
#[derive(Clone, Copy, Debug, PartialEq, Eq)]
enum Wrong {
    Nothing,
    /// A place after the last record is written.
    PlaceLeft,
    /// A byte of the mark area after the job's rows is written.
    LaterMark,
    /// A refused call writes to its mark area.
    MarkOnRefusal,
    /// A place after the last value is written.
    LaterValue,
    /// A refused call writes to its value area.
    ValueOnRefusal,
    /// A refusal has another place.
    Place,
    /// One number of the next state is another.
    StateNumber,
    /// The wanting room is tested before the budget.
    ReasonOrder,
    /// A refusal hands something back beside number and place.
    RestOnRefusal,
    /// Numbers of no state are refused before the file is looked at.
    StateFirst,
    /// A short value area is refused before a record that does not fit.
    ValuesFirst,
    /// Marking writes 2.
    MarkOf2,
    /// Marks of other bytes than 1 become 1.
    MarksTidied,
    /// The parents of an accepted job are handed back one too high.
    Parents,
}

/// The model, with something wrong.
struct Model(Wrong);

impl Model {
    fn is(&self, wrong: Wrong) -> bool {
        self.0 == wrong
    }
}

/// Changes the last number, if there is one.
fn spoil<T: Copy>(numbers: &mut [T], change: impl Fn(T) -> T) {
    if let Some(last) = numbers.last_mut() {
        *last = change(*last);
    }
}

impl Operations for Model {
    fn read(&mut self, file: &[u8]) -> Vec<u64> {
        let answer = Answer::Read(read(file));
        let mut numbers = answer.numbers();
        if numbers[0] > 0 && self.is(Wrong::Place) {
            numbers[1] += 1;
        }
        if numbers[0] > 0 && self.is(Wrong::RestOnRefusal) {
            spoil(&mut numbers, |n| n + 1);
        }
        if numbers[0] == 0 && self.is(Wrong::Parents) {
            numbers[44] += 1;
        }
        numbers
    }

    fn begin(&mut self, file: &[u8], marks: &mut [u8]) -> Vec<u64> {
        let answer = begin(file, marks);
        if answer.is_err() && self.is(Wrong::MarkOnRefusal) {
            spoil(marks, |mark| mark ^ 1);
        }
        if answer.is_ok() && self.is(Wrong::LaterMark) {
            let rows = total_rows(&read(file).unwrap());
            spoil(&mut marks[rows..], |mark| mark ^ 1);
        }
        Answer::Begun(answer).numbers()
    }

    fn run(
        &mut self,
        file: &[u8],
        state: &[u32; FLAT],
        marks: &mut [u8],
        budget: u32,
        area: &mut [u32],
    ) -> Vec<u64> {
        if self.is(Wrong::StateFirst) && state[0] > 2 {
            let mut numbers = vec![13, 0];
            numbers.resize(3 + FLAT, 0);
            return numbers;
        }
        let before = marks.to_vec();
        let answer = run_numbers(file, state, marks, budget, area);
        let accepted = answer.is_ok();
        let mut numbers = Answer::Ran(answer).numbers();
        if accepted {
            self.spoil_run(state, &before, marks, area, &mut numbers);
        }
        numbers
    }

    fn join_values(&mut self, file: &[u8], record: &[u32], values: &mut [i32]) -> Vec<u64> {
        let mut answer = join_values(file, record, values);
        if let (Ok(columns), true) = (answer, self.is(Wrong::LaterValue)) {
            spoil(&mut values[columns..], |value| value ^ 1);
        }
        if answer.is_err() && self.is(Wrong::ValueOnRefusal) {
            spoil(values, |value| value ^ 1);
        }
        if let (Err(refusal), true) = (&mut answer, self.is(Wrong::ValuesFirst)) {
            if refusal.number == 14 && values.len() < distinct_columns(file) {
                refusal.number = 15;
            }
        }
        Answer::Joined(answer).numbers()
    }
}

impl Model {
    /// Makes wrong what an accepted run call left.
    fn spoil_run(
        &self,
        state: &[u32; FLAT],
        before: &[u8],
        marks: &mut [u8],
        area: &mut [u32],
        numbers: &mut [u64],
    ) {
        match self.0 {
            Wrong::PlaceLeft => {
                // A record has at most 8 numbers, so what follows so many is free.
                let records = numbers[16] - u64::from(state[13]);
                let filled = (records as usize * 8).min(area.len());
                spoil(&mut area[filled..], |place| place ^ 1);
            }
            Wrong::StateNumber => numbers[6] += 1,
            Wrong::ReasonOrder if numbers[2] == 2 && area.is_empty() => numbers[2] = 3,
            Wrong::MarkOf2 => {
                let written = marks
                    .iter_mut()
                    .zip(before)
                    .filter(|(now, then)| now != then);
                written.for_each(|(now, _)| *now = 2);
            }
            Wrong::MarksTidied => marks.iter_mut().for_each(|mark| *mark = (*mark).min(1)),
            _ => {}
        }
    }
}

fn distinct_columns(file: &[u8]) -> usize {
    let job = read(file).expect("14 is given for an accepted job");
    let all = job.entries.iter().fold(0, |all, entry| all | entry.mask);
    all.count_ones() as usize
}

/// What some jobs find in the model with something wrong.
fn found(wrong: Wrong) -> Result<(), Mismatch> {
    let mut engine = Memory::new(Model(wrong));
    let mut figures = Figures::default();
    for seed in 1..=600 {
        try_job(seed, &mut engine, &mut figures)?;
    }
    engine.finish()
}

#[test]
fn the_model_itself_is_right() {
    assert_eq!(found(Wrong::Nothing), Ok(()));
}

#[test]
fn changed_areas_are_found() {
    for (wrong, area) in [
        (Wrong::PlaceLeft, "area: place"),
        (Wrong::LaterMark, "marks: place"),
        (Wrong::MarkOnRefusal, "marks: place"),
        (Wrong::LaterValue, "value area: place"),
        (Wrong::ValueOnRefusal, "value area: place"),
        (Wrong::MarkOf2, "marks: place"),
        (Wrong::MarksTidied, "marks: place"),
    ] {
        let mismatch = found(wrong).expect_err("a wrong engine");
        assert!(mismatch.what.starts_with(area), "{wrong:?}: {mismatch:?}");
    }
}

#[test]
fn wrong_answers_are_found() {
    for wrong in [
        Wrong::Place,
        Wrong::StateNumber,
        Wrong::ReasonOrder,
        Wrong::RestOnRefusal,
        Wrong::StateFirst,
        Wrong::ValuesFirst,
        Wrong::Parents,
    ] {
        let mismatch = found(wrong).expect_err("a wrong engine");
        assert!(
            mismatch.what.starts_with("answer ["),
            "{wrong:?}: {mismatch:?}"
        );
    }
}

#[cfg(linked)]
#[test]
fn the_library_is_as_the_model() {
    let mut engine = Memory::new(super::linked::Linked::default());
    let mut figures = Figures::default();
    for seed in 1..=1_000 {
        assert_eq!(try_job(seed, &mut engine, &mut figures), Ok(()));
    }
}
