//! An engine in this process: it lends parts of longer buffers, makes the call
//! at once, and compares every number of the answer and every byte of the
//! buffers.

use std::fmt::Debug;

use super::calls::{Call, Operation, Outcome};
use super::engine::{At, Engine, Mismatch};
use crate::dice::Dice;
use crate::runner::FLAT;

/// The four operations. Each gives its answer as `Answer::numbers` does.
pub trait Operations {
    fn read(&mut self, file: &[u8]) -> Vec<u64>;

    fn begin(&mut self, file: &[u8], marks: &mut [u8]) -> Vec<u64>;

    fn run(
        &mut self,
        file: &[u8],
        state: &[u32; FLAT],
        marks: &mut [u8],
        budget: u32,
        area: &mut [u32],
    ) -> Vec<u64>;

    fn join_values(&mut self, file: &[u8], record: &[u32], values: &mut [i32]) -> Vec<u64>;
}

/// The engine.
pub struct Memory<O: Operations> {
    operations: O,
    /// For the contents of areas and guard zones. They are drawn apart from the
    /// jobs, so that a seed gives the same job through every engine.
    dice: Dice,
}

impl<O: Operations> Memory<O> {
    pub fn new(operations: O) -> Memory<O> {
        Memory {
            operations,
            dice: Dice::seeded(0),
        }
    }
}

impl<O: Operations> Engine for Memory<O> {
    fn area(&mut self, length: usize) -> Vec<u32> {
        (0..length).map(|_| self.dice.number()).collect()
    }

    fn value_area(&mut self, length: usize) -> Vec<i32> {
        (0..length).map(|_| self.dice.number() as i32).collect()
    }

    fn check(&mut self, at: At, call: &Call, expected: &Outcome) -> Result<(), Mismatch> {
        let left = self.make(call);
        match left.difference(call, expected) {
            Some(what) => Err(Mismatch {
                at,
                what,
                call: Some(format!("{:?}", call.operation)),
            }),
            None => Ok(()),
        }
    }

    fn finish(&mut self) -> Result<(), Mismatch> {
        Ok(())
    }
}

impl<O: Operations> Memory<O> {
    /// Makes the call on guarded copies of all that it gets.
    fn make(&mut self, call: &Call) -> Left {
        let mut file = Guarded::around(call.file, &mut self.dice);
        let mut left = Left::default();
        left.numbers = match &call.operation {
            Operation::Read => self.operations.read(file.part()),
            Operation::Begin { marks } => {
                left.marks = Guarded::around(marks, &mut self.dice);
                self.operations.begin(file.part(), left.marks.part())
            }
            Operation::Run {
                state,
                marks,
                budget,
                area,
            } => {
                left.marks = Guarded::around(marks, &mut self.dice);
                left.area = Guarded::around(area, &mut self.dice);
                let (marks, area) = (left.marks.part(), left.area.part());
                self.operations
                    .run(file.part(), state, marks, *budget, area)
            }
            Operation::JoinValues { record, values } => {
                left.record = Guarded::around(record, &mut self.dice);
                left.values = Guarded::around(values, &mut self.dice);
                let (record, values) = (left.record.part(), left.values.part());
                self.operations.join_values(file.part(), record, values)
            }
        };
        left.file = file;
        left
    }
}

/// What a call left: its answer, and every buffer.
#[derive(Default)]
struct Left {
    numbers: Vec<u64>,
    file: Guarded<u8>,
    record: Guarded<u32>,
    marks: Guarded<u8>,
    area: Guarded<u32>,
    values: Guarded<i32>,
}

impl Left {
    /// The first difference to what was expected. File and record are only
    /// read, so they must be as they came.
    fn difference(&self, call: &Call, expected: &Outcome) -> Option<String> {
        let numbers = expected.answer.numbers();
        if self.numbers != numbers {
            return Some(format!("answer {:?}, not {:?}", self.numbers, numbers));
        }
        let record: &[u32] = match &call.operation {
            Operation::JoinValues { record, .. } => record,
            _ => &[],
        };
        None.or_else(|| self.marks.difference("marks", &expected.marks))
            .or_else(|| self.area.difference("area", &expected.area))
            .or_else(|| self.values.difference("value area", &expected.values))
            .or_else(|| self.file.difference("file", call.file))
            .or_else(|| self.record.difference("record", record))
    }
}

/// A lent part inside a longer buffer. What stands before and after it is the
/// guard: no call may change it.
#[derive(Clone, Debug, Default)]
struct Guarded<T> {
    buffer: Vec<T>,
    first: usize,
    length: usize,
    /// The guard as it was: what stands before the part, then what follows it.
    guard: Vec<T>,
}

/// Places of guard after the part; before it there are 1 to as many, so that
/// the part starts at any alignment.
const GUARD: usize = 16;

impl<T: Copy + Debug + PartialEq + FromBits> Guarded<T> {
    fn around(part: &[T], dice: &mut Dice) -> Guarded<T> {
        let first = 1 + dice.below(GUARD);
        let guard: Vec<T> = (0..first + GUARD)
            .map(|_| T::from_bits(dice.number()))
            .collect();
        let mut buffer = Vec::with_capacity(guard.len() + part.len());
        buffer.extend(&guard[..first]);
        buffer.extend(part);
        buffer.extend(&guard[first..]);
        Guarded {
            buffer,
            first,
            length: part.len(),
            guard,
        }
    }

    /// The part that is lent.
    fn part(&mut self) -> &mut [T] {
        &mut self.buffer[self.first..self.first + self.length]
    }

    /// The first place where the part is not as expected, or the guard not as
    /// it was.
    fn difference(&self, name: &str, expected: &[T]) -> Option<String> {
        if self.length != expected.len() {
            return Some(format!("{name}: not as long as expected"));
        }
        // The compiler must not take for granted that a foreign function left the rest alone.
        let buffer = std::hint::black_box(&self.buffer);
        let (before, after) = self.guard.split_at(self.first);
        let wanted = before.iter().chain(expected).chain(after);
        let mut places = buffer.iter().zip(wanted).enumerate();
        let (place, (is, should)) = places.find(|(_, (is, should))| is != should)?;
        let place = place as i64 - self.first as i64;
        Some(format!("{name}: place {place} is {is:?}, not {should:?}"))
    }
}

/// Types of places in lent areas.
trait FromBits {
    fn from_bits(bits: u32) -> Self;
}

impl FromBits for u8 {
    fn from_bits(bits: u32) -> u8 {
        bits as u8
    }
}

impl FromBits for u32 {
    fn from_bits(bits: u32) -> u32 {
        bits
    }
}

impl FromBits for i32 {
    fn from_bits(bits: u32) -> i32 {
        bits as i32
    }
}

#[cfg(test)]
mod tests {
    use super::*;

    #[test]
    fn a_changed_place_is_found() {
        let lent = Guarded::around(&[1u32, 2, 3], &mut Dice::seeded(1));
        assert_eq!(lent.difference("area", &[1, 2, 3]), None);
        let found = lent.difference("area", &[1, 2, 4]).unwrap();
        assert_eq!(found, "area: place 2 is 3, not 4");
        assert!(lent.difference("area", &[1, 2]).is_some());
    }

    #[test]
    fn a_changed_guard_is_found() {
        let lent = Guarded::around(&[5u8; 4], &mut Dice::seeded(2));
        for place in [0, lent.first - 1, lent.first + 4, lent.buffer.len() - 1] {
            let mut changed = lent.clone();
            changed.buffer[place] ^= 1;
            let found = changed.difference("marks", &[5; 4]).unwrap();
            let told = format!("place {} is", place as i64 - lent.first as i64);
            assert!(found.contains(&told), "{found}");
        }
    }
}
