//! What the calls are compared through.

use super::calls::{Call, Outcome};
use crate::frames::{EMPTY, NO_VALUE};

/// Which call of which job: the job's seed, and the call's number in it.
#[derive(Clone, Copy, Debug, PartialEq, Eq)]
pub struct At {
    pub seed: u64,
    pub call: usize,
}

/// A call whose outcome is not the expected one, or a check that failed after
/// it.
#[derive(Clone, Debug, PartialEq, Eq)]
pub struct Mismatch {
    pub at: At,
    pub what: String,
    /// The call, where it was at hand.
    pub call: Option<String>,
}

/// Makes calls and compares them with what the model expects.
pub trait Engine {
    /// What an area of this length holds when it is lent to a run call.
    fn area(&mut self, length: usize) -> Vec<u32>;

    /// What a value area of this length holds when it is lent.
    fn value_area(&mut self, length: usize) -> Vec<i32>;

    /// Makes a call and compares. The comparison may come later, at `finish`
    /// at the latest.
    fn check(&mut self, at: At, call: &Call, expected: &Outcome) -> Result<(), Mismatch>;

    /// Compares what is not compared yet.
    fn finish(&mut self) -> Result<(), Mismatch>;
}

/// Makes no call, and keeps one of those that it is asked for: to say what a
/// call was, once its number is known.
#[derive(Default)]
pub struct Recorder {
    pub number: usize,
    pub kept: Option<String>,
}

impl Engine for Recorder {
    fn area(&mut self, length: usize) -> Vec<u32> {
        vec![EMPTY; length]
    }

    fn value_area(&mut self, length: usize) -> Vec<i32> {
        vec![NO_VALUE; length]
    }

    fn check(&mut self, at: At, call: &Call, _: &Outcome) -> Result<(), Mismatch> {
        if at.call == self.number {
            self.kept = Some(format!("{:?}", call.operation));
        }
        Ok(())
    }

    fn finish(&mut self) -> Result<(), Mismatch> {
        Ok(())
    }
}
