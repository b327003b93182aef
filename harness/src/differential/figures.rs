//! What was seen: counts for the line of figures, and what must not be missing
//! from a run.

use std::collections::{BTreeMap, BTreeSet};

use super::calls::Answer;
use super::kinds::KINDS;

/// Pairs of refusals that can stand in one file: any two of 1 to 11 but 3 and
/// 10, and 9 and 10, for a file that is too short has no bytes left over.
const PAIRS: usize = 11 * 10 / 2 - 2;

/// Names of the operations, as in the counts.
const OPERATIONS: [&str; 4] = ["read", "begin", "run", "join values"];

/// The counts.
#[derive(Clone, Debug, Default)]
pub struct Figures {
    pub jobs: u64,
    pub accepted: u64,
    pub calls: u64,
    pub ended: u64,
    /// Accepted jobs too great to be run to their end.
    pub left: u64,
    pub records: u64,
    pub pause_points: u64,
    /// By operation and number.
    refused: [[u64; 16]; 4],
    /// By reason for stopping.
    stopped: [u64; 4],
    /// Numbers and places that reading gave.
    places: BTreeSet<(u32, u32)>,
    /// Pairs of refusals that stood in one file.
    pairs: BTreeSet<(u32, u32)>,
    kinds: BTreeMap<&'static str, u64>,
}

impl Figures {
    /// Counts a call and its answer.
    pub fn count(&mut self, answer: &Answer) {
        self.calls += 1;
        let operation = match answer {
            Answer::Read(_) => 0,
            Answer::Begun(_) => 1,
            Answer::Ran(_) => 2,
            Answer::Joined(_) => 3,
        };
        if let Some(refusal) = answer.refusal() {
            self.refused[operation][refusal.number as usize] += 1;
            if operation == 0 {
                self.places.insert((refusal.number, refusal.place));
            }
        }
        if let Answer::Ran(Ok((reason, _))) = answer {
            self.stopped[reason.number() as usize] += 1;
        }
    }

    /// Counts a kind of job, damage or lent area.
    pub fn saw(&mut self, kind: &'static str) {
        debug_assert!(KINDS.contains(&kind), "{kind}");
        *self.kinds.entry(kind).or_default() += 1;
    }

    /// Notes the pairs among the faults that stand in a file.
    pub fn saw_faults(&mut self, faults: &[(u32, u32)]) {
        for &(a, _) in faults {
            let after = faults.iter().filter(|fault| fault.0 > a);
            self.pairs.extend(after.map(|&(b, _)| (a, b)));
        }
    }

    /// The line of figures.
    pub fn line(&self) -> String {
        let mut line = format!(
            "jobs {} accepted {} too great to be run to their end {} calls {}",
            self.jobs, self.accepted, self.left, self.calls
        );
        line += &format!(
            " runs to the end {} records {} pause points {}",
            self.ended, self.records, self.pause_points
        );
        line += " stopped";
        for (reason, count) in self.stopped.iter().enumerate() {
            line += &format!(" {reason}:{count}");
        }
        for (operation, name) in OPERATIONS.iter().enumerate() {
            line += &format!(" refused by {name}");
            for number in numbers_of(operation) {
                line += &format!(" {number}:{}", self.refused[operation][number]);
            }
        }
        line + &format!(
            " places {} of {} pairs of faults {} of {PAIRS} kinds {} of {}",
            self.places.len(),
            all_places().len(),
            self.pairs.len(),
            self.kinds.len(),
            KINDS.len()
        )
    }

    /// Everything that a run must have seen and did not.
    pub fn missing(&self) -> Vec<String> {
        let mut missing = Vec::new();
        for (operation, name) in OPERATIONS.iter().enumerate() {
            let unseen = |&number: &usize| self.refused[operation][number] == 0;
            let numbers = numbers_of(operation).into_iter().filter(unseen);
            missing.extend(numbers.map(|number| format!("{name} refused with {number}")));
        }
        let reasons = (0..4).filter(|&reason| self.stopped[reason] == 0);
        missing.extend(reasons.map(|reason| format!("stopped for reason {reason}")));
        let places = all_places().into_iter();
        let places = places.filter(|place| !self.places.contains(place));
        missing.extend(places.map(|(number, place)| format!("refused {number} at {place}")));
        if self.pairs.len() < PAIRS {
            missing.push(format!("{} pairs of faults", PAIRS - self.pairs.len()));
        }
        let kinds = KINDS.iter().filter(|kind| !self.kinds.contains_key(*kind));
        missing.extend(kinds.map(|kind| kind.to_string()));
        missing
    }
}

/// The numbers that an operation gives: reading gives 1 to 11, "beginning adds
/// 12; running adds 12 and 13; joining values adds 14 and 15".
fn numbers_of(operation: usize) -> Vec<usize> {
    match operation {
        0 => (1..=11).collect(),
        1 => (1..=12).collect(),
        2 => (1..=13).collect(),
        _ => (1..=11).chain(14..=15).collect(),
    }
}

/// Every number of 1 to 11 with every place that it can have. Positions 0 and 1
/// never fail the ear rule: position 0 has all keys of position 1.
fn all_places() -> Vec<(u32, u32)> {
    let mut all = vec![(1, 0), (2, 0), (3, 0), (10, 0)];
    for number in 4..=9 {
        all.extend((0..8).map(|place| (number, place)));
    }
    all.extend((2..8).map(|place| (11, place)));
    all
}

#[cfg(test)]
mod tests {
    use super::*;
    use crate::reader::Refusal;

    #[test]
    fn what_was_not_seen_is_missing() {
        let mut figures = Figures::default();
        let all = figures.missing().len();
        assert_eq!(all, 11 + 12 + 13 + 13 + 4 + 58 + 1 + KINDS.len());
        figures.count(&Answer::Begun(Err(Refusal {
            number: 12,
            place: 0,
        })));
        figures.saw(KINDS[0]);
        assert_eq!(figures.missing().len(), all - 2);
        assert!(!figures
            .missing()
            .contains(&"begin refused with 12".to_string()));
        assert!(figures
            .missing()
            .contains(&"run refused with 12".to_string()));
    }

    #[test]
    fn pairs_are_counted_once() {
        let mut figures = Figures::default();
        figures.saw_faults(&[(4, 7), (6, 0), (6, 1), (10, 0)]);
        figures.saw_faults(&[(4, 0), (10, 0)]);
        assert_eq!(figures.pairs.len(), 3);
    }
}
