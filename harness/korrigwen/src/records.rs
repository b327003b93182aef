//! A whole run at once.

use crate::operations::{begin, join_values, read, run, Reason, Refusal};
use crate::MOST_VALUES;

/// Steps and places of one call: a call is short, and the area small enough for the stack.
const STEPS_AT_ONCE: u32 = 65_536;
const PLACES_AT_ONCE: usize = 1_024;

/// How a whole run went, as the program's last line says it.
#[derive(Clone, Copy, Debug, PartialEq, Eq)]
pub struct Figures {
    /// Whether the step limit stopped the run before its end.
    pub stopped: bool,
    /// The run's lookup count.
    pub lookups: u32,
    /// Its records.
    pub records: u32,
    /// The job's rows marked.
    pub marked: usize,
    /// Its steps.
    pub steps: u32,
}

/// Runs a job until it ends or the step limit stops it, in calls of bounded size, and hands the
/// joined values of each record to `take`, in order. A refusal comes before the first record.
///
/// ```
/// // Document 01's job W: tables with columns 0 1, 1 2 and 2.
/// let numbers: [i32; 26] = [
///     3, 0x0002_0100, 0, // three tables, plan 0 1 2
///     2, 2, 3, 60, 2, 3, 6, 76, 1, 1, 4, 100, // entries: fields, rows, mask, offset
///     1, 10, 2, 20, 10, 5, 20, 6, 20, 7, 6, // rows
/// ];
/// let file: Vec<u8> = numbers.iter().flat_map(|n| n.to_le_bytes()).collect();
///
/// let mut lines = Vec::new();
/// let figures = korrigwen::for_each_record(&file, |values| lines.push(values.to_vec()))?;
/// assert_eq!(lines, [[2, 20, 6]]);
/// assert_eq!((figures.lookups, figures.marked, figures.steps), (5, 2, 12));
/// assert!(!figures.stopped);
/// # Ok::<(), korrigwen::Refusal>(())
/// ```
pub fn for_each_record(file: &[u8], mut take: impl FnMut(&[i32])) -> Result<Figures, Refusal> {
    let job = read(file)?;
    let mut marks = vec![0; job.rows()];
    let mut area = [0; PLACES_AT_ONCE];
    let mut values = [0; MOST_VALUES];
    let mut state = begin(file, &mut marks)?;
    loop {
        let before = state.records;
        let (reason, next) = run(file, &state, &mut marks, STEPS_AT_ONCE, &mut area)?;
        let filled = (next.records - before) as usize * job.k;
        for record in area[..filled].chunks_exact(job.k) {
            let columns = join_values(file, record, &mut values)?;
            take(&values[..columns]);
        }
        state = next;
        if matches!(reason, Reason::Ended | Reason::StepLimit) {
            return Ok(Figures {
                stopped: reason == Reason::StepLimit,
                lookups: state.lookups,
                records: state.records,
                marked: marks.iter().filter(|&&mark| mark != 0).count(),
                steps: state.steps,
            });
        }
    }
}

#[cfg(test)]
mod tests {
    use super::*;
    use crate::jobs;

    fn lines(file: &[u8]) -> (Vec<Vec<i32>>, Result<Figures, Refusal>) {
        let mut lines = Vec::new();
        let figures = for_each_record(file, |values| lines.push(values.to_vec()));
        (lines, figures)
    }

    fn figures(lookups: u32, records: u32, marked: usize, steps: u32) -> Figures {
        Figures {
            stopped: false,
            lookups,
            records,
            marked,
            steps,
        }
    }

    #[test]
    fn the_documents_jobs() {
        let none: Vec<Vec<i32>> = Vec::new();
        assert_eq!(
            lines(&jobs::w()),
            (vec![vec![2, 20, 6]], Ok(figures(5, 1, 2, 12)))
        );
        assert_eq!(lines(&jobs::v()), (none.clone(), Ok(figures(6, 0, 3, 11))));
        assert_eq!(
            lines(&jobs::p7()),
            (vec![vec![7], vec![7]], Ok(figures(0, 2, 0, 3)))
        );
        assert_eq!(lines(&jobs::p8()), (none.clone(), Ok(figures(0, 0, 0, 1))));
        assert_eq!(lines(&jobs::p9()), (none, Ok(figures(2, 0, 2, 5))));
    }

    #[test]
    fn more_records_than_one_call_has_room_for() {
        let file = jobs::apart(60, 70);
        let (lines, answer) = lines(&file);
        assert_eq!(answer, Ok(figures(60, 4_200, 0, 60 * 72 + 1)));
        assert_eq!(lines.len(), 4_200);
        assert_eq!(lines[71], [1, 1]);
    }

    #[test]
    fn the_step_limit_is_said() {
        // The figures are those of two tables of 4,096 rows with no shared column.
        let mut records = 0;
        let answer = for_each_record(&jobs::apart(4_096, 4_096), |_| records += 1);
        let expected = Figures {
            stopped: true,
            ..figures(4_095, 16_769_027, 0, crate::STEP_LIMIT)
        };
        assert_eq!(answer, Ok(expected));
        assert_eq!(records, 16_769_027);
    }

    #[test]
    fn a_refusal_comes_first() {
        let (lines, answer) = lines(&jobs::w()[..103]);
        assert!(lines.is_empty());
        assert_eq!(
            answer,
            Err(Refusal {
                number: 9,
                place: 2
            })
        );
    }
}
