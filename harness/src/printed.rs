//! The whole output of document 01's program for a file, by the model runner.

use crate::join::{bodies, joined_values};
use crate::reader::{read, Job, Refusal};
use crate::runner::{begin, marked, run, total_rows, Reason, State};

/// How many records one run call has room for.
const RECORDS_AT_ONCE: usize = 100_000;

/// The program's whole output: a line of joined values for each record and the
/// last line, or the refusal. Every line ends in one newline.
pub fn printed(file: &[u8]) -> Vec<u8> {
    match read(file) {
        Ok(job) => accepted(file, &job),
        Err(Refusal { number, place }) => format!("refused {number} at {place}\n").into_bytes(),
    }
}

/// The output for an accepted job.
fn accepted(file: &[u8], job: &Job) -> Vec<u8> {
    let bodies = bodies(file, job);
    let mut output = Vec::new();
    let (reason, state, marks) = records(file, job, |record| {
        let values = joined_values(&bodies, record);
        let words: Vec<String> = values.iter().map(i32::to_string).collect();
        output.extend(words.join(" ").into_bytes());
        output.push(b'\n');
    });
    output.extend(last_line(reason, &state, marked(job, &marks)).into_bytes());
    output
}

/// Runs an accepted job until it ends or the step limit stops it, and hands
/// each record to `take`. Gives the reason, the last state and the marks.
fn records(file: &[u8], job: &Job, mut take: impl FnMut(&[u32])) -> (Reason, State, Vec<u8>) {
    let mut marks = vec![0; total_rows(job)];
    let mut area = vec![0; RECORDS_AT_ONCE * job.k];
    let mut state = begin(file, &mut marks).expect("accepted");
    loop {
        let before = state.records;
        let answer = run(file, state, &mut marks, u32::MAX, &mut area);
        let (reason, next) = answer.expect("a state that was handed back fits");
        let filled = (next.records - before) as usize * job.k;
        area[..filled].chunks(job.k).for_each(&mut take);
        state = next;
        if reason == Reason::Ended || reason == Reason::StepLimit {
            return (reason, state, marks);
        }
    }
}

/// "`lookups L results R marked M steps S`"; "If the step limit stopped it,
/// that line starts with `stopped `."
fn last_line(reason: Reason, state: &State, marked: usize) -> String {
    let start = match reason {
        Reason::StepLimit => "stopped ",
        _ => "",
    };
    format!(
        "{start}lookups {} results {} marked {marked} steps {}\n",
        state.lookups, state.records, state.steps
    )
}

#[cfg(test)]
mod tests {
    use super::*;
    use crate::build::{job, job_p7, job_p8, job_p9, job_v, job_w, tables_w, Table};

    fn text(file: &[u8]) -> String {
        String::from_utf8(printed(file)).unwrap()
    }

    #[test]
    fn the_documents_jobs() {
        assert_eq!(
            text(&job_w()),
            "2 20 6\nlookups 5 results 1 marked 2 steps 12\n"
        );
        assert_eq!(text(&job_v()), "lookups 6 results 0 marked 3 steps 11\n");
        assert_eq!(
            text(&job_p7()),
            "7\n7\nlookups 0 results 2 marked 0 steps 3\n"
        );
        assert_eq!(text(&job_p8()), "lookups 0 results 0 marked 0 steps 1\n");
        assert_eq!(text(&job_p9()), "lookups 2 results 0 marked 2 steps 5\n");
    }

    #[test]
    fn refusals() {
        assert_eq!(text(&[]), "refused 1 at 0\n");
        assert_eq!(text(&[0; 12]), "refused 2 at 0\n");
        assert_eq!(text(&vec![0; 65_536]), "refused 1 at 0\n");
        assert_eq!(text(&vec![0; 70_000]), "refused 1 at 0\n");
        assert_eq!(text(&job(&[0, 2, 1], &tables_w())), "refused 11 at 2\n");
    }

    #[test]
    fn negative_and_least_values() {
        let table = Table::new(0b101, &[&[-1, i32::MIN], &[i32::MAX, 0]]);
        assert_eq!(
            text(&job(&[0], &[table])),
            "-1 -2147483648\n2147483647 0\nlookups 0 results 2 marked 0 steps 3\n"
        );
    }

    #[test]
    fn columns_ascend_whatever_the_plan() {
        let file = job(&[2, 1, 0], &tables_w());
        assert!(text(&file).starts_with("2 20 6\nlookups "));
    }

    #[test]
    fn more_records_than_one_call_has_room_for() {
        let tables = [Table::filled(1, 400), Table::filled(2, 300)];
        let output = text(&job(&[0, 1], &tables));
        assert_eq!(output.lines().count(), 120_001);
        assert_eq!(output.lines().nth(300), Some("2 1"));
        // Each root row: an advance, a lookup with a record, 299 more, one that finds none.
        assert!(output.ends_with("\nlookups 400 results 120000 marked 0 steps 120801\n"));
    }

    #[test]
    fn the_line_of_a_stopped_run() {
        let state = State {
            steps: 16_777_216,
            lookups: 4_095,
            records: 16_769_027,
            ..State::fresh()
        };
        assert_eq!(
            last_line(Reason::StepLimit, &state, 0),
            "stopped lookups 4095 results 16769027 marked 0 steps 16777216\n"
        );
    }
}
