//! The lines that the case programs print: the label, the operation, the
//! answer, and all of every lent area.

use std::fmt::{Display, Write};

use crate::reader::{Job, Refusal};
use crate::runner::{Reason, State};

/// The line of reading a file.
pub fn read_line(label: &str, answer: &Result<Job, Refusal>) -> String {
    let mut line = format!("{label}: ");
    match answer {
        Ok(job) => put_job(&mut line, job),
        Err(refusal) => put_refusal(&mut line, refusal),
    }
    line.push('\n');
    line
}

/// The line of beginning.
pub fn begin_line(label: &str, answer: &Result<State, Refusal>, marks: &[u8]) -> String {
    let mut line = format!("{label}: begin ");
    match answer {
        Ok(state) => put_numbers(&mut line, "state", &state.flat()),
        Err(refusal) => put_refusal(&mut line, refusal),
    }
    put_numbers(&mut line, " marks", marks);
    line.push('\n');
    line
}

/// The line of a run call.
pub fn run_line(
    label: &str,
    answer: &Result<(Reason, State), Refusal>,
    marks: &[u8],
    area: &[u32],
) -> String {
    let mut line = format!("{label}: run ");
    match answer {
        Ok((reason, state)) => {
            put_numbers(&mut line, "stopped", &[reason.number()]);
            put_numbers(&mut line, " state", &state.flat());
        }
        Err(refusal) => put_refusal(&mut line, refusal),
    }
    put_numbers(&mut line, " marks", marks);
    put_numbers(&mut line, " area", area);
    line.push('\n');
    line
}

/// The line of a run call whose numbers are no state: the program has no
/// state to hand over, and so looks at nothing else.
pub fn no_state_line(label: &str) -> String {
    format!("{label}: run no state 13 at 0\n")
}

/// The line of joining values.
pub fn values_line(label: &str, answer: &Result<usize, Refusal>, values: &[i32]) -> String {
    let mut line = format!("{label}: values ");
    match answer {
        Ok(columns) => put_numbers(&mut line, &columns.to_string(), &[] as &[u32]),
        Err(refusal) => put_refusal(&mut line, refusal),
    }
    put_numbers(&mut line, " values", values);
    line.push('\n');
    line
}

/// The parents of an accepted job, e.g. "none 0 1".
pub fn parents_spoken(job: &Job) -> String {
    let words: Vec<String> = job
        .parents
        .iter()
        .map(|parent| parent.map_or("none".to_string(), |p| p.to_string()))
        .collect();
    words.join(" ")
}

/// Numbers for a line or a label, a space before each.
pub fn spoken<T: Display>(numbers: &[T]) -> String {
    let mut text = String::new();
    put_numbers(&mut text, "", numbers);
    text
}

fn put_job(line: &mut String, job: &Job) {
    put_numbers(line, "accepted tables", &[job.k]);
    put_numbers(line, " plan", &job.plan);
    for entry in &job.entries {
        let numbers = [entry.fields, entry.rows, entry.mask, entry.offset];
        put_numbers(line, " entry", &numbers);
    }
    line.push_str(" parents ");
    line.push_str(&parents_spoken(job));
}

fn put_refusal(line: &mut String, refusal: &Refusal) {
    put_numbers(line, "refused", &[refusal.number]);
    put_numbers(line, " at", &[refusal.place]);
}

/// A word, and numbers with a space before each.
fn put_numbers<T: Display>(line: &mut String, word: &str, numbers: &[T]) {
    line.push_str(word);
    for number in numbers {
        write!(line, " {number}").expect("a string takes all");
    }
}
