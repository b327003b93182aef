//! The case programs as an engine: calls go as frames to `read_cases` and
//! `run_cases`, and the lines that these print are compared with the lines that
//! the model expects. Programs are for x86-64.

use std::io::{BufRead, BufReader, Write};
use std::path::{Path, PathBuf};
use std::process::{Child, ChildStdin, Command, Stdio};
use std::sync::mpsc::{sync_channel, Receiver, SyncSender};
use std::thread::{self, JoinHandle};
use std::{env, io};

use super::calls::{Answer, Call, Operation, Outcome};
use super::engine::{At, Engine, Mismatch};
use crate::frames::{put_read_frame, Frame, BEGIN, EMPTY, JOIN_VALUES, NO_VALUE, RUN};
use crate::lines::{begin_line, no_state_line, read_line, run_line, values_line};
use crate::runner::State;

/// Bytes of frames that are collected before they are written.
const BATCH: usize = 1 << 16;

/// Batches whose lines may be waited for.
const BATCHES: usize = 64;

/// The two programs.
pub struct Programs {
    read_cases: Program,
    run_cases: Program,
}

impl Programs {
    /// Starts both.
    pub fn start() -> io::Result<Programs> {
        Ok(Programs {
            read_cases: Program::start("read_cases")?,
            run_cases: Program::start("run_cases")?,
        })
    }
}

impl Engine for Programs {
    fn area(&mut self, length: usize) -> Vec<u32> {
        vec![EMPTY; length]
    }

    fn value_area(&mut self, length: usize) -> Vec<i32> {
        vec![NO_VALUE; length]
    }

    fn check(&mut self, at: At, call: &Call, expected: &Outcome) -> Result<(), Mismatch> {
        let label = format!("job {} call {}", at.seed, at.call);
        let line = line(&label, call, expected);
        let program = match call.operation {
            Operation::Read => &mut self.read_cases,
            _ => &mut self.run_cases,
        };
        put_frame(&label, call, &mut program.frames);
        program.lines.push((at, line));
        match program.frames.len() < BATCH {
            true => Ok(()),
            false => program.send(),
        }
    }

    fn finish(&mut self) -> Result<(), Mismatch> {
        self.read_cases.finish()?;
        self.run_cases.finish()
    }
}

/// The frame of a call.
fn put_frame(label: &str, call: &Call, frames: &mut Vec<u8>) {
    let mut frame = Frame {
        label,
        file: call.file,
        ..Frame::default()
    };
    match &call.operation {
        Operation::Read => return put_read_frame(label, call.file, frames),
        Operation::Begin { marks } => {
            frame.op = BEGIN;
            frame.marks = marks;
        }
        Operation::Run {
            state,
            marks,
            budget,
            area,
        } => {
            frame.op = RUN;
            frame.state = state;
            frame.marks = marks;
            frame.budget = *budget;
            frame.area = area.len();
        }
        Operation::JoinValues { record, values } => {
            frame.op = JOIN_VALUES;
            frame.record = record;
            frame.values = values.len();
        }
    }
    frame.put(frames);
}

/// The line that the model expects.
fn line(label: &str, call: &Call, expected: &Outcome) -> String {
    if let Operation::Run { state, .. } = &call.operation {
        if State::from_flat(state).is_none() {
            return no_state_line(label);
        }
    }
    match &expected.answer {
        Answer::Read(answer) => read_line(label, answer),
        Answer::Begun(answer) => begin_line(label, answer, &expected.marks),
        Answer::Ran(answer) => run_line(label, answer, &expected.marks, &expected.area),
        Answer::Joined(answer) => values_line(label, answer, &expected.values),
    }
}

/// Lines that a program must print, each with the call that it is about.
type Lines = Vec<(At, String)>;

/// A program that runs. Its input is written here and its output is read in a
/// thread, so neither waits for the other: the lines of a batch are handed to
/// the thread before its frames are written.
struct Program {
    child: Child,
    input: Option<ChildStdin>,
    reader: Option<JoinHandle<Result<(), Mismatch>>>,
    expected: Option<SyncSender<Lines>>,
    frames: Vec<u8>,
    lines: Lines,
}

impl Program {
    fn start(name: &str) -> io::Result<Program> {
        let mut child = command(name)?
            .stdin(Stdio::piped())
            .stdout(Stdio::piped())
            .spawn()?;
        let input = child.stdin.take();
        let output = BufReader::new(child.stdout.take().expect("it is piped"));
        let (expected, lines) = sync_channel(BATCHES);
        let reader = thread::spawn(move || compare(lines, output));
        Ok(Program {
            child,
            input,
            reader: Some(reader),
            expected: Some(expected),
            frames: Vec::new(),
            lines: Vec::new(),
        })
    }

    /// Sends the batch. Where that fails, the reader has found a mismatch.
    fn send(&mut self) -> Result<(), Mismatch> {
        let lines = std::mem::take(&mut self.lines);
        let frames = std::mem::take(&mut self.frames);
        let expected = self.expected.as_ref().expect("not finished");
        let input = self.input.as_mut().expect("not finished");
        let sent = expected.send(lines).is_ok() && input.write_all(&frames).is_ok();
        match sent {
            true => Ok(()),
            false => self.end(),
        }
    }

    /// Sends what is left and waits for the last line.
    fn finish(&mut self) -> Result<(), Mismatch> {
        self.send()?;
        self.end()
    }

    /// Closes the input, and gives what the reader found.
    fn end(&mut self) -> Result<(), Mismatch> {
        self.input = None;
        self.expected = None;
        let reader = self.reader.take().expect("ended once");
        let found = reader.join().expect("the reader does not panic");
        self.child.wait().expect("the program has ended");
        found
    }
}

/// Compares what a program prints with the expected lines, to the last one.
fn compare(expected: Receiver<Lines>, mut output: impl BufRead) -> Result<(), Mismatch> {
    let mut last = At { seed: 0, call: 0 };
    let mut printed = Vec::new();
    for (at, line) in expected.iter().flatten() {
        printed.clear();
        let read = output.read_until(b'\n', &mut printed);
        if read.is_err() || printed != line.as_bytes() {
            let printed = String::from_utf8_lossy(&printed);
            let what = format!("printed {printed:?}, not {line:?}");
            return Err(mismatch(at, what));
        }
        last = at;
    }
    printed.clear();
    let more = output.read_to_end(&mut printed);
    match matches!(more, Ok(0)) {
        true => Ok(()),
        false => Err(mismatch(last, "more lines follow this call".to_string())),
    }
}

fn mismatch(at: At, what: String) -> Mismatch {
    Mismatch {
        at,
        what,
        call: None,
    }
}

// ---- starting programs ------------------------------------------------------------

/// The command that runs a program.
fn command(name: &str) -> io::Result<Command> {
    let program = folder().join(name);
    if !program.is_file() {
        let what = format!("{}: `tools/build.sh {name}` writes it", program.display());
        return Err(io::Error::new(io::ErrorKind::NotFound, what));
    }
    Ok(Command::new(program))
}

/// The folder of the programs.
fn folder() -> PathBuf {
    match env::var_os("KORRIGWEN_PROGRAM_DIR") {
        Some(folder) => PathBuf::from(folder),
        None => Path::new(env!("CARGO_MANIFEST_DIR")).join("../target/bin"),
    }
}

#[cfg(test)]
mod tests {
    use super::*;
    use crate::differential::engine::Recorder;

    /// What is found where the program should print the first lines and prints
    /// the others.
    fn found(expected: &[&str], printed: &str) -> Result<(), Mismatch> {
        let (sender, lines) = sync_channel(2);
        let batch = expected.iter().enumerate().map(|(call, line)| {
            let at = At { seed: 7, call };
            (at, format!("{line}\n"))
        });
        sender.send(batch.collect()).unwrap();
        drop(sender);
        compare(lines, printed.as_bytes())
    }

    #[test]
    fn lines_are_compared_to_the_last_byte() {
        let lines = ["a: begin state 1", "b: run refused 13 at 0"];
        let right = "a: begin state 1\nb: run refused 13 at 0\n";
        assert_eq!(found(&lines, right), Ok(()));
        for (wrong, call) in [
            ("a: begin state 2\nb: run refused 13 at 0\n", 0),
            ("a: begin state 1\nb: run refused 13 at 1\n", 1),
            ("a: begin state 1\nb: run refused 13 at 0", 1),
            ("a: begin state 1\n", 1),
            ("", 0),
            ("a: begin state 1\nb: run refused 13 at 0\n\n", 1),
        ] {
            let mismatch = found(&lines, wrong).unwrap_err();
            assert_eq!(mismatch.at, At { seed: 7, call }, "{wrong}");
        }
    }

    #[test]
    fn areas_are_lent_as_the_recorder_says() {
        // So a call can be told again from its number.
        let mut recorder = Recorder::default();
        assert_eq!(recorder.area(2), [EMPTY; 2]);
        assert_eq!(recorder.value_area(2), [NO_VALUE; 2]);
    }
}
