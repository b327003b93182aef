//! All jobs of a run of the differential tests, one after another.

use std::time::{Duration, Instant, SystemTime};

use super::engine::{At, Engine, Mismatch, Recorder};
use super::figures::Figures;
use super::programs::Programs;
use super::trial::{file_of, try_job};

/// Jobs from which on everything that can be seen must have been.
const ENOUGH: u64 = 50_000;

/// The seed of the first job, where none is given.
const FIRST_SEED: u64 = 1;

const USAGE: &str =
    "usage: differential [--jobs N] [--seed S] [--minutes M] [--through linked|programs]";

/// What the calls go through.
#[derive(Clone, Copy, Debug, PartialEq, Eq)]
pub enum Through {
    Linked,
    Programs,
}

/// Whether the library can be linked.
const CAN_LINK: bool = cfg!(linked);

/// What is asked for on the command line.
#[derive(Clone, Debug, PartialEq, Eq)]
pub struct Options {
    pub jobs: u64,
    pub seed: Option<u64>,
    pub minutes: u64,
    pub through: Through,
}

impl Default for Options {
    fn default() -> Options {
        Options {
            jobs: 100_000,
            seed: None,
            minutes: 0,
            through: match CAN_LINK {
                true => Through::Linked,
                false => Through::Programs,
            },
        }
    }
}

impl Options {
    /// The options in these words, or what is wrong with them.
    pub fn parse(mut words: impl Iterator<Item = String>) -> Result<Options, String> {
        let mut options = Options::default();
        while let Some(word) = words.next() {
            let value = words.next().ok_or(USAGE)?;
            let number = || value.parse::<u64>().map_err(|_| USAGE.to_string());
            match word.as_str() {
                "--jobs" => options.jobs = number()?,
                "--seed" => options.seed = Some(number()?),
                "--minutes" => options.minutes = number()?,
                "--through" => {
                    options.through = match value.as_str() {
                        "linked" if CAN_LINK => Through::Linked,
                        "linked" => return Err("the library is not linked here".to_string()),
                        "programs" => Through::Programs,
                        _ => return Err(USAGE.to_string()),
                    }
                }
                _ => return Err(USAGE.to_string()),
            }
        }
        Ok(options)
    }

    /// The seed of each job: one after another. A run that goes on for some
    /// minutes takes fresh ones from the clock after the fixed ones, unless it
    /// was told where to start.
    fn seed_of(&self, job: u64, fresh: u64) -> u64 {
        match self.seed {
            None if job >= self.jobs => fresh.wrapping_add(job),
            first => first.unwrap_or(FIRST_SEED).wrapping_add(job),
        }
    }
}

/// Runs all jobs. Gives the line of figures, or what went wrong.
pub fn run(options: &Options) -> Result<String, String> {
    let mut engine = engine(options.through)?;
    let mut figures = Figures::default();
    let found = all_jobs(options, engine.as_mut(), &mut figures);
    if let Err(mismatch) = found {
        return Err(told(&mismatch, options.through));
    }
    let missing = figures.missing();
    if figures.jobs >= ENOUGH && !missing.is_empty() {
        let missing = missing.join(", ");
        return Err(format!("never seen: {missing}\n{}", figures.line()));
    }
    Ok(figures.line())
}

/// The jobs that were asked for, and more until the time is up.
fn all_jobs(
    options: &Options,
    engine: &mut dyn Engine,
    figures: &mut Figures,
) -> Result<(), Mismatch> {
    let start = Instant::now();
    let time = Duration::from_secs(60 * options.minutes);
    let fresh = SystemTime::now()
        .duration_since(SystemTime::UNIX_EPOCH)
        .map_or(0, |since| since.as_secs() << 24);
    let mut job = 0;
    while job < options.jobs || start.elapsed() < time {
        try_job(options.seed_of(job, fresh), engine, figures)?;
        job += 1;
    }
    engine.finish()
}

#[cfg(linked)]
fn linked() -> Box<dyn Engine> {
    use super::{linked::Linked, memory::Memory};
    Box::new(Memory::new(Linked::default()))
}

#[cfg(not(linked))]
fn linked() -> Box<dyn Engine> {
    unreachable!("the options do not allow it")
}

fn engine(through: Through) -> Result<Box<dyn Engine>, String> {
    match through {
        Through::Linked => Ok(linked()),
        Through::Programs => match Programs::start() {
            Ok(programs) => Ok(Box::new(programs)),
            Err(what) => Err(what.to_string()),
        },
    }
}

/// What differed, in which call of which job, the job, and how to see it again.
fn told(mismatch: &Mismatch, through: Through) -> String {
    let At { seed, call } = mismatch.at;
    let (made, _) = file_of(seed);
    let hex: String = made.file.iter().map(|b| format!("{b:02x}")).collect();
    let through = match through {
        Through::Linked => "linked",
        Through::Programs => "programs",
    };
    [
        format!("seed {seed} call {call}: {}", mismatch.what),
        format!("call {}", call_told(mismatch)),
        format!("kinds {}", made.kinds.join(", ")),
        format!("job {hex}"),
        format!(
            "again: cargo run --release --bin differential -- \
             --jobs 1 --seed {seed} --through {through}"
        ),
    ]
    .join("\n")
}

/// The call that differed. Where it was not kept the job's calls are made once
/// more, without an engine; they are the same.
fn call_told(mismatch: &Mismatch) -> String {
    if let Some(call) = &mismatch.call {
        return call.clone();
    }
    let mut recorder = Recorder {
        number: mismatch.at.call,
        kept: None,
    };
    // A check that fails ends the calls here too.
    let _ = try_job(mismatch.at.seed, &mut recorder, &mut Figures::default());
    recorder.kept.unwrap_or_default()
}

#[cfg(test)]
mod tests {
    use super::*;

    fn parse(words: &str) -> Result<Options, String> {
        Options::parse(words.split_whitespace().map(str::to_string))
    }

    #[test]
    fn options() {
        assert_eq!(parse(""), Ok(Options::default()));
        let all = parse("--jobs 5 --seed 9 --minutes 2 --through programs").unwrap();
        assert_eq!((all.jobs, all.seed, all.minutes), (5, Some(9), 2));
        assert_eq!(all.through, Through::Programs);
        for wrong in ["--jobs", "--jobs x", "--through both", "5", "--seeds 4"] {
            assert!(parse(wrong).is_err(), "{wrong}");
        }
    }

    #[test]
    fn seeds() {
        let seed = |words: &str, job| parse(words).unwrap().seed_of(job, 1_000);
        assert_eq!(seed("", 0), FIRST_SEED);
        assert_eq!(seed("--jobs 5", 4), FIRST_SEED + 4);
        assert_eq!(seed("--jobs 5", 5), 1_005);
        assert_eq!(seed("--jobs 5 --seed 70", 5), 75);
    }
}
