//! Differential tests of the four operations: random jobs through the library
//! or the case programs, compared with the model. The last line has the
//! figures; the exit is 1 where anything differs or was never seen.
//!
//!     differential [--jobs N] [--seed S] [--minutes M] [--through linked|programs]

use std::process::ExitCode;

use korrigwen_harness::differential::trials::{run, Options};

fn main() -> ExitCode {
    let options = match Options::parse(std::env::args().skip(1)) {
        Ok(options) => options,
        Err(what) => {
            eprintln!("{what}");
            return ExitCode::from(2);
        }
    };
    match run(&options) {
        Ok(line) => {
            println!("{line}");
            ExitCode::SUCCESS
        }
        Err(what) => {
            println!("FAIL {what}");
            ExitCode::FAILURE
        }
    }
}
