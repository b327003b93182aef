//! A plain-Rust second opinion on document 01, written without a look at the
//! crates' code, from the document and the readings that docs/DECISIONS.md
//! settles: a reader of job files, the natural join by nested loops, a model of
//! the steps of a run, the program's output, and functions that build job
//! files for tests. `differential` compares the library and the case programs
//! with it on random jobs.

pub mod build;
pub mod dice;
pub mod differential;
pub mod faults;
pub mod files;
pub mod frames;
pub mod join;
pub mod lines;
pub mod printed;
pub mod reader;
pub mod runner;
