//! Korrigwen for Rust: reading a job file, beginning and running its join, and joining a record's
//! values, by the proved library behind `include/korrigwen.h`.
//!
//! Nothing has to be checked before a call: a bad file, mark area, state or record gets a refusal,
//! and then no lent area has been written to. The library keeps nothing between calls and may be
//! called from several threads at once.
//!
//! `tools/build.sh korrigwen_c` writes the library for x86-64. On other processors this crate compiles
//! and exports nothing, unless KORRIGWEN_ARCHIVE_DIR names a folder with an archive for the machine.

#![warn(missing_docs)]

#[cfg(linked)]
pub mod foreign;
#[cfg(all(test, linked))]
mod jobs;
#[cfg(linked)]
mod operations;
#[cfg(linked)]
mod records;

#[cfg(linked)]
pub use foreign::{Entry, State};
#[cfg(linked)]
pub use operations::{begin, join_values, read, run, Job, Reason, Refusal};
#[cfg(linked)]
pub use records::{for_each_record, Figures};

/// Steps of one run, over all its calls.
#[cfg(linked)]
pub const STEP_LIMIT: u32 = 16_777_216;

/// Values of a record at most: one for each distinct column.
#[cfg(linked)]
pub const MOST_VALUES: usize = 32;
