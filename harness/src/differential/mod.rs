//! Differential tests: random jobs, and all four operations on each of them,
//! through an engine and through the model, with everything compared.

pub mod calls;
pub mod checks;
pub mod damage;
pub mod engine;
pub mod figures;
mod forged;
pub mod jobs;
pub mod kinds;
#[cfg(linked)]
pub mod linked;
pub mod memory;
pub mod programs;
pub mod shapes;
pub mod states;
pub mod trial;
pub mod trials;
mod walk;
#[cfg(test)]
mod wrong;
