//! What the bench measures, and how: the proved reader and the second reader do the same work in turn, in several
//! processes, and what comes out is the ratio of their times. `main.rs` has the program.

pub mod commands;
pub mod growth;
pub mod listing;
pub mod processes;
pub mod rows;
pub mod summary;
pub mod turns;

/// The seed unless another is given.
pub const SEED: u64 = 20261115;
