//! Call logs: their entries, the replay of them, and what the library refuses.

mod entry;
mod refusals;
mod replay;

pub use entry::{in_words, register, verb, Entry};
pub use refusals::{named, Refusals};
pub use replay::{Made, Replay};

#[cfg(test)]
pub use replay::tests::board;
