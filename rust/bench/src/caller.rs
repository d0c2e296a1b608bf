//! What is measured: something that makes the pool's calls.
use std::time::Duration;

use crate::pool::{Pool, SLOTS};

/// A round calls every slot so often.
pub const PASSES: usize = 128;

/// Which of a slot's calls is made, drawn anew for each round, so that no branch predictor learns
/// the addresses by heart.
pub type Order = [[u8; SLOTS]; PASSES];

pub trait Caller {
    /// The time of a round of the calls, or of one whose callee does nothing.
    fn round(&mut self, pool: &mut Pool, order: &Order, callee: Callee) -> Duration;
}

#[derive(Clone, Copy, Debug, PartialEq, Eq)]
pub enum Callee {
    Own,
    Empty,
}
