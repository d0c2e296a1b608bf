//! Random fragments of call logs, cut anywhere, that implementations replay, and before each the
//! question whether the log may end.
use core::array;
use core::fmt::{self, Formatter};

use crate::agreement::{self, write_changes, Bits, Disagreement, Question, Reached};
use crate::image::{store, words};
use crate::inputs::{self, damage, length, logged, Rng};
use crate::interface::{self, Entry, Interface, WHOLE};
use crate::outcome::Outcome;
use crate::whole::{ENTRY_BYTES, WAIT_BYTES};

/// Bytes behind each buffer that no call may touch, and room for lengths that are too large.
const MARGIN: usize = 16;
/// The longest fragment.
const LOG: usize = 6 * ENTRY_BYTES;
const WAIT_ROOM: usize = WAIT_BYTES + MARGIN;
const LOG_ROOM: usize = LOG + MARGIN;
const OUT_ROOM: usize = LOG_ROOM;

/// Calls them all on so many inputs, to the first that they don't agree on. Gives what replaying
/// reached, what the question whether the log may end did, and what the entries did.
pub fn check<'a, const N: usize>(
    interfaces: &'a [Interface; N],
    rng: &mut Rng,
    inputs: u64,
) -> Result<([Reached; 2], Reached), Disagreement<'a, Logs, N>> {
    let mut reached = <([Reached; 2], Reached)>::default();
    agreement::check(interfaces, Logs, rng, inputs, |input, given| {
        reached.0[0].add(given.replayed.refusal);
        reached.0[1].add(given.ended.refusal);
        input.add_entries(&mut reached.1);
    })?;
    Ok(reached)
}

pub struct Logs;

#[derive(Debug, PartialEq, Eq)]
pub struct Given {
    ended: Outcome,
    replayed: Outcome,
}

impl Question for Logs {
    type Input = Input;
    type Given = Given;

    fn name(&self) -> &'static str {
        "a call log"
    }

    fn input(&self, rng: &mut Rng) -> Input {
        Input::any(rng)
    }

    fn ask(&self, of: &Interface, input: &mut Input) -> Given {
        Given {
            ended: input.end(of.logs),
            replayed: input.replay(of.logs),
        }
    }
}

/// The images, the waiting bytes, a fragment and a buffer for what its entries give, each with the
/// length that is lent.
#[derive(Clone, PartialEq, Eq)]
pub struct Input {
    images: inputs::Input,
    wait: [u8; WAIT_ROOM],
    wait_len: usize,
    fragment: [u8; LOG_ROOM],
    fragment_len: usize,
    out: [u8; OUT_ROOM],
    out_len: usize,
}

impl Input {
    /// A log without an end, of which some bytes wait and the next are the fragment. What is wrong
    /// is drawn each for itself: where two things are, it shows which is tested first.
    fn any(rng: &mut Rng) -> Input {
        let images = inputs::Input::any(rng, Entry::Mret); // which takes no numbers
        let caps = words(&images.caps);
        let mut log = [0; LOG];
        for bytes in log.chunks_exact_mut(ENTRY_BYTES) {
            let mut entry = logged(rng, &caps).words();
            if rng.once_in(6) {
                (0..=rng.below(2)).for_each(|_| damage(rng, &mut entry, 0));
            }
            store(bytes, &entry);
        }
        let held = match rng.below(4) {
            0 => 0,
            _ => rng.below(ENTRY_BYTES as u64) as usize,
        };
        let fragment_len = match rng.below(8) {
            0 => rng.below(3) as usize,
            1 => ENTRY_BYTES - held,
            _ => rng.below(LOG as u64 + 1) as usize,
        };
        Input {
            images,
            wait: waiting(rng, &log[..held]),
            wait_len: length(rng, WAIT_BYTES, WAIT_ROOM),
            fragment: array::from_fn(|at| log[(held + at) % LOG]),
            fragment_len,
            out: [0xA5; OUT_ROOM],
            out_len: out_length(rng, (held + fragment_len) / ENTRY_BYTES * ENTRY_BYTES),
        }
    }

    fn end(&self, logs: interface::Logs) -> Outcome {
        let Input { images, wait, .. } = self;
        // SAFETY: no length is above its buffer's
        unsafe {
            (logs.end)(
                images.caps.as_ptr(),
                images.caps_len,
                images.hart.as_ptr(),
                images.hart_len,
                wait.as_ptr(),
                self.wait_len,
            )
        }
    }

    fn replay(&mut self, logs: interface::Logs) -> Outcome {
        let Input { images, wait, .. } = self;
        // SAFETY: no length is above its buffer's
        unsafe {
            (logs.replay)(
                images.caps.as_ptr(),
                images.caps_len,
                images.hart.as_mut_ptr(),
                images.hart_len,
                wait.as_mut_ptr(),
                self.wait_len,
                self.fragment.as_ptr(),
                self.fragment_len,
                self.out.as_mut_ptr(),
                self.out_len,
            )
        }
    }

    /// Adds what each entry gives: what the contract by hand puts out for it.
    fn add_entries(&self, reached: &mut Reached) {
        let mut after = self.clone();
        let entries = after.replay(WHOLE.logs).answer as usize;
        for result in after.out.chunks_exact(ENTRY_BYTES).take(entries) {
            let [_, _, refusal] = words(result);
            reached.add(refusal);
        }
    }
}

/// These bytes as they wait. Seldom the count of them is another, and at times those behind them
/// aren't 0.
fn waiting(rng: &mut Rng, bytes: &[u8]) -> [u8; WAIT_ROOM] {
    let mut wait = [0xA5; WAIT_ROOM];
    if rng.once_in(4) {
        wait.fill_with(|| rng.bits() as u8);
    } else {
        wait[..WAIT_BYTES].fill(0);
    }
    wait[1..][..bytes.len()].copy_from_slice(bytes);
    wait[0] = match rng.below(16) {
        0 => rng.pick([WAIT_BYTES as u8 - 1, WAIT_BYTES as u8]),
        1 => rng.bits() as u8,
        _ => bytes.len() as u8,
    };
    wait
}

/// Mostly as long as it must be or longer.
fn out_length(rng: &mut Rng, needed: usize) -> usize {
    match rng.below(8) {
        0 => rng.below(OUT_ROOM as u64 + 1) as usize,
        1 => needed.saturating_sub(1),
        2 | 3 => needed,
        4 => needed + 1 + rng.below(MARGIN as u64) as usize,
        _ => LOG,
    }
}

impl Bits for Input {
    const BITS: usize = inputs::Input::BITS + 8 * (WAIT_ROOM + LOG_ROOM + OUT_ROOM);

    fn clear(&mut self, bit: usize) {
        let Some(bit) = bit.checked_sub(inputs::Input::BITS) else {
            return self.images.clear(bit);
        };
        let bytes = self.wait.iter_mut().chain(&mut self.fragment);
        if let Some(byte) = bytes.chain(&mut self.out).nth(bit / 8) {
            *byte &= !(1 << (bit % 8));
        }
    }

    fn write_changes(&self, f: &mut Formatter, after: &Input) -> fmt::Result {
        self.images.write_changes(f, &after.images)?;
        write_changes(f, "waiting byte", &self.wait, &after.wait)?;
        write_changes(f, "fragment byte", &self.fragment, &after.fragment)?;
        write_changes(f, "out byte", &self.out, &after.out)
    }

    fn write_lengths(&self, f: &mut Formatter) -> fmt::Result {
        let (wait, fragment, out) = (self.wait_len, self.fragment_len, self.out_len);
        self.images.write_lengths(f)?;
        write!(f, "  with {wait} waiting bytes, {fragment} fragment bytes")?;
        writeln!(f, " and {out} out bytes lent")
    }
}
