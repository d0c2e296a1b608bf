//! Each call on a record, on random inputs: its outcome, and from the two checks the faults of the
//! images as they were.
use core::fmt::{self, Formatter};

use crate::agreement::{self, write_changes, Bits, Disagreement, Question, Reached};
use crate::image::words;
use crate::inputs::{Input, Rng, CAPS_ROOM, HART_ROOM};
use crate::interface::{Entry, Interface, ARGS};
use crate::outcome::{Fault, Outcome};

/// Calls them all on so many inputs, to the first that they don't agree on. What the checks gave
/// goes to what they gave before.
pub fn check<'a, const N: usize>(
    interfaces: &'a [Interface; N],
    entry: Entry,
    rng: &mut Rng,
    inputs: u64,
    checks: &mut [Reached; 2],
) -> Result<Reached, Disagreement<'a, Entry, N>> {
    let mut reached = Reached::default();
    agreement::check(interfaces, entry, rng, inputs, |_, given| {
        reached.add(given.outcome.refusal);
        for (check, fault) in checks.iter_mut().zip(given.faults) {
            check.add(fault.refusal);
        }
    })?;
    Ok(reached)
}

#[derive(Debug, PartialEq, Eq)]
pub struct Given {
    outcome: Outcome,
    faults: [Fault; 2],
}

impl Question for Entry {
    type Input = Input;
    type Given = Given;

    fn name(&self) -> &'static str {
        Entry::name(*self)
    }

    fn input(&self, rng: &mut Rng) -> Input {
        Input::any(rng, *self)
    }

    fn ask(&self, of: &Interface, input: &mut Input) -> Given {
        let faults = input.check(of.checks);
        Given {
            outcome: input.call(of.function(*self)),
            faults,
        }
    }
}

impl Bits for Input {
    const BITS: usize = 8 * (CAPS_ROOM + HART_ROOM) + 64 * ARGS;

    fn clear(&mut self, bit: usize) {
        const HART: usize = 8 * CAPS_ROOM;
        const NUMBERS: usize = HART + 8 * HART_ROOM;
        match bit {
            0..HART => self.caps[bit / 8] &= !(1 << (bit % 8)),
            HART..NUMBERS => self.hart[(bit - HART) / 8] &= !(1 << (bit % 8)),
            _ => self.args[(bit - NUMBERS) / 64] &= !(1 << ((bit - NUMBERS) % 64)),
        }
    }

    fn write_changes(&self, f: &mut Formatter, after: &Input) -> fmt::Result {
        write_changes(f, "argument word", &self.args, &after.args)?;
        let (old, new): ([u64; CAPS_ROOM / 8], _) = (words(&self.caps), words(&after.caps));
        write_changes(f, "capability word", &old, &new)?;
        let (old, new): ([u64; HART_ROOM / 8], _) = (words(&self.hart), words(&after.hart));
        write_changes(f, "hart word", &old, &new)
    }

    fn write_lengths(&self, f: &mut Formatter) -> fmt::Result {
        let (caps, hart) = (self.caps_len, self.hart_len);
        writeln!(
            f,
            "  with {caps} capability bytes and {hart} hart bytes lent"
        )
    }
}
