//! Random writes that implementations add to totals, which are at their limit, near it and far from
//! it.
use core::array;
use core::fmt::{self, Display, Formatter};

use crate::agreement::{self, write_changes, Bits, Disagreement, Question, Reached};
use crate::inputs::{self, Rng};
use crate::interface::{self, Interface, WHOLE};
use crate::outcome::{Outcome, Refusal};

/// How many totals there are. Behind them are numbers that no call may touch.
const TOTALS: usize = 9;
const ROOM: usize = TOTALS + 4;

/// Calls them all on so many inputs, to the first that they don't agree on.
pub fn check<'a, const N: usize>(
    interfaces: &'a [Interface; N],
    rng: &mut Rng,
    inputs: u64,
) -> Result<(Reached, Full), Disagreement<'a, Tally, N>> {
    let mut reached = (Reached::default(), Full::default());
    agreement::check(interfaces, Tally, rng, inputs, |input, outcome| {
        reached.0.add(outcome.refusal);
        if outcome.refusal == Refusal::TotalFull as u64 {
            reached.1.add(input);
        }
    })?;
    Ok(reached)
}

pub struct Tally;

impl Question for Tally {
    type Input = Input;
    type Given = Outcome;

    fn name(&self) -> &'static str {
        "tally"
    }

    fn input(&self, rng: &mut Rng) -> Input {
        Input::any(rng)
    }

    fn ask(&self, of: &Interface, input: &mut Input) -> Outcome {
        input.call(of.tally)
    }
}

/// A write, as an input of explain, and the totals.
#[derive(Clone, PartialEq, Eq)]
pub struct Input {
    write: inputs::Input,
    totals: [u32; ROOM],
}

impl Input {
    /// Mostly one or two of the totals are near the limit, and rather those that the write adds to.
    fn any(rng: &mut Rng) -> Input {
        let mut input = Input {
            write: inputs::Input::to_explain(rng),
            totals: array::from_fn(|_| rng.bits() as u32 >> rng.below(32)),
        };
        let added = input.added();
        for _ in 0..rng.below(3) {
            let any = rng.below(TOTALS as u64) as usize;
            let mut from_any = (any..any + TOTALS).map(|n| n % TOTALS);
            let next = from_any.find(|&n| added[n] > 0 || rng.once_in(4));
            let n = next.unwrap_or(any);
            let room = match rng.below(4) {
                0 => 0,
                1 => rng.below(66) as u32,
                2 => added[n],
                _ => added[n].saturating_sub(1),
            };
            input.totals[n] = u32::MAX - room;
        }
        input
    }

    /// What the write adds to each total: what the contract by hand makes of totals of 0.
    fn added(&self) -> [u32; ROOM] {
        let mut from_none = Input {
            totals: [0; ROOM],
            ..self.clone()
        };
        from_none.call(WHOLE.tally);
        from_none.totals
    }

    fn call(&mut self, tally: interface::Tally) -> Outcome {
        let Input { write, totals } = self;
        let [address, value, time, seed, ..] = write.args;
        // SAFETY: neither length is above its buffer's, and the first of the numbers are laid out
        // as the totals
        unsafe {
            tally(
                write.caps.as_ptr(),
                write.caps_len,
                write.hart.as_ptr(),
                write.hart_len,
                address,
                value,
                time,
                seed,
                totals.as_mut_ptr().cast(),
            )
        }
    }
}

impl Bits for Input {
    const BITS: usize = inputs::Input::BITS + 32 * ROOM;

    fn clear(&mut self, bit: usize) {
        match bit.checked_sub(inputs::Input::BITS) {
            None => self.write.clear(bit),
            Some(bit) => self.totals[bit / 32] &= !(1 << (bit % 32)),
        }
    }

    fn write_changes(&self, f: &mut Formatter, after: &Input) -> fmt::Result {
        self.write.write_changes(f, &after.write)?;
        write_changes(f, "total", &self.totals, &after.totals)
    }

    fn write_lengths(&self, f: &mut Formatter) -> fmt::Result {
        self.write.write_lengths(f)
    }
}

/// How many writes were refused since a total was full: for each total, where it was the only one.
#[derive(Default)]
pub struct Full {
    count: [u64; TOTALS],
}

impl Full {
    fn add(&mut self, input: &Input) {
        let added = input.added();
        let mut full = (0..TOTALS).filter(|&n| input.totals[n] > u32::MAX - added[n]);
        if let (Some(n), None) = (full.next(), full.next()) {
            self.count[n] += 1;
        }
    }

    /// Whether there were some for each.
    pub fn is_complete(&self) -> bool {
        self.count.iter().all(|&count| count > 0)
    }
}

impl Display for Full {
    fn fmt(&self, f: &mut Formatter) -> fmt::Result {
        let [reasons @ .., writes, lossless] = &self.count;
        write!(f, "one total alone full: ")?;
        for (count, reason) in reasons.iter().zip(1..) {
            write!(f, "{count} of reason {reason}, ")?;
        }
        write!(f, "{writes} of writes, {lossless} of lossless")
    }
}
