//! Implementations on the same random inputs: they must give the same and leave the same bytes. An
//! input that they don't agree on is made small and shown.
use core::fmt::{self, Debug, Display, Formatter, LowerHex};
use core::mem::size_of;

use crate::inputs::Rng;
use crate::interface::Interface;
use crate::outcome::Refusal;

/// What implementations are asked.
pub trait Question {
    type Input: Bits;
    type Given: PartialEq + Debug;

    fn name(&self) -> &'static str;

    fn input(&self, rng: &mut Rng) -> Self::Input;

    /// What one of them gives; the input is then as its calls leave it.
    fn ask(&self, of: &Interface, input: &mut Self::Input) -> Self::Given;
}

/// An input of calls, whose bits can be cleared one by one.
pub trait Bits: Clone + PartialEq {
    const BITS: usize;

    fn clear(&mut self, bit: usize);

    /// Those of the words or bytes that differ from what they were.
    fn write_changes(&self, f: &mut Formatter, after: &Self) -> fmt::Result;

    /// How many bytes are lent.
    fn write_lengths(&self, f: &mut Formatter) -> fmt::Result;
}

/// Asks them all of so many inputs, to the first that they don't agree on. What they give of each
/// is counted.
pub fn check<'a, Q: Question, const N: usize>(
    interfaces: &'a [Interface; N],
    question: Q,
    rng: &mut Rng,
    inputs: u64,
    mut count: impl FnMut(&Q::Input, Q::Given),
) -> Result<(), Disagreement<'a, Q, N>> {
    for _ in 0..inputs {
        let before = rng.clone();
        let input = question.input(rng);
        let Some(given) = agreed(interfaces, &question, &input) else {
            return Err(Disagreement {
                interfaces,
                question,
                rng: before,
            });
        };
        count(&input, given);
    }
    Ok(())
}

/// What all give, if that and what they leave is the same.
fn agreed<Q: Question>(of: &[Interface], question: &Q, input: &Q::Input) -> Option<Q::Given> {
    let mut all = of.iter().map(|one| made(one, question, input));
    let first = all.next()?;
    all.all(|one| one == first).then_some(first.0)
}

/// What one gives, and what it leaves.
fn made<Q: Question>(of: &Interface, question: &Q, input: &Q::Input) -> (Q::Given, Q::Input) {
    let mut after = input.clone();
    (question.ask(of, &mut after), after)
}

/// How many inputs were refused with each number, and at 0 how many were accepted.
#[derive(Default)]
pub struct Reached {
    count: [u64; Refusal::LAST as usize + 1],
}

impl Reached {
    pub(crate) fn add(&mut self, refusal: u64) {
        self.count[refusal as usize] += 1;
    }

    /// Whether some inputs were accepted, some refused with each of these numbers, and none with
    /// another.
    pub fn is_complete(&self, refusals: &[Refusal]) -> bool {
        let can_give = |n| n == 0 || refusals.iter().any(|&r| r as usize == n);
        let mut counts = self.count.iter().enumerate();
        counts.all(|(n, &count)| (count > 0) == can_give(n))
    }
}

impl Display for Reached {
    fn fmt(&self, f: &mut Formatter) -> fmt::Result {
        write!(f, "{} accepted", self.count[0])?;
        for (n, &count) in self.count.iter().enumerate().skip(1) {
            if count > 0 {
                write!(f, ", {count} refused with {n}")?;
            }
        }
        Ok(())
    }
}

/// An input that they don't agree on: the next that the random numbers make.
pub struct Disagreement<'a, Q, const N: usize> {
    interfaces: &'a [Interface; N],
    question: Q,
    rng: Rng,
}

impl<Q: Question, const N: usize> Disagreement<'_, Q, N> {
    /// The input, with each bit cleared that can be while they still disagree.
    fn smallest(&self) -> Q::Input {
        let mut input = self.question.input(&mut self.rng.clone());
        for bit in 0..Q::Input::BITS {
            let mut smaller = input.clone();
            smaller.clear(bit);
            if agreed(self.interfaces, &self.question, &smaller).is_none() {
                input = smaller;
            }
        }
        input
    }
}

impl<Q: Question, const N: usize> Display for Disagreement<'_, Q, N> {
    fn fmt(&self, f: &mut Formatter) -> fmt::Result {
        let input = self.smallest();
        let mut nothing = input.clone();
        (0..Q::Input::BITS).for_each(|bit| nothing.clear(bit));
        writeln!(f, "{} is not the same for all.", self.question.name())?;
        writeln!(f, "All that isn't 0:")?;
        nothing.write_changes(f, &input)?;
        input.write_lengths(f)?;
        for interface in self.interfaces {
            let (given, after) = made(interface, &self.question, &input);
            writeln!(f, "What {} makes of it: {given:#x?}", interface.name)?;
            input.write_changes(f, &after)?;
        }
        Ok(())
    }
}

/// Those of the words or bytes that differ from what they were.
pub(crate) fn write_changes<T: PartialEq + LowerHex, const N: usize>(
    f: &mut Formatter,
    kind: &str,
    before: &[T; N],
    after: &[T; N],
) -> fmt::Result {
    let width = 2 + 2 * size_of::<T>(); // with 0x
    for (at, (old, new)) in before.iter().zip(after).enumerate() {
        if old != new {
            writeln!(f, "  {kind} {at}: {new:#0width$x}")?;
        }
    }
    Ok(())
}
