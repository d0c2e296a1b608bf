//! Random writes that implementations explain: the bits that are lost, each with its reason.
use core::fmt::{self, Debug, Display, Formatter};

use crate::agreement::{self, Disagreement, Question, Reached};
use crate::inputs::{Input, Rng};
use crate::interface::Interface;
use crate::outcome::Listing;

/// Asks them all of so many inputs, to the first that they don't agree on.
pub fn check<'a, const N: usize>(
    interfaces: &'a [Interface; N],
    rng: &mut Rng,
    inputs: u64,
) -> Result<(Reached, Reasons), Disagreement<'a, Explain, N>> {
    let mut reached = (Reached::default(), Reasons::default());
    agreement::check(interfaces, Explain, rng, inputs, |_, Given(listing)| {
        reached.0.add(listing.refusal);
        reached.1.add(&listing);
    })?;
    Ok(reached)
}

pub struct Explain;

impl Question for Explain {
    type Input = Input;
    type Given = Given;

    fn name(&self) -> &'static str {
        "explain"
    }

    fn input(&self, rng: &mut Rng) -> Input {
        Input::to_explain(rng)
    }

    fn ask(&self, of: &Interface, input: &mut Input) -> Given {
        Given(input.explain(of.explain))
    }
}

#[derive(PartialEq, Eq)]
pub struct Given(Listing);

impl Debug for Given {
    fn fmt(&self, f: &mut Formatter) -> fmt::Result {
        let Given(listing) = self;
        write!(f, "refusal {}, {} lost", listing.refusal, listing.count)?;
        for (bit, reason) in listing.bits.iter().zip(listing.reasons) {
            if (*bit, reason) != (0, 0) {
                write!(f, ", bit {bit} by reason {reason}")?;
            }
        }
        Ok(())
    }
}

/// How many bits were lost for each reason, and at 0 for none.
#[derive(Default)]
pub struct Reasons {
    count: [u64; 8],
}

impl Reasons {
    fn add(&mut self, listing: &Listing) {
        for &reason in &listing.reasons[..listing.count as usize] {
            self.count[usize::from(reason)] += 1;
        }
    }

    /// Whether some were lost for each reason, and none without one.
    pub fn is_complete(&self) -> bool {
        let mut counts = self.count.iter().enumerate();
        counts.all(|(reason, &count)| (count > 0) == (reason > 0))
    }
}

impl Display for Reasons {
    fn fmt(&self, f: &mut Formatter) -> fmt::Result {
        write!(f, "{} bits lost", self.count.iter().sum::<u64>())?;
        for (reason, &count) in self.count.iter().enumerate() {
            if count > 0 {
                write!(f, ", {count} by reason {reason}")?;
            }
        }
        Ok(())
    }
}
