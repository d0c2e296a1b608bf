//! What many writes lose, added up: nine totals.

use crate::lost::Reason;

/// How many bits writes have lost for each reason, in a month or any other time. Start from
/// `Totals::default()`, which has 0 in all, and hand it to [`Hart::tally`](crate::Hart::tally) with
/// each write.
///
/// ```
/// use vhart::{misa, Caps, CapsWords, Csr, Hart, Host, Reason, Refusal, Totals};
///
/// let misa = misa::RV64 | misa::I | misa::S | misa::U;
/// let caps = Caps::from(CapsWords { misa, interrupts: 0xAAA, ..CapsWords::default() });
/// let hart = Hart::fresh(&caps, 0x8000_0000)?;
///
/// // with S, mideleg keeps its bits 1, 5 and 9; and mscratch takes any value
/// let mut month = Totals::default();
/// hart.tally(&caps, Csr::MIDELEG, 0, Host::default(), &mut month)?;
/// hart.tally(&caps, Csr::MSCRATCH, 5, Host::default(), &mut month)?;
/// assert_eq!(month.lost_for(Reason::Forced), 3);
/// assert_eq!((month.writes, month.lossless), (2, 1));
/// assert_eq!(month, Totals { lost: [0, 0, 0, 0, 3, 0, 0], writes: 2, lossless: 1 });
/// # Ok::<(), Refusal>(())
/// ```
///
/// In memory it is the header's `vhart_totals`, so a host in both languages can share one.
#[repr(C)]
#[derive(Clone, Copy, Debug, Default, PartialEq, Eq, Hash)]
pub struct Totals {
    /// How many bits were lost for each reason, in the order of the reasons' numbers.
    pub lost: [u32; 7],
    /// How many writes were added.
    pub writes: u32,
    /// How many of them lost no bit.
    pub lossless: u32,
}

impl Totals {
    /// How many bits were lost for this reason: 0 for one that this binding doesn't know.
    #[must_use]
    pub fn lost_for(&self, reason: Reason) -> u32 {
        let mut numbered = self.lost.iter().zip(1..);
        let its = numbered.find(|(_, number)| *number == reason.number());
        its.map_or(0, |(&lost, _)| lost)
    }
}

#[cfg(test)]
mod tests {
    use super::{Reason, Totals};

    #[test]
    fn each_reason_has_its_total() {
        let lost = [10, 20, 30, 40, 50, 60, 70];
        let totals = Totals {
            lost,
            ..Totals::default()
        };
        let known = (1..=7).filter_map(Reason::from_number);
        assert!(known.map(|reason| totals.lost_for(reason)).eq(lost));
        for number in [0, 8, 255] {
            assert_eq!(totals.lost_for(Reason::Other(number)), 0);
        }
    }
}
