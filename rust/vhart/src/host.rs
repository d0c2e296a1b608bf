//! What the host hands to each call that can read a CSR.

use core::fmt;

/// What the host hands to each call that can read a CSR.
#[derive(Clone, Copy, Default, PartialEq, Eq, Hash)]
pub struct Host {
    /// What `time` (C01) reads.
    pub time: u64,
    /// What `seed` (015) reads.
    pub seed: u64,
    /// The line: whether the interrupt controller raises the supervisor external interrupt.
    ///
    /// With S, mip and sip read SEIP as 1 if stored SEIP is 1 or the line is up. No other CSR
    /// shows the line, and without S none does. csrrs, csrrc and their immediate forms don't store
    /// it. See the example at [`csrrc`](crate::Hart::csrrc). A monitor finds the line in bit 9 of
    /// the board's mip: docs/GUIDE.md, "What the host does itself".
    pub line: bool,
}

impl fmt::Debug for Host {
    fn fmt(&self, f: &mut fmt::Formatter<'_>) -> fmt::Result {
        f.debug_struct("Host")
            .field("time", &format_args!("{:#x}", self.time))
            .field("seed", &format_args!("{:#x}", self.seed))
            .field("line", &self.line)
            .finish()
    }
}
