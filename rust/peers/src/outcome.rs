//! What a call hands back: the refusal number, the answer, and the effect asked of the host; what a
//! check does, what the reading of a settings file does, and what explaining a write does; and the
//! totals that a write is added to.

pub use entries::{Fault, Listing, Outcome, Settings, Totals};

/// Nothing is wrong.
pub const LEGAL: Fault = Fault {
    refusal: 0,
    word: 0,
    value: 0,
};

#[inline(always)]
pub const fn done(answer: u64, effect: u64) -> Outcome {
    Outcome {
        refusal: 0,
        answer,
        effect,
    }
}

#[inline(always)]
pub const fn refused(refusal: Refusal) -> Outcome {
    Outcome {
        refusal: refusal as u64,
        answer: 0,
        effect: 0,
    }
}

/// The refusals by their numbers. The lowest that applies is given, but not of a settings file.
#[repr(u64)]
#[derive(Clone, Copy, Debug, PartialEq, Eq)]
pub enum Refusal {
    BadCaps = 1,
    BadHart = 2,
    NoSuchCsr = 3,
    CsrAbsent = 4,
    BadOperand = 5,
    NotMachine = 6,
    NoSupervisor = 7,
    BadInterrupt = 8,
    NotException = 9,
    BadTrap = 10,
    BadStart = 11,
    BadLength = 12,
    BadMark = 13,
    UnknownVersion = 14,
    BadLine = 15,
    TotalFull = 16,
    BadEntry = 17,
    EntryWaits = 18,
    ShortBuffer = 23,
}

impl Refusal {
    /// The one with the highest number.
    pub const LAST: Refusal = Refusal::ShortBuffer;
}

/// What the host is asked to do with the physical SEIP.
pub mod effect {
    pub const NONE: u64 = 0;
    pub const SET: u64 = 1;
    pub const CLEAR: u64 = 2;
}
