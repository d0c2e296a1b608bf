//! What the calls take besides the images.
pub use entries::{Host, TrapInfo};

use crate::interface::Entry;

/// A CSR instruction: the entry that it is, and rs1 or the immediate as its field.
pub struct Instruction {
    pub entry: Entry,
    pub address: u64,
    pub rd: u64,
    pub field: u64,
}

impl Instruction {
    /// Whether the field is the operand, and not a register that holds it.
    #[inline(always)]
    pub const fn is_immediate(&self) -> bool {
        matches!(self.entry, Entry::Csrrwi | Entry::Csrrsi | Entry::Csrrci)
    }

    /// csrrs and csrrc don't write with x0 or the immediate 0.
    #[inline(always)]
    pub const fn writes(&self) -> bool {
        matches!(self.entry, Entry::Csrrw | Entry::Csrrwi) || self.field != 0
    }

    /// What is written, of the value read with line 0 and the operand's value.
    #[inline(always)]
    pub const fn written(&self, old: u64, operand: u64) -> u64 {
        match self.entry {
            Entry::Csrrs | Entry::Csrrsi => old | operand,
            Entry::Csrrc | Entry::Csrrci => old & !operand,
            _ => operand,
        }
    }
}

/// Each CSR instruction of an interface on slices. What emulates it is written out for each of the
/// six, so that the compiler can inline it there.
macro_rules! instructions {
    ($($emulate:tt)*) => {
        $crate::arguments::instruction! { csrrw Csrrw $($emulate)* }
        $crate::arguments::instruction! { csrrs Csrrs $($emulate)* }
        $crate::arguments::instruction! { csrrc Csrrc $($emulate)* }
        $crate::arguments::instruction! { csrrwi Csrrwi $($emulate)* }
        $crate::arguments::instruction! { csrrsi Csrrsi $($emulate)* }
        $crate::arguments::instruction! { csrrci Csrrci $($emulate)* }
    };
}
pub(crate) use instructions;

macro_rules! instruction {
    ($name:ident $entry:ident |$caps:ident, $hart:ident, $instruction:ident, $host:ident| $emulate:expr) => {
        #[inline(always)]
        pub fn $name(
            $caps: &[u8],
            $hart: &mut [u8],
            address: u64,
            rd: u64,
            field: u64,
            $host: Host,
        ) -> Outcome {
            let entry = $crate::interface::Entry::$entry;
            let $instruction = Instruction {
                entry,
                address,
                rd,
                field,
            };
            $emulate
        }
    };
}
pub(crate) use instruction;
