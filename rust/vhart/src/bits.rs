//! The bits of the words that a host puts together or looks at, each by its name in the manual.

/// misa: the base and a letter for each extension.
///
/// ```
/// use vhart::misa;
///
/// let rv64acimsu = misa::RV64 | misa::A | misa::C | misa::I | misa::M | misa::S | misa::U;
/// assert_eq!(rv64acimsu, 0x8000_0000_0014_1105);
/// ```
pub mod misa {
    /// MXL is 2: registers of 64 bits. It must be set.
    pub const RV64: u64 = 2 << 62;
    /// Atomic instructions.
    pub const A: u64 = 1 << 0;
    /// Bit manipulation.
    pub const B: u64 = 1 << 1;
    /// Compressed instructions. With them instructions stand at multiples of 2, without them of 4.
    pub const C: u64 = 1 << 2;
    /// Floating point of 64 bits.
    pub const D: u64 = 1 << 3;
    /// Floating point of 32 bits.
    pub const F: u64 = 1 << 5;
    /// The base set of integer instructions.
    pub const I: u64 = 1 << 8;
    /// Multiplication and division.
    pub const M: u64 = 1 << 12;
    /// Floating point of 128 bits.
    pub const Q: u64 = 1 << 16;
    /// Supervisor mode.
    pub const S: u64 = 1 << 18;
    /// User mode. It must be set.
    pub const U: u64 = 1 << 20;
    /// Vectors.
    pub const V: u64 = 1 << 21;
    /// Extensions that aren't standard.
    pub const X: u64 = 1 << 23;
}

/// mip: the pending interrupts. mie, mideleg and the capabilities' `interrupts` have the same bits.
pub mod mip {
    /// Supervisor software interrupt, number 1.
    pub const SSIP: u64 = 1 << 1;
    /// Machine software interrupt, number 3.
    pub const MSIP: u64 = 1 << 3;
    /// Supervisor timer interrupt, number 5.
    pub const STIP: u64 = 1 << 5;
    /// Machine timer interrupt, number 7.
    pub const MTIP: u64 = 1 << 7;
    /// Supervisor external interrupt, number 9.
    pub const SEIP: u64 = 1 << 9;
    /// Machine external interrupt, number 11.
    pub const MEIP: u64 = 1 << 11;
    /// Counter-overflow interrupt, number 13.
    pub const LCOFIP: u64 = 1 << 13;
}

/// mstatus: its fields, as masks.
///
/// ```
/// use vhart::{mstatus, Mode};
///
/// // MPP is S, and interrupts are enabled once mret is done
/// let word = Mode::S.number() << mstatus::MPP_SHIFT | mstatus::MPIE;
/// assert_eq!(word, 0x880);
/// ```
pub mod mstatus {
    /// Interrupts are enabled in mode S.
    pub const SIE: u64 = 1 << 1;
    /// Interrupts are enabled in mode M.
    pub const MIE: u64 = 1 << 3;
    /// SIE before the last trap to S.
    pub const SPIE: u64 = 1 << 5;
    /// MIE before the last trap to M.
    pub const MPIE: u64 = 1 << 7;
    /// The mode before the last trap to S.
    pub const SPP: u64 = 1 << 8;
    /// The state of the vector registers. Always 0 on a hart with neither V nor S.
    pub const VS: u64 = 3 << 9;
    /// The mode before the last trap to M.
    pub const MPP: u64 = 3 << MPP_SHIFT;
    /// The lowest bit of MPP.
    pub const MPP_SHIFT: u32 = 11;
    /// The state of the floating-point registers. Always 0 on a hart with neither F nor S, and on
    /// one with Zfinx.
    pub const FS: u64 = 3 << 13;
    /// Loads and stores go as in the mode that MPP holds.
    pub const MPRV: u64 = 1 << 17;
    /// Mode S may load from and store to user pages.
    pub const SUM: u64 = 1 << 18;
    /// Loads may read pages that are executable only.
    pub const MXR: u64 = 1 << 19;
    /// Mode S may not touch satp, nor run sfence.vma.
    pub const TVM: u64 = 1 << 20;
    /// wfi traps in modes below M.
    pub const TW: u64 = 1 << 21;
    /// sret traps in mode S.
    pub const TSR: u64 = 1 << 22;
    /// The width of registers in mode U: 2 is 64 bits.
    pub const UXL: u64 = 3 << 32;
    /// The width of registers in mode S: 2 is 64 bits.
    pub const SXL: u64 = 3 << 34;
    /// FS or VS holds 3.
    pub const SD: u64 = 1 << 63;
}

/// menvcfg: its fields, as masks. senvcfg has the first four of them.
pub mod menvcfg {
    /// Fences of device accesses order memory accesses too.
    pub const FIOM: u64 = 1 << 0;
    /// What cbo.inval does in modes below M; with Zicbom.
    pub const CBIE: u64 = 3 << 4;
    /// cbo.clean and cbo.flush are allowed in modes below M; with Zicbom.
    pub const CBCFE: u64 = 1 << 6;
    /// cbo.zero is allowed in modes below M; with Zicboz.
    pub const CBZE: u64 = 1 << 7;
    /// Pages have memory types; with Svpbmt.
    pub const PBMTE: u64 = 1 << 62;
    /// stimecmp rules STIP; with Sstc.
    pub const STCE: u64 = 1 << 63;
}
