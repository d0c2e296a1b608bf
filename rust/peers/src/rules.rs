//! What each register makes of a written word, and what traps and returns make of mstatus, on words
//! alone.

/// misa's letters.
pub mod misa {
    pub const C: u64 = 1 << 2;
    pub const F: u64 = 1 << 5;
    pub const H: u64 = 1 << 7;
    pub const N: u64 = 1 << 13;
    pub const S: u64 = 1 << 18;
    pub const U: u64 = 1 << 20;
    pub const V: u64 = 1 << 21;
    pub const MXL: u64 = 3 << 62;
    pub const MXL_64: u64 = 2 << 62;
}

/// The capabilities' flags.
pub mod flags {
    pub const ZFINX: u64 = 1 << 0;
    pub const SSTC: u64 = 1 << 1;
    pub const ZICBOM: u64 = 1 << 2;
    pub const ZICBOZ: u64 = 1 << 3;
    pub const SVPBMT: u64 = 1 << 4;
    pub const ALL: u64 = ZFINX | SSTC | ZICBOM | ZICBOZ | SVPBMT;
    /// Those that go with S.
    pub const WITH_S: u64 = SSTC | SVPBMT;
}

/// mstatus's fields.
pub mod mstatus {
    pub const SIE: u64 = 1 << 1;
    pub const MIE: u64 = 1 << 3;
    pub const SPIE: u64 = 1 << 5;
    pub const UBE: u64 = 1 << 6;
    pub const MPIE: u64 = 1 << 7;
    pub const SPP: u64 = 1 << 8;
    pub const VS: u64 = 3 << 9;
    pub const MPP: u64 = 3 << 11;
    pub const FS: u64 = 3 << 13;
    pub const XS: u64 = 3 << 15;
    pub const MPRV: u64 = 1 << 17;
    pub const SUM: u64 = 1 << 18;
    pub const MXR: u64 = 1 << 19;
    pub const TVM: u64 = 1 << 20;
    pub const TW: u64 = 1 << 21;
    pub const TSR: u64 = 1 << 22;
    pub const UXL: u64 = 3 << 32;
    pub const UXL_64: u64 = 2 << 32;
    pub const SXL_64: u64 = 2 << 34;
    pub const SD: u64 = 1 << 63;

    pub const MPP_SHIFT: u32 = 11;
    pub const SPP_SHIFT: u32 = 8;

    /// The fields that a hart without S can have.
    pub const WITHOUT_S: u64 = MIE | MPIE | VS | MPP | FS | MPRV | TW;
    /// The fields that one with S can have.
    pub const WITH_S: u64 = WITHOUT_S | SIE | SPIE | SPP | SUM | MXR | TVM | TSR;
    /// The fields that sstatus shows.
    pub const SSTATUS: u64 = SIE | SPIE | UBE | SPP | VS | FS | XS | SUM | MXR | UXL | SD;
}

/// menvcfg's and senvcfg's fields.
pub mod envcfg {
    pub const FIOM: u64 = 1 << 0;
    pub const CBIE: u64 = 3 << 4;
    pub const CBIE_RESERVED: u64 = 2 << 4;
    pub const CBCFE: u64 = 1 << 6;
    pub const CBZE: u64 = 1 << 7;
    pub const PBMTE: u64 = 1 << 62;
    pub const STCE: u64 = 1 << 63;
}

/// Sets of interrupts, by their bits in mie and mip.
pub mod interrupts {
    pub const SSI: u64 = 1 << 1;
    pub const STI: u64 = 1 << 5;
    pub const SEI: u64 = 1 << 9;
    pub const LCOFI: u64 = 1 << 13;
    /// Those of supervisor level.
    pub const SUPERVISOR: u64 = SSI | STI | SEI;
    /// Those of machine level.
    pub const MACHINE: u64 = 0x888;
    /// Those that mie enables.
    pub const ENABLED: u64 = SUPERVISOR | MACHINE;
    /// All that a hart may have.
    pub const ALL: u64 = ENABLED | LCOFI;
    /// Those whose bit in mip stays virtual at a trap.
    pub const VIRTUAL: u64 = MACHINE | SEI | LCOFI;
}

/// The privilege modes.
pub mod mode {
    pub const U: u64 = 0;
    pub const S: u64 = 1;
    pub const M: u64 = 3;
}

pub const MEDELEG: u64 = 0xB3FF;
pub const COUNTEREN: u64 = 7;
pub const COUNTINHIBIT: u64 = 5;
/// The bit of mtvec's or stvec's mode that the modes 0 and 1 don't have.
pub const TVEC_RESERVED: u64 = 2;
pub const TVEC_MODE: u64 = 3;
/// The bits of satp's mode that the modes 0 and 8 don't have.
pub const SATP_RESERVED: u64 = 7 << 60;
/// The bit of mcause that an interrupt has.
pub const INTERRUPT: u64 = 1 << 63;

/// The bits of v that the mask has, and the others of old.
#[inline(always)]
pub const fn merge(old: u64, v: u64, mask: u64) -> u64 {
    old ^ ((old ^ v) & mask)
}

#[inline(always)]
pub const fn is_mode(s: bool, mode: u64) -> bool {
    mode == mode::U || mode == mode::M || (mode == mode::S && s)
}

/// SD as FS and VS have it.
#[inline(always)]
pub const fn sd(status: u64) -> u64 {
    let dirty = status & mstatus::FS == mstatus::FS || status & mstatus::VS == mstatus::VS;
    (dirty as u64) << 63
}

/// What is stored on a hart with S or not, with FS or not, with VS or not.
#[inline(always)]
pub const fn legalize_mstatus(s: bool, fs: bool, vs: bool, v: u64) -> u64 {
    let mut kept = if s {
        mstatus::WITH_S
    } else {
        mstatus::WITHOUT_S
    };
    let mpp = v & mstatus::MPP;
    if mpp == 2 << mstatus::MPP_SHIFT || (mpp == 1 << mstatus::MPP_SHIFT && !s) {
        kept &= !mstatus::MPP;
    }
    if !fs {
        kept &= !mstatus::FS;
    }
    if !vs {
        kept &= !mstatus::VS;
    }
    let xl = if s {
        mstatus::UXL_64 | mstatus::SXL_64
    } else {
        mstatus::UXL_64
    };
    let status = (v & kept) | xl;
    status | sd(status)
}

#[inline(always)]
pub const fn legalize_mie(interrupts: u64, v: u64) -> u64 {
    v & interrupts & interrupts::ENABLED
}

/// What sie and sip show of mie and mip.
#[inline(always)]
pub const fn delegated(mideleg: u64, word: u64) -> u64 {
    word & mideleg & interrupts::SUPERVISOR
}

#[inline(always)]
pub const fn write_sie(mideleg: u64, mie: u64, v: u64) -> u64 {
    merge(mie, v, mideleg & interrupts::SUPERVISOR)
}

#[inline(always)]
pub const fn write_mip(interrupts: u64, menvcfg: u64, mip: u64, v: u64) -> u64 {
    let mut writable = interrupts & interrupts::SUPERVISOR;
    if menvcfg & envcfg::STCE != 0 {
        writable &= !interrupts::STI;
    }
    merge(mip, v, writable)
}

#[inline(always)]
pub const fn write_sip(mip: u64, v: u64) -> u64 {
    merge(mip, v, interrupts::SSI)
}

/// What mip and sip show of mip on a hart with S or not: SEIP also while the line is up.
#[inline(always)]
pub const fn shown_mip(s: bool, mip: u64, line: u64) -> u64 {
    if s {
        mip | line << 9
    } else {
        mip
    }
}

/// The effect of mip changing from old to new: 1 sets the physical SEIP, 2 clears it.
#[inline(always)]
pub const fn seip_effect(old: u64, new: u64) -> u64 {
    let set = (new & !old & interrupts::SEI) >> 9;
    let cleared = (old & !new & interrupts::SEI) >> 8;
    set | cleared
}

#[inline(always)]
pub const fn legalize_mideleg(interrupts: u64, v: u64) -> u64 {
    (v & interrupts & !interrupts::MACHINE) | interrupts::SUPERVISOR
}

#[inline(always)]
pub const fn write_tvec(old: u64, v: u64) -> u64 {
    if v & TVEC_RESERVED == 0 {
        v
    } else {
        merge(v, old, TVEC_MODE)
    }
}

/// The bits that an instruction's address has 0.
#[inline(always)]
pub const fn alignment(c: bool) -> u64 {
    if c {
        1
    } else {
        3
    }
}

#[inline(always)]
pub const fn write_epc(highest: u64, c: bool, old: u64, v: u64) -> u64 {
    if v > highest {
        old
    } else {
        v & !alignment(c)
    }
}

#[inline(always)]
pub const fn write_satp(old: u64, v: u64) -> u64 {
    if v & SATP_RESERVED == 0 {
        v
    } else {
        old
    }
}

/// The bits that senvcfg has under the flags.
#[inline(always)]
pub const fn senvcfg_bits(flags: u64) -> u64 {
    let mut bits = envcfg::FIOM;
    if flags & flags::ZICBOM != 0 {
        bits |= envcfg::CBIE | envcfg::CBCFE;
    }
    if flags & flags::ZICBOZ != 0 {
        bits |= envcfg::CBZE;
    }
    bits
}

/// The bits that menvcfg has under the flags.
#[inline(always)]
pub const fn menvcfg_bits(flags: u64) -> u64 {
    let mut bits = senvcfg_bits(flags);
    if flags & flags::SVPBMT != 0 {
        bits |= envcfg::PBMTE;
    }
    if flags & flags::SSTC != 0 {
        bits |= envcfg::STCE;
    }
    bits
}

#[inline(always)]
const fn legalize_envcfg(bits: u64, v: u64) -> u64 {
    if v & envcfg::CBIE == envcfg::CBIE_RESERVED {
        v & bits & !envcfg::CBIE
    } else {
        v & bits
    }
}

#[inline(always)]
pub const fn legalize_senvcfg(flags: u64, v: u64) -> u64 {
    legalize_envcfg(senvcfg_bits(flags), v)
}

#[inline(always)]
pub const fn legalize_menvcfg(flags: u64, v: u64) -> u64 {
    legalize_envcfg(menvcfg_bits(flags), v)
}

/// mtvec's base.
#[inline(always)]
pub const fn base(mtvec: u64) -> u64 {
    mtvec & !TVEC_MODE
}

/// Where interrupt n goes: 4 times n behind the base in vectored mode.
#[inline(always)]
pub const fn target(mtvec: u64, n: u64) -> u64 {
    let offset = if mtvec & TVEC_MODE == 1 { 4 * n } else { 0 };
    base(mtvec).wrapping_add(offset)
}

/// mip after a trap: some bits stay virtual, the others come from the trap.
#[inline(always)]
pub const fn trapped_mip(mip: u64, trap: u64) -> u64 {
    merge(trap, mip, interrupts::VIRTUAL)
}

/// A trap from a mode to M: MPP takes the mode, MPIE takes MIE, MIE 0.
#[inline(always)]
pub const fn entered(mode: u64, status: u64) -> u64 {
    let mpie = (status & mstatus::MIE) << 4;
    (status & !(mstatus::MPP | mstatus::MPIE | mstatus::MIE)) | mode << mstatus::MPP_SHIFT | mpie
}

/// mret: MPRV 0 unless MPP is M, MIE takes MPIE, MPIE 1, MPP U.
#[inline(always)]
pub const fn mret(status: u64) -> u64 {
    let mut lost = mstatus::MIE | mstatus::MPP;
    if status & mstatus::MPP != mstatus::MPP {
        lost |= mstatus::MPRV;
    }
    let mie = (status & mstatus::MPIE) >> 4;
    (status & !lost) | mie | mstatus::MPIE
}

/// sret: SIE takes SPIE, SPIE 1, SPP U, MPRV 0.
#[inline(always)]
pub const fn sret(status: u64) -> u64 {
    let lost = mstatus::SIE | mstatus::SPP | mstatus::MPRV;
    let sie = (status & mstatus::SPIE) >> 4;
    (status & !lost) | sie | mstatus::SPIE
}

#[inline(always)]
pub const fn mpp(status: u64) -> u64 {
    (status & mstatus::MPP) >> mstatus::MPP_SHIFT
}

#[inline(always)]
pub const fn spp(status: u64) -> u64 {
    (status & mstatus::SPP) >> mstatus::SPP_SHIFT
}

/// The interrupts from the first taken to the last.
pub const ORDER: [u64; 7] = [11, 3, 7, 9, 1, 5, 13];

/// The first in the order whose bit is set, or 0.
#[inline(always)]
pub fn first(ready: u64) -> u64 {
    ORDER.into_iter().find(|n| ready >> n & 1 == 1).unwrap_or(0)
}
