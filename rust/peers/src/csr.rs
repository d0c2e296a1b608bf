//! The CSRs by their addresses.
use core::ops::RangeInclusive;

macro_rules! registers {
    ($($register:ident $name:ident $address:literal,)*) => {
        $(pub const $register: u64 = $address;)*

        /// Those that stand alone.
        pub const SINGLE: &[u64] = &[$($register),*];

        /// The name of the CSR at this address, if there is one.
        pub const fn name(address: u64) -> Option<&'static str> {
            match address {
                $($register => Some(stringify!($name)),)*
                MHPMCOUNTER3..=MHPMCOUNTER31 => Some("mhpmcounter"),
                MHPMEVENT3..=MHPMEVENT31 => Some("mhpmevent"),
                _ => None,
            }
        }
    };
}

registers! {
    SEED seed 0x015,
    SSTATUS sstatus 0x100,
    SIE sie 0x104,
    STVEC stvec 0x105,
    SCOUNTEREN scounteren 0x106,
    SENVCFG senvcfg 0x10A,
    SSCRATCH sscratch 0x140,
    SEPC sepc 0x141,
    SCAUSE scause 0x142,
    STVAL stval 0x143,
    SIP sip 0x144,
    STIMECMP stimecmp 0x14D,
    SATP satp 0x180,
    MSTATUS mstatus 0x300,
    MISA misa 0x301,
    MEDELEG medeleg 0x302,
    MIDELEG mideleg 0x303,
    MIE mie 0x304,
    MTVEC mtvec 0x305,
    MCOUNTEREN mcounteren 0x306,
    MENVCFG menvcfg 0x30A,
    MCOUNTINHIBIT mcountinhibit 0x320,
    MSCRATCH mscratch 0x340,
    MEPC mepc 0x341,
    MCAUSE mcause 0x342,
    MTVAL mtval 0x343,
    MIP mip 0x344,
    SCONTEXT scontext 0x5A8,
    TSELECT tselect 0x7A0,
    MCYCLE mcycle 0xB00,
    MINSTRET minstret 0xB02,
    CYCLE cycle 0xC00,
    TIME time 0xC01,
    INSTRET instret 0xC02,
    MVENDORID mvendorid 0xF11,
    MARCHID marchid 0xF12,
    MIMPID mimpid 0xF13,
    MHARTID mhartid 0xF14,
    MCONFIGPTR mconfigptr 0xF15,
}

pub const MHPMEVENT3: u64 = 0x323;
pub const MHPMEVENT31: u64 = 0x33F;
pub const MHPMCOUNTER3: u64 = 0xB03;
pub const MHPMCOUNTER31: u64 = 0xB1F;

/// mhpmcounter3..31 and mhpmevent3..31.
pub const RUNS: [RangeInclusive<u64>; 2] = [MHPMCOUNTER3..=MHPMCOUNTER31, MHPMEVENT3..=MHPMEVENT31];

/// Whether a CSR has this address.
pub const fn is_known(address: u64) -> bool {
    matches!(
        address,
        SEED | SSTATUS
            | SIE..=SCOUNTEREN
            | SENVCFG
            | SSCRATCH..=SIP
            | STIMECMP
            | SATP
            | MSTATUS..=MCOUNTEREN
            | MENVCFG
            | MCOUNTINHIBIT
            | MHPMEVENT3..=MHPMEVENT31
            | MSCRATCH..=MIP
            | SCONTEXT
            | TSELECT
            | MCYCLE
            | MINSTRET
            | MHPMCOUNTER3..=MHPMCOUNTER31
            | CYCLE..=INSTRET
            | MVENDORID..=MCONFIGPTR
    )
}

/// Whether a hart with or without S and Sstc has the CSR of this address, if there is one.
pub const fn is_present(address: u64, s: bool, sstc: bool) -> bool {
    let needs_s = address == MIDELEG || address == MEDELEG || address >> 8 & 3 == 1;
    let needs_sstc = address == STIMECMP;
    (s || !needs_s) && (sstc || !needs_sstc)
}
