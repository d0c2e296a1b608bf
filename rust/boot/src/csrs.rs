//! The board's own CSRs: csrr, csrw, csrs and csrc on those that the monitor uses, and wfi.

use core::arch::asm;

use vhart::Csr;

/// The first of pmpaddr0 to pmpaddr15, and the two registers of their configurations.
pub const PMPADDR0: Csr = Csr(0x3B0);
pub const PMPCFG0: Csr = Csr(0x3A0);
pub const PMPCFG2: Csr = Csr(0x3A2);

macro_rules! csrs {
    (read { $($read:pat => $read_name:literal,)* } both { $($csr:pat => $name:literal,)* }) => {
        /// What the CSR reads; 0 of one that isn't listed here.
        #[inline(always)]
        pub fn read(csr: Csr) -> u64 {
            let value;
            // SAFETY: the read of a CSR changes nothing.
            unsafe {
                match csr {
                    $($read => asm!(concat!("csrr {}, ", $read_name), out(reg) value),)*
                    $($csr => asm!(concat!("csrr {}, ", $name), out(reg) value),)*
                    _ => value = 0,
                }
            }
            value
        }

        /// Writes the CSR, if it is listed here as one to write.
        #[inline(always)]
        pub fn write(csr: Csr, value: u64) {
            match csr {
                // SAFETY: none of them reaches the monitor's own loads, stores and fetches. MPRV of
                // mstatus would, and no source of status.rs has it.
                $($csr => unsafe { asm!(concat!("csrw ", $name, ", {}"), in(reg) value) },)*
                _ => {}
            }
        }
    };
}

csrs! {
    read {
        Csr::MISA => "misa",
        Csr::MEPC => "mepc",
        Csr::MCAUSE => "mcause",
        Csr::MTVAL => "mtval",
        Csr::MIP => "mip",
        Csr::MVENDORID => "mvendorid",
        Csr::MARCHID => "marchid",
        Csr::MIMPID => "mimpid",
        Csr::MHARTID => "mhartid",
    }
    both {
        Csr::SIE => "sie",
        Csr::STVEC => "stvec",
        Csr::SCOUNTEREN => "scounteren",
        Csr::SENVCFG => "senvcfg",
        Csr::SSCRATCH => "sscratch",
        Csr::SEPC => "sepc",
        Csr::SCAUSE => "scause",
        Csr::STVAL => "stval",
        Csr::STIMECMP => "0x14d",
        Csr::SATP => "satp",
        Csr::MSTATUS => "mstatus",
        Csr::MEDELEG => "medeleg",
        Csr::MIDELEG => "mideleg",
        Csr::MIE => "mie",
        Csr::MCOUNTEREN => "mcounteren",
        Csr::MENVCFG => "0x30a",
        Csr::MCOUNTINHIBIT => "mcountinhibit",
        Csr::MCYCLE => "mcycle",
        Csr::MINSTRET => "minstret",
        PMPCFG0 => "pmpcfg0",
        PMPCFG2 => "pmpcfg2",
        Csr(0x3B0) => "pmpaddr0",
        Csr(0x3B1) => "pmpaddr1",
        Csr(0x3B2) => "pmpaddr2",
        Csr(0x3B3) => "pmpaddr3",
        Csr(0x3B4) => "pmpaddr4",
        Csr(0x3B5) => "pmpaddr5",
        Csr(0x3B6) => "pmpaddr6",
        Csr(0x3B7) => "pmpaddr7",
        Csr(0x3B8) => "pmpaddr8",
        Csr(0x3B9) => "pmpaddr9",
        Csr(0x3BA) => "pmpaddr10",
        Csr(0x3BB) => "pmpaddr11",
        Csr(0x3BC) => "pmpaddr12",
        Csr(0x3BD) => "pmpaddr13",
        Csr(0x3BE) => "pmpaddr14",
        Csr(0x3BF) => "pmpaddr15",
    }
}

/// Sets bits of mip: by csrs, since a csrw of what was read would store the controller's line.
pub fn set_mip(bits: u64) {
    // SAFETY: no interrupt is taken while the monitor runs.
    unsafe { asm!("csrs mip, {}", in(reg) bits) }
}

pub fn clear_mip(bits: u64) {
    // SAFETY: as above.
    unsafe { asm!("csrc mip, {}", in(reg) bits) }
}

/// Sleeps until mie and mip of the board share a bit.
pub fn wait() {
    // SAFETY: as above.
    unsafe { asm!("wfi") }
}

/// Orders what was written to page tables and to the PMP before what is translated from here on.
pub fn fence() {
    // SAFETY: a fence changes nothing.
    unsafe { asm!("sfence.vma") }
}

/// Whether the board has stimecmp: without Sstc a look at it traps.
pub fn has_stimecmp() -> bool {
    let has: u64;
    // SAFETY: the vector is as it was behind it, and nothing else is changed.
    unsafe {
        asm!(
            "lla {vector}, 2f",
            "csrrw {vector}, mtvec, {vector}",
            "li {has}, 0",
            "csrr zero, 0x14d",
            "li {has}, 1",
            ".balign 4",
            "2: csrw mtvec, {vector}",
            vector = out(reg) _,
            has = out(reg) has,
        );
    }
    has != 0
}

/// What minstret grows by over 64 instructions.
pub fn minstret_of_64() -> u64 {
    let (before, after): (u64, u64);
    // SAFETY: nothing is changed.
    unsafe {
        asm!(
            "csrr {before}, minstret",
            ".rept 63",
            "nop",
            ".endr",
            "csrr {after}, minstret",
            before = out(reg) before,
            after = out(reg) after,
        );
    }
    after.wrapping_sub(before)
}
