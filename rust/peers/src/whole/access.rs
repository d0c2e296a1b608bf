//! Reads and writes of CSRs by address: which there are, what each reads, and what a write stores.
use super::caps::Caps;
use super::hart::Hart;
use crate::arguments::Host;
use crate::csr;
use crate::outcome::Refusal;
use crate::rules::{self, mstatus};

/// Refuses the address of a CSR that this hart doesn't have.
#[inline(always)]
pub fn check(caps: &Caps, address: u64) -> Result<(), Refusal> {
    if !csr::is_known(address) {
        return Err(Refusal::NoSuchCsr);
    }
    if !csr::is_present(address, caps.s(), caps.sstc()) {
        return Err(Refusal::CsrAbsent);
    }
    Ok(())
}

/// Refuses a line that is neither 0 nor 1.
#[inline(always)]
pub fn check_line(host: &Host) -> Result<(), Refusal> {
    if host.line > 1 {
        return Err(Refusal::BadLine);
    }
    Ok(())
}

/// What a CSR that is there reads.
#[inline(always)]
pub fn read(caps: &Caps, hart: &Hart, host: &Host, address: u64) -> u64 {
    let mip = rules::shown_mip(caps.s(), hart.mip, host.line);
    match address {
        csr::MSTATUS => hart.mstatus,
        csr::MISA => caps.misa,
        csr::MEDELEG => hart.medeleg,
        csr::MIDELEG => hart.mideleg,
        csr::MIE => hart.mie,
        csr::MTVEC => hart.mtvec,
        csr::MCOUNTEREN => hart.mcounteren,
        csr::MENVCFG => hart.menvcfg,
        csr::MCOUNTINHIBIT => hart.mcountinhibit,
        csr::MSCRATCH => hart.mscratch,
        csr::MEPC => hart.mepc,
        csr::MCAUSE => hart.mcause,
        csr::MTVAL => hart.mtval,
        csr::MIP => mip,
        csr::SSTATUS => hart.mstatus & mstatus::SSTATUS,
        csr::SIE => rules::delegated(hart.mideleg, hart.mie),
        csr::STVEC => hart.stvec,
        csr::SCOUNTEREN => hart.scounteren,
        csr::SENVCFG => hart.senvcfg,
        csr::SSCRATCH => hart.sscratch,
        csr::SEPC => hart.sepc,
        csr::SCAUSE => hart.scause,
        csr::STVAL => hart.stval,
        csr::SIP => rules::delegated(hart.mideleg, mip),
        csr::STIMECMP => hart.stimecmp,
        csr::SATP => hart.satp,
        csr::TSELECT => !hart.tselect,
        csr::MCYCLE | csr::CYCLE => hart.mcycle,
        csr::MINSTRET | csr::INSTRET => hart.minstret,
        csr::TIME => host.time,
        csr::SEED => host.seed,
        csr::MVENDORID => caps.mvendorid,
        csr::MARCHID => caps.marchid,
        csr::MIMPID => caps.mimpid,
        csr::MHARTID => caps.mhartid,
        csr::MCONFIGPTR => caps.mconfigptr,
        // scontext, mhpmcounter3..31, mhpmevent3..31
        _ => 0,
    }
}

/// Stores what a CSR that is there makes of the value, and gives the effect.
#[inline(always)]
pub fn write(caps: &Caps, hart: &mut Hart, address: u64, v: u64) -> u64 {
    let old_mip = hart.mip;
    match address {
        csr::MSTATUS => hart.mstatus = caps.legalize_mstatus(v),
        csr::MEDELEG => hart.medeleg = v & rules::MEDELEG,
        csr::MIDELEG => hart.mideleg = rules::legalize_mideleg(caps.interrupts, v),
        csr::MIE => hart.mie = rules::legalize_mie(caps.interrupts, v),
        csr::MTVEC => hart.mtvec = rules::write_tvec(hart.mtvec, v),
        csr::MCOUNTEREN => hart.mcounteren = v & rules::COUNTEREN,
        csr::MENVCFG => hart.menvcfg = rules::legalize_menvcfg(caps.flags, v),
        csr::MCOUNTINHIBIT => hart.mcountinhibit = v & rules::COUNTINHIBIT,
        csr::MSCRATCH => hart.mscratch = v,
        csr::MEPC => hart.mepc = rules::write_epc(caps.highest, caps.c(), hart.mepc, v),
        csr::MCAUSE => hart.mcause = v,
        csr::MTVAL => hart.mtval = v,
        csr::MIP => hart.mip = rules::write_mip(caps.interrupts, hart.menvcfg, hart.mip, v),
        csr::SSTATUS => {
            hart.mstatus = caps.legalize_mstatus(rules::merge(hart.mstatus, v, mstatus::SSTATUS))
        }
        csr::SIE => hart.mie = rules::write_sie(hart.mideleg, hart.mie, v),
        csr::STVEC => hart.stvec = rules::write_tvec(hart.stvec, v),
        csr::SCOUNTEREN => hart.scounteren = v & rules::COUNTEREN,
        csr::SENVCFG => hart.senvcfg = rules::legalize_senvcfg(caps.flags, v),
        csr::SSCRATCH => hart.sscratch = v,
        csr::SEPC => hart.sepc = rules::write_epc(caps.highest, caps.c(), hart.sepc, v),
        csr::SCAUSE => hart.scause = v,
        csr::STVAL => hart.stval = v,
        csr::SIP => hart.mip = rules::write_sip(hart.mip, v),
        csr::STIMECMP => hart.stimecmp = v,
        csr::SATP => hart.satp = rules::write_satp(hart.satp, v),
        csr::TSELECT => hart.tselect = v,
        csr::MCYCLE => hart.mcycle = v,
        csr::MINSTRET => hart.minstret = v,
        // the others are read-only or read 0
        _ => {}
    }
    rules::seip_effect(old_mip, hart.mip)
}
