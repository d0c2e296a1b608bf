//! Which images are legal, tested where the words lie: a word of faults, 0 exactly if there is
//! none.
use super::has::{has_c, has_f, has_sstc, has_v, has_zfinx};
use super::{upper, word};
use crate::image::{caps, hart, CapsImage, HartImage};
use crate::rules::{
    self, envcfg, flags, interrupts, misa, mstatus, COUNTEREN, COUNTINHIBIT, MEDELEG,
};

/// The bits that menvcfg can't have, by the flags.
static NO_MENVCFG: [u64; 32] = {
    let mut table = [0; 32];
    let mut flags = 0;
    while flags < table.len() {
        table[flags] = !rules::menvcfg_bits(flags as u64);
        flags += 1;
    }
    table
};

/// The bits that menvcfg can't have here.
#[inline(always)]
pub fn no_menvcfg(c: &CapsImage) -> u64 {
    NO_MENVCFG[(word(c, caps::FLAGS) & flags::ALL) as usize]
}

/// FS and VS where they are always 0. Legal capabilities have Zfinx only without F.
#[inline(always)]
pub fn no_units<const S: bool>(c: &CapsImage) -> u64 {
    let (fs, vs) = if S {
        (!has_zfinx(c), true)
    } else {
        (has_f(c), has_v(c))
    };
    let no_fs = if fs { 0 } else { mstatus::FS };
    let no_vs = if vs { 0 } else { mstatus::VS };
    no_fs | no_vs
}

/// The bits that an instruction's address has 0.
#[inline(always)]
pub fn alignment(c: &CapsImage) -> u64 {
    rules::alignment(has_c(c))
}

/// Of both images.
#[inline(always)]
pub fn faults<const S: bool>(c: &CapsImage, h: &HartImage) -> u64 {
    let mode = word(h, hart::MODE);
    faults_but_mode::<S>(c, h) | mode & !3 | mode_faults::<S>(mode, 3)
}

/// Of both images, but for the mode, where that must be M anyway.
#[inline(always)]
pub fn faults_but_mode<const S: bool>(c: &CapsImage, h: &HartImage) -> u64 {
    caps_faults::<S>(c) | hart_faults::<S>(c, h)
}

#[inline(always)]
pub fn is_caps(c: &CapsImage) -> bool {
    by_s!(c, caps_faults(c)) == 0
}

#[inline(always)]
fn caps_faults<const S: bool>(c: &CapsImage) -> u64 {
    let misa = word(c, caps::MISA);
    let flags = word(c, caps::FLAGS);
    let interrupts = word(c, caps::INTERRUPTS);
    let tested = misa::MXL | misa::U | misa::H | misa::N | misa::S;
    let (letters, allowed, required, free) = if S {
        (
            misa::MXL_64 | misa::U | misa::S,
            flags::ALL,
            interrupts::SUPERVISOR,
            interrupts::MACHINE | interrupts::LCOFI,
        )
    } else {
        (
            misa::MXL_64 | misa::U,
            flags::ALL & !(flags::SSTC | flags::SVPBMT),
            0,
            interrupts::MACHINE,
        )
    };
    ((misa ^ letters) & tested)
        | (flags & !allowed)
        | (flags & flags::ZFINX & misa >> 5) // F
        | (word(c, caps::MVENDORID) >> 32)
        | ((interrupts ^ required) & !free)
}

/// Under legal capabilities, and but for the mode.
#[inline(always)]
fn hart_faults<const S: bool>(c: &CapsImage, h: &HartImage) -> u64 {
    let interrupts = word(c, caps::INTERRUPTS);
    let no_menvcfg = no_menvcfg(c);
    let alignment = alignment(c);
    let mie = word(h, hart::MIE);
    let menvcfg = word(h, hart::MENVCFG);
    let common = word(h, hart::X0)
        | (word(h, hart::WAITING) & !1)
        | mstatus_faults::<S>(c, word(h, hart::MSTATUS))
        | ((mie | word(h, hart::MIP)) & !interrupts)
        | (mie & interrupts::LCOFI)
        | (word(h, hart::MCOUNTINHIBIT) & !COUNTINHIBIT);
    let mideleg = word(h, hart::MIDELEG);
    let medeleg = word(h, hart::MEDELEG);
    if S {
        let senvcfg = word(h, hart::SENVCFG);
        common
            | ((word(h, hart::PC) | word(h, hart::MEPC) | word(h, hart::SEPC)) & alignment)
            | ((mideleg ^ interrupts::SUPERVISOR) & !(interrupts & interrupts::LCOFI))
            | (medeleg & !MEDELEG)
            | ((word(h, hart::MTVEC) | word(h, hart::STVEC)) & rules::TVEC_RESERVED)
            | ((word(h, hart::MCOUNTEREN) | word(h, hart::SCOUNTEREN)) & !COUNTEREN)
            | ((menvcfg | senvcfg) & no_menvcfg)
            | senvcfg >> 62 // STCE and PBMTE are menvcfg's alone
            | cbie_faults(menvcfg)
            | cbie_faults(senvcfg)
            | (word(h, hart::SATP) & rules::SATP_RESERVED)
            | if has_sstc(c) { 0 } else { word(h, hart::STIMECMP) }
    } else {
        common
            | ((word(h, hart::PC) | word(h, hart::MEPC)) & alignment)
            | (word(h, hart::MTVEC) & rules::TVEC_RESERVED)
            | (word(h, hart::MCOUNTEREN) & !COUNTEREN)
            | (menvcfg & no_menvcfg)
            | cbie_faults(menvcfg)
            | mideleg
            | medeleg
            | word(h, hart::STVEC)
            | word(h, hart::SCOUNTEREN)
            | word(h, hart::SENVCFG)
            | word(h, hart::SSCRATCH)
            | word(h, hart::SEPC)
            | word(h, hart::SCAUSE)
            | word(h, hart::STVAL)
            | word(h, hart::SATP)
            | word(h, hart::STIMECMP)
    }
}

#[inline(always)]
pub fn mstatus_faults<const S: bool>(c: &CapsImage, status: u64) -> u64 {
    let (fields, xl) = if S {
        (mstatus::WITH_S, mstatus::UXL_64 | mstatus::SXL_64)
    } else {
        (mstatus::WITHOUT_S, mstatus::UXL_64)
    };
    let twice = status & status << 1;
    let dirty = twice & upper(mstatus::FS | mstatus::VS) != 0;
    ((status ^ xl) & !(fields | mstatus::SD))
        | (status & no_units::<S>(c))
        | mode_faults::<S>(status, mstatus::MPP)
        | (dirty as u64 ^ status >> 63)
}

/// CBIE is 2.
#[inline(always)]
fn cbie_faults(envcfg: u64) -> u64 {
    envcfg & !(envcfg << 1) & upper(envcfg::CBIE)
}

/// A field of two bits holds a mode that isn't there: 2, or without S 1.
#[inline(always)]
fn mode_faults<const S: bool>(v: u64, field: u64) -> u64 {
    let odd = if S { v & !(v << 1) } else { v ^ v << 1 };
    odd & upper(field)
}
