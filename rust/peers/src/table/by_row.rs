//! A CSR read and written by its row of the table, without a branch for each register. It only
//! looks: so it can come before the test of the images, which then keeps no words for it. What it
//! gives counts if they are legal.
use super::legality::{alignment, no_menvcfg, no_units};
use super::place::Place;
use super::rows::{lack, row_at, Row, Rule};
use super::{lower, word};
use crate::arguments::Host;
use crate::image::{caps, hart, CapsImage, HartImage};
use crate::rules::{self, interrupts, mstatus};

/// What a CSR shows, and what it reads with line 0, from which bits are set and cleared.
pub struct Read {
    pub shown: u64,
    pub old: u64,
}

/// The one word that a write stores, and the effect.
pub struct Change {
    pub place: Place,
    pub word: u64,
    pub effect: u64,
}

/// What the CSR reads, if this hart has it.
#[inline(always)]
pub fn read<const S: bool>(
    c: &CapsImage,
    h: &HartImage,
    host: &Host,
    address: u64,
) -> Option<Read> {
    let row = present::<S>(c, address)?;
    let line = if S { host.line & row.lined as u64 } else { 0 };
    let host = [host.time.to_le_bytes(), host.seed.to_le_bytes()];
    // in the order of the sources
    let words = [h.as_ptr(), c.as_ptr(), host.as_ptr()][row.source as usize];
    // SAFETY: a row's word is one of its source's
    let word = u64::from_le_bytes(unsafe { *words.add(row.word as usize) });
    let old = (word & row.shown) ^ (row.flipped as u64).wrapping_neg();
    Some(Read {
        shown: old | line << 9,
        old,
    })
}

/// What the CSR makes of the value, if this hart has it. If it isn't written, the value is what it
/// reads, and it stays as it is.
#[inline(always)]
pub fn write<const S: bool>(
    c: &CapsImage,
    h: &HartImage,
    address: u64,
    v: u64,
    is_written: bool,
) -> Option<Change> {
    let row = present::<S>(c, address)?;
    let interrupts = word(c, caps::INTERRUPTS);
    let stce = word(h, hart::MENVCFG) >> 63;
    let status = if S {
        mstatus::WITH_S
    } else {
        mstatus::WITHOUT_S
    };
    // in the order of the rules
    let limits = [
        !0,
        interrupts,
        interrupts & !(stce * interrupts::STI),
        !((v >> 1 & 1) * rules::TVEC_MODE),
        if v > word(c, caps::HIGHEST) {
            0
        } else {
            !alignment(c)
        },
        if v & rules::SATP_RESERVED == 0 { !0 } else { 0 },
        !no_menvcfg(c),
        status & !no_units::<S>(c),
    ];
    let taken = row.taken & limits[row.rule as usize] & (is_written as u64).wrapping_neg();
    let is_status = row.rule == Rule::Status;
    let v = v & (v << 1 | row.single);
    let v = if is_status && !S {
        v & (v >> 1 | !lower(mstatus::MPP))
    } else {
        v
    };
    let old = row.stored.word(h);
    let new = rules::merge(old, v, taken);
    let new = if is_status {
        new & !mstatus::SD | rules::sd(new)
    } else {
        new
    };
    Some(Change {
        place: row.stored,
        word: new,
        effect: rules::seip_effect(old, new) & row.effects,
    })
}

/// The row of a CSR that this hart has.
#[inline(always)]
fn present<const S: bool>(c: &CapsImage, address: u64) -> Option<&'static Row> {
    let row = row_at(address);
    let s = if S { 0 } else { lack::S };
    let sstc = !word(c, caps::FLAGS) as u8 & lack::SSTC;
    let lacked = row.needs & (lack::CSR | s | sstc);
    (lacked as u64 | address >> 12 == 0).then_some(row)
}
