//! The CSRs as rows of a table: where the word lies, what a read shows of it, and which bits a
//! write takes.
use super::place::Place;
use super::upper;
use crate::csr;
use crate::image::{caps, hart};
use crate::outcome::effect;
use crate::rules::{envcfg, interrupts, mstatus, COUNTEREN, COUNTINHIBIT, MEDELEG};

/// What a row can't do without.
pub mod lack {
    use crate::rules::flags;

    pub const S: u8 = 1;
    /// The flag's own bit, so that the flags tell it without a test.
    pub const SSTC: u8 = flags::SSTC as u8;
    /// Any CSR at this address: every hart lacks it.
    pub const CSR: u8 = 4;
}

/// Where a read finds its word.
#[derive(Clone, Copy)]
pub enum Source {
    Hart,
    Caps,
    Host,
}

/// The host's words.
const TIME: usize = 0;
const SEED: usize = 1;

/// Which limit a write has besides the bits that it takes.
#[derive(Clone, Copy, PartialEq, Eq)]
pub enum Rule {
    None,
    Interrupts,
    Mip,
    Tvec,
    Epc,
    Satp,
    Envcfg,
    Status,
}

#[derive(Clone, Copy)]
pub struct Row {
    /// The bits that a read shows.
    pub shown: u64,
    /// The bits that a write takes, as far as its rule allows.
    pub taken: u64,
    /// All bits but that which is written 0 where the bit below it is 0.
    pub single: u64,
    /// The effects that a write can have.
    pub effects: u64,
    pub needs: u8,
    pub source: Source,
    pub word: u8,
    /// A read shows the complement.
    pub flipped: bool,
    /// A read shows the line in SEIP.
    pub lined: bool,
    /// The word that a write stores to.
    pub stored: Place,
    pub rule: Rule,
}

/// Read from this word, writes ignored: they store mscratch as it is.
const fn read_only(source: Source, word: usize) -> Row {
    Row {
        shown: !0,
        taken: 0,
        single: !0,
        effects: effect::NONE,
        needs: 0,
        source,
        word: word as u8,
        flipped: false,
        lined: false,
        stored: Place::new(hart::MSCRATCH),
        rule: Rule::None,
    }
}

/// Reading 0, as x0 does, writes ignored.
const ZERO: Row = read_only(Source::Hart, hart::X0);

/// A word of which a write takes these bits.
const fn stored(word: usize, taken: u64) -> Row {
    Row {
        taken,
        stored: Place::new(word),
        ..read_only(Source::Hart, word)
    }
}

const fn ruled(word: usize, taken: u64, rule: Rule) -> Row {
    Row {
        rule,
        ..stored(word, taken)
    }
}

const fn showing(shown: u64, row: Row) -> Row {
    Row { shown, ..row }
}

const fn with_line(row: Row) -> Row {
    Row { lined: true, ..row }
}

/// A field of two bits that can't be 2.
const fn without_2(field: u64, row: Row) -> Row {
    Row {
        single: !upper(field),
        ..row
    }
}

const fn needing(needs: u8, row: Row) -> Row {
    Row { needs, ..row }
}

const fn with_s(row: Row) -> Row {
    needing(lack::S, row)
}

#[rustfmt::skip] // one line a register
const SINGLE: [(u64, Row); csr::SINGLE.len()] = [
    (csr::MSTATUS, without_2(mstatus::MPP, ruled(hart::MSTATUS, mstatus::WITH_S, Rule::Status))),
    (csr::MISA, read_only(Source::Caps, caps::MISA)),
    (csr::MEDELEG, with_s(stored(hart::MEDELEG, MEDELEG))),
    (csr::MIDELEG, with_s(ruled(hart::MIDELEG, interrupts::LCOFI, Rule::Interrupts))),
    (csr::MIE, ruled(hart::MIE, interrupts::ENABLED, Rule::Interrupts)),
    (csr::MTVEC, ruled(hart::MTVEC, !0, Rule::Tvec)),
    (csr::MCOUNTEREN, stored(hart::MCOUNTEREN, COUNTEREN)),
    (csr::MENVCFG, without_2(envcfg::CBIE, ruled(hart::MENVCFG, !0, Rule::Envcfg))),
    (csr::MCOUNTINHIBIT, stored(hart::MCOUNTINHIBIT, COUNTINHIBIT)),
    (csr::MSCRATCH, stored(hart::MSCRATCH, !0)),
    (csr::MEPC, ruled(hart::MEPC, !0, Rule::Epc)),
    (csr::MCAUSE, stored(hart::MCAUSE, !0)),
    (csr::MTVAL, stored(hart::MTVAL, !0)),
    (csr::MIP, with_line(Row { effects: effect::SET | effect::CLEAR, ..ruled(hart::MIP, interrupts::SUPERVISOR, Rule::Mip) })),
    (csr::SSTATUS, with_s(showing(mstatus::SSTATUS, ruled(hart::MSTATUS, mstatus::WITH_S & mstatus::SSTATUS, Rule::Status)))),
    (csr::SIE, with_s(showing(interrupts::SUPERVISOR, stored(hart::MIE, interrupts::SUPERVISOR)))),
    (csr::STVEC, with_s(ruled(hart::STVEC, !0, Rule::Tvec))),
    (csr::SCOUNTEREN, with_s(stored(hart::SCOUNTEREN, COUNTEREN))),
    (csr::SENVCFG, with_s(without_2(envcfg::CBIE, ruled(hart::SENVCFG, !(envcfg::PBMTE | envcfg::STCE), Rule::Envcfg)))),
    (csr::SSCRATCH, with_s(stored(hart::SSCRATCH, !0))),
    (csr::SEPC, with_s(ruled(hart::SEPC, !0, Rule::Epc))),
    (csr::SCAUSE, with_s(stored(hart::SCAUSE, !0))),
    (csr::STVAL, with_s(stored(hart::STVAL, !0))),
    (csr::SIP, with_s(with_line(showing(interrupts::SUPERVISOR, stored(hart::MIP, interrupts::SSI))))),
    (csr::STIMECMP, needing(lack::S | lack::SSTC, stored(hart::STIMECMP, !0))),
    (csr::SATP, with_s(ruled(hart::SATP, !0, Rule::Satp))),
    (csr::SCONTEXT, with_s(ZERO)),
    (csr::TSELECT, Row { flipped: true, ..stored(hart::TSELECT, !0) }),
    (csr::MCYCLE, stored(hart::MCYCLE, !0)),
    (csr::MINSTRET, stored(hart::MINSTRET, !0)),
    (csr::CYCLE, read_only(Source::Hart, hart::MCYCLE)),
    (csr::TIME, read_only(Source::Host, TIME)),
    (csr::INSTRET, read_only(Source::Hart, hart::MINSTRET)),
    (csr::MVENDORID, read_only(Source::Caps, caps::MVENDORID)),
    (csr::MARCHID, read_only(Source::Caps, caps::MARCHID)),
    (csr::MIMPID, read_only(Source::Caps, caps::MIMPID)),
    (csr::MHARTID, read_only(Source::Caps, caps::MHARTID)),
    (csr::MCONFIGPTR, read_only(Source::Caps, caps::MCONFIGPTR)),
    (csr::SEED, read_only(Source::Host, SEED)),
];

/// The rows that no single CSR has: of an address with none, and of mhpmcounter3..31 and
/// mhpmevent3..31.
const NO_CSR: usize = 0;
const HPM: usize = 1;
const FIRST_SINGLE: usize = 2;

/// A power of two, so that a row's number is tested by a mask.
const ROWS: usize = 64;

static ROW: [Row; ROWS] = {
    let mut rows = [needing(lack::CSR, ZERO); ROWS];
    rows[HPM] = ZERO;
    let mut n = 0;
    while n < SINGLE.len() {
        rows[FIRST_SINGLE + n] = SINGLE[n].1;
        n += 1;
    }
    rows
};

/// The row's number, by the address.
static NUMBER: [u8; 0x1000] = {
    let mut numbers = [NO_CSR as u8; 0x1000];
    let mut run = 0;
    while run < csr::RUNS.len() {
        let mut address = *csr::RUNS[run].start();
        while address <= *csr::RUNS[run].end() {
            numbers[address as usize] = HPM as u8;
            address += 1;
        }
        run += 1;
    }
    let mut n = 0;
    while n < SINGLE.len() {
        numbers[SINGLE[n].0 as usize] = (FIRST_SINGLE + n) as u8;
        n += 1;
    }
    numbers
};

/// The row of the address's lower 12 bits.
#[inline(always)]
pub fn row_at(address: u64) -> &'static Row {
    let number = NUMBER[address as usize % NUMBER.len()];
    &ROW[number as usize % ROWS]
}
