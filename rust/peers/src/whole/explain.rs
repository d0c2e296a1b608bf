//! Which bits of a value a write doesn't store, and why: a reason is the set of the bits that it
//! holds for, and the other harts that it may ask for are tried one by one.
use core::iter;

use super::access;
use super::caps::Caps;
use super::hart::Hart;
use crate::arguments::Host;
use crate::csr;
use crate::outcome::Listing;
use crate::rules::{self, envcfg, flags, interrupts, misa, mstatus};

/// A write to a register that the hart has, on a legal record.
pub struct Write<'a> {
    pub hart: &'a Hart,
    pub host: Host,
    pub address: u64,
    pub value: u64,
}

impl Write<'_> {
    /// The lost bits under these capabilities, each with the lowest of its reasons.
    pub fn explain(&self, caps: &Caps) -> Listing {
        let lost = (self.value ^ self.compared_word(caps)) & self.compared_bits();
        let (read_only, never_copied) = (self.read_only(), self.never_copied());
        let asked = lost & !(read_only | never_copied);
        let reasons = [
            read_only,
            never_copied,
            self.stored_elsewhere(asked, others(caps, looked_at(self.address))),
            self.reserved(),
            self.forced(),
            self.ignored(caps),
            self.driven(),
        ];
        let mut listing = NOTHING;
        for bit in (0..64).filter(|bit| lost >> bit & 1 == 1) {
            let lowest = reasons.iter().position(|holds| holds >> bit & 1 == 1);
            let at = listing.count as usize;
            listing.bits[at] = bit;
            listing.reasons[at] = lowest.map_or(0, |n| n as u8 + 1); // each has one
            listing.count += 1;
        }
        listing
    }

    /// What the register reads after the write, with the line down; of tselect what is stored.
    fn compared_word(&self, caps: &Caps) -> u64 {
        let mut after = self.hart.clone();
        access::write(caps, &mut after, self.address, self.value);
        let host = Host {
            line: 0,
            ..self.host
        };
        match self.address {
            csr::TSELECT => after.tselect,
            address => access::read(caps, &after, &host, address),
        }
    }

    fn compared_bits(&self) -> u64 {
        match self.address {
            csr::SSTATUS => mstatus::SSTATUS,
            csr::SIE | csr::SIP => self.hart.mideleg & interrupts::SUPERVISOR,
            _ => !0,
        }
    }

    /// 1: a write to the register stores nothing.
    fn read_only(&self) -> u64 {
        all_if(matches!(
            self.address,
            csr::SEED
                | csr::MISA
                | csr::MHPMEVENT3..=csr::MHPMEVENT31
                | csr::SCONTEXT
                | csr::MHPMCOUNTER3..=csr::MHPMCOUNTER31
                | csr::CYCLE..=csr::INSTRET
                | csr::MVENDORID..=csr::MCONFIGPTR
        ))
    }

    /// 2: no hart takes the bit from a value, and it is in no field of 4 or 5.
    fn never_copied(&self) -> u64 {
        let taken = match self.address {
            csr::MSTATUS => 1 << 1 | 1 << 3 | 1 << 5 | run(7, 14) | run(17, 22),
            csr::SSTATUS => 1 << 1 | 1 << 5 | run(8, 10) | run(13, 14) | run(18, 19),
            csr::MIE => 0xAAA,
            csr::SIE | csr::MIP => 0x222,
            csr::SIP => 0x2,
            csr::MIDELEG => 0x2000,
            csr::MEDELEG => 0xB3FF,
            csr::MCOUNTEREN | csr::SCOUNTEREN => 7,
            csr::MCOUNTINHIBIT => 5,
            csr::MENVCFG => 1 << 0 | run(4, 7) | run(62, 63),
            csr::SENVCFG => 1 << 0 | run(4, 7),
            csr::MEPC | csr::SEPC => run(1, 63),
            _ => !0,
        };
        !(taken | self.choice() | self.forced())
    }

    /// 3: those of the bits asked for that the write stores on one of the other harts, if that has
    /// the register.
    fn stored_elsewhere(&self, asked: u64, others: impl IntoIterator<Item = Caps>) -> u64 {
        let mut found = 0;
        let mut others = others.into_iter();
        while found != asked {
            match others.next() {
                Some(other) if access::check(&other, self.address).is_ok() => {
                    found |= asked & !(self.value ^ self.compared_word(&other));
                }
                Some(_) => {}
                None => break,
            }
        }
        found
    }

    /// 4: the field of which a value is reserved, if it is written with that.
    fn reserved(&self) -> u64 {
        let field = self.choice();
        let is_reserved = match self.address {
            csr::MSTATUS => self.value & field == 2 << mstatus::MPP_SHIFT,
            csr::MENVCFG | csr::SENVCFG => self.value & field == envcfg::CBIE_RESERVED,
            csr::MTVEC | csr::STVEC => self.value & field >= 2,
            _ => false,
        };
        field & all_if(is_reserved)
    }

    /// The field of which a value is reserved.
    fn choice(&self) -> u64 {
        match self.address {
            csr::MSTATUS => mstatus::MPP,
            csr::MENVCFG | csr::SENVCFG => envcfg::CBIE,
            csr::MTVEC | csr::STVEC => rules::TVEC_MODE,
            _ => 0,
        }
    }

    /// 5: the fields that are derived or forced.
    fn forced(&self) -> u64 {
        match self.address {
            csr::MSTATUS => run(32, 35) | 1 << 63,
            csr::SSTATUS => run(32, 33) | 1 << 63,
            csr::MIDELEG => 0x222,
            _ => 0,
        }
    }

    /// 6: the whole write is ignored.
    fn ignored(&self, caps: &Caps) -> u64 {
        all_if(match self.address {
            csr::MEPC | csr::SEPC => self.value > caps.highest,
            csr::SATP => !matches!(self.value >> 60, 0 | 8),
            _ => false,
        })
    }

    /// 7: STIP, while STCE is 1.
    fn driven(&self) -> u64 {
        let has_stce = self.hart.menvcfg & envcfg::STCE != 0;
        interrupts::STI & all_if(self.address == csr::MIP && has_stce)
    }
}

pub const NOTHING: Listing = Listing {
    refusal: 0,
    count: 0,
    bits: [0; 64],
    reasons: [0; 64],
};

/// The bits from the first to the last.
const fn run(first: u32, last: u32) -> u64 {
    (!0 >> (63 - last)) & (!0 << first)
}

const fn all_if(holds: bool) -> u64 {
    if holds {
        !0
    } else {
        0
    }
}

/// Bits of misa, of `interrupts` and of flags.
type Looked = (u64, u64, u64);

/// What the register's rule looks at; and S, where it decides which of these there may be.
const fn looked_at(address: u64) -> Looked {
    match address {
        csr::MSTATUS | csr::SSTATUS => (misa::S | misa::F | misa::V, 0, flags::ZFINX),
        csr::MEPC | csr::SEPC => (misa::C, 0, 0),
        csr::MIE | csr::MIP | csr::MIDELEG => (misa::S, interrupts::ALL, 0),
        csr::MENVCFG | csr::SENVCFG => (misa::S, 0, flags::ALL),
        _ => (0, 0, 0),
    }
}

/// The capabilities with each choice of these bits, and then what else makes them legal.
fn others(caps: &Caps, looked: Looked) -> impl Iterator<Item = Caps> + '_ {
    let (letters, sources, extensions) = looked;
    subsets(letters).flat_map(move |misa| {
        subsets(sources).flat_map(move |interrupts| {
            subsets(extensions).map(move |flags| {
                let other = Caps {
                    misa: rules::merge(caps.misa, misa, letters),
                    interrupts: rules::merge(caps.interrupts, interrupts, sources),
                    flags: rules::merge(caps.flags, flags, extensions),
                    ..caps.clone()
                };
                other.made_legal()
            })
        })
    })
}

/// The sets that have no bit but these, from none to all.
fn subsets(of: u64) -> impl Iterator<Item = u64> {
    let next = move |subset: &u64| (*subset != of).then(|| subset.wrapping_sub(of) & of);
    iter::successors(Some(0), next)
}

#[cfg(test)]
mod tests {
    use super::*;
    use crate::inputs::{self, Rng};

    /// All that a rule looks at in some register.
    const ALL: Looked = (
        misa::C | misa::F | misa::S | misa::V,
        interrupts::ALL,
        flags::ALL,
    );

    /// Every choice of these bits that is legal as it is.
    fn legal(caps: &Caps) -> impl Iterator<Item = Caps> + '_ {
        let (letters, sources, extensions) = ALL;
        subsets(letters).flat_map(move |misa| {
            subsets(sources).flat_map(move |interrupts| {
                subsets(extensions).filter_map(move |flags| {
                    let mut other = Caps {
                        misa: rules::merge(caps.misa, misa, letters),
                        interrupts,
                        flags,
                        ..caps.clone()
                    };
                    other.is_legal().then_some(other)
                })
            })
        })
    }

    #[test]
    fn what_a_rule_looks_at_is_enough() {
        let rng = &mut Rng::new(0);
        for (n, &address) in csr::SINGLE.iter().cycle().take(4000).enumerate() {
            let words = inputs::legal_caps(rng, n % 4 != 0);
            let caps = Caps::of(&words);
            if access::check(&caps, address).is_err() {
                continue;
            }
            let mode = inputs::legal_mode(rng, &words);
            let hart = inputs::legal_hart(rng, &words, mode);
            let write = Write {
                hart: &Hart::parse(&hart.map(u64::to_le_bytes)),
                host: Host::default(),
                address,
                value: rng.word(),
            };
            let asked = !write.read_only();
            assert_eq!(
                write.stored_elsewhere(asked, others(&caps, looked_at(address))),
                write.stored_elsewhere(asked, legal(&caps)),
                "{address:#x} takes {:#x}",
                write.value
            );
        }
    }

    #[test]
    fn there_are_as_many_legal_harts() {
        let caps = Caps::of(&inputs::legal_caps(&mut Rng::new(0), true));
        // with S: F, Zfinx or neither, and six more; bits 3, 7, 11, 13. Without S: four, and three.
        assert_eq!(legal(&caps).count(), 3 * 64 * 16 + 3 * 16 * 8);
    }
}
