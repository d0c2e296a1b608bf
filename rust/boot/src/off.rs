//! The power switch: its page is closed for stores, so that what the firmware did is told before
//! the monitor throws it.

use vhart::{mstatus, Csr, Mode, Word};

use crate::decode::{self, Access};
use crate::memory::{self, As};
use crate::monitor::{Monitor, STORE_FAULT};
use crate::pmp;
use crate::status::World;
use crate::stop::Stop;
use crate::{csrs, table, virt};

/// S, with no other field of mstatus.
const IN_S: u64 = Mode::S.number() << mstatus::MPP_SHIFT;

impl Monitor {
    /// A store faulted: if it was to the switch, it is done here. Else it is the firmware's to
    /// handle.
    pub fn store_faulted(&mut self, world: World, address: u64) -> Result<(), Stop> {
        let access = match world {
            World::Firmware => self.firmwares_store(address),
            World::Payload => self.payloads_store(address),
        };
        let Some(access) = access else {
            return self.give(STORE_FAULT, address);
        };
        let word = access.cut(self.hart.x(access.register)) as u32;
        if virt::powers_off(word) {
            table::print(&self.counts, &self.log);
        }
        virt::store_to_switch(word);
        self.step_over(access.length); // a word that means nothing to it
        Ok(())
    }

    /// The store at pc, if it is to the switch.
    fn firmwares_store(&self, address: u64) -> Option<Access> {
        match address {
            virt::SWITCH => self.store_at_pc(As::Monitor),
            _ => None,
        }
    }

    /// The same of the payload, whose address may be translated, and if the firmware lets it.
    fn payloads_store(&self, address: u64) -> Option<Access> {
        let physical = translated(self.satp(), address)?;
        if physical != virt::SWITCH || !self.pmp.lets(physical, pmp::WRITE) {
            return None;
        }
        csrs::write(Csr::SATP, self.satp());
        csrs::fence();
        // with MXR, so that a page that is only executable can be loaded
        let mode = self.hart.get(Word::Mode) << mstatus::MPP_SHIFT;
        self.store_at_pc(As::Below(mode | mstatus::MXR))
    }

    fn store_at_pc(&self, who: As) -> Option<Access> {
        let instruction = memory::instruction(self.hart.get(Word::Pc), who).ok()?;
        decode::access(instruction).filter(|access| access.is_store)
    }
}

/// The physical address behind one of the payload's, by its page table, which is read as in S.
fn translated(satp: u64, address: u64) -> Option<u64> {
    const PAGE_NUMBER: u64 = (1 << 44) - 1;
    let levels = match satp >> 60 {
        0 => return Some(address),
        mode @ 8..=10 => mode - 5, // Sv39, Sv48, Sv57
        _ => return None,
    };
    csrs::write(Csr::SATP, 0); // a table's addresses are physical
    csrs::fence();
    let mut table = (satp & PAGE_NUMBER) << 12;
    for level in (0..levels).rev() {
        let shift = 12 + 9 * level;
        let place = table + 8 * (address >> shift & 0x1FF);
        let entry = memory::doubleword(place, As::Below(IN_S)).ok()?;
        let page = (entry >> 10 & PAGE_NUMBER) << 12;
        match entry & 0xF {
            flags if flags & 1 == 0 => return None, // not valid
            1 => table = page,
            _ => {
                let within = (1 << shift) - 1;
                return Some(page & !within | address & within);
            }
        }
    }
    None
}
