//! The PMP: the board's entries, of which the first close what is the monitor's, and the firmware's
//! own registers, which are kept beside the record.

use vhart::Csr;

use crate::csrs::{self, PMPADDR0, PMPCFG0, PMPCFG2};
use crate::virt;

/// The board's entries. The firmware's are those behind the monitor's four.
const ENTRIES: usize = 16;
const FIRST: usize = 4;
const FIRMWARES: usize = ENTRIES - FIRST;

/// What an entry allows.
pub const READ: u8 = 1;
pub const WRITE: u8 = 2;
const EXECUTE: u8 = 4;
/// What addresses it is for: those from the entry's before it up to its own, four bytes, or a power
/// of two of bytes, which the address's lowest zero tells.
const TOR: u8 = 1 << 3;
const NA4: u8 = 2 << 3;
const NAPOT: u8 = 3 << 3;
/// What the firmware's entries keep. The lock isn't kept: on the board it would bind the monitor.
const KEPT: u8 = NAPOT | EXECUTE | WRITE | READ;
/// The bits that an address register has.
const ADDRESS: u64 = (1 << 54) - 1;

/// What the board lets through, beside what is closed always.
#[derive(Clone, Copy, PartialEq)]
pub enum View {
    /// The firmware in U: everything.
    Firmware,
    /// The firmware under MPRV: fetches alone, so that each load and store comes to the monitor.
    FetchOnly,
    /// The payload: what the firmware's own entries let through.
    Payload,
}

pub struct Pmp {
    addresses: [u64; FIRMWARES],
    configs: [u8; FIRMWARES],
    /// What the board has now, if that is known.
    shown: Option<View>,
}

impl Pmp {
    pub const fn new() -> Pmp {
        Pmp {
            addresses: [0; FIRMWARES],
            configs: [0; FIRMWARES],
            shown: None,
        }
    }

    /// Whether the firmware has a register of this number. The others of the PMP's are illegal.
    pub fn has(csr: Csr) -> bool {
        csr == PMPCFG0 || csr == PMPCFG2 || (PMPADDR0.0..PMPADDR0.0 + 16).contains(&csr.0)
    }

    /// What the firmware reads there. The entries that the monitor took for itself read 0.
    pub fn read(&self, csr: Csr) -> u64 {
        match first_entry(csr) {
            Some(first) => {
                let config = |n| self.configs.get(first + n).copied().unwrap_or(0);
                u64::from_le_bytes(core::array::from_fn(config))
            }
            None => self.addresses.get(address(csr)).copied().unwrap_or(0),
        }
    }

    pub fn write(&mut self, csr: Csr, value: u64) {
        self.shown = None;
        match first_entry(csr) {
            Some(first) => {
                let entries = self.configs.iter_mut().skip(first);
                for (config, byte) in entries.zip(value.to_le_bytes()) {
                    *config = legal(byte);
                }
            }
            None => {
                if let Some(place) = self.addresses.get_mut(address(csr)) {
                    *place = value & ADDRESS;
                }
            }
        }
    }

    /// Whether the firmware's entries let the payload do this at an address.
    pub fn lets(&self, address: u64, right: u8) -> bool {
        let mut from = 0;
        for (to, config) in self.addresses.iter().zip(self.configs) {
            let (word, low) = (address >> 2, to ^ to.wrapping_add(1));
            let is_meant = match config & NAPOT {
                TOR => (from..*to).contains(&word),
                NA4 => word == *to,
                NAPOT => (word ^ to) & !low == 0,
                _ => false,
            };
            if is_meant {
                return config & right != 0;
            }
            from = *to;
        }
        false
    }

    /// Puts the entries onto the board: the monitor's memory, the switch, what has a device write
    /// to memory by itself, one that is off and from which a firmware's first range begins at 0,
    /// and the firmware's. The last is for all else.
    pub fn show(&mut self, view: View) {
        if self.shown == Some(view) {
            return;
        }
        self.shown = Some(view);
        let (start, bytes) = virt::monitor();
        let mut addresses = [0; ENTRIES];
        let mut configs = [0; ENTRIES];
        (addresses[0], configs[0]) = (napot(start, bytes), NAPOT);
        (addresses[1], configs[1]) = (napot(virt::SWITCH, virt::SWITCH_BYTES), NAPOT);
        (addresses[2], configs[2]) = (napot(virt::DMA, virt::DMA_BYTES), NAPOT);
        match view {
            View::Firmware => {
                configs[1] |= READ;
                (addresses[ENTRIES - 1], configs[ENTRIES - 1]) = (ADDRESS, KEPT);
            }
            View::FetchOnly => {
                (addresses[ENTRIES - 1], configs[ENTRIES - 1]) = (ADDRESS, NAPOT | EXECUTE);
            }
            View::Payload => {
                if self.lets(virt::SWITCH, READ) {
                    configs[1] |= READ;
                }
                addresses[FIRST..].copy_from_slice(&self.addresses);
                configs[FIRST..].copy_from_slice(&self.configs);
            }
        }
        put(&addresses, &configs);
    }
}

/// The entry whose configuration is the register's first byte, if it holds configurations.
fn first_entry(csr: Csr) -> Option<usize> {
    match csr {
        PMPCFG0 => Some(0),
        PMPCFG2 => Some(8),
        _ => None,
    }
}

fn address(csr: Csr) -> usize {
    (csr.0 as usize).wrapping_sub(PMPADDR0.0 as usize)
}

/// Writing without reading is reserved: then neither is allowed.
fn legal(config: u8) -> u8 {
    match config & (WRITE | READ) {
        WRITE => config & KEPT & !WRITE,
        _ => config & KEPT,
    }
}

/// The address register of an entry for so many bytes, a power of two.
fn napot(start: u64, bytes: u64) -> u64 {
    start >> 2 | (bytes >> 3).wrapping_sub(1)
}

fn put(addresses: &[u64; ENTRIES], configs: &[u8; ENTRIES]) {
    for (n, address) in (0..).zip(addresses) {
        csrs::write(Csr(PMPADDR0.0 + n), *address);
    }
    let configs = u128::from_le_bytes(*configs);
    csrs::write(PMPCFG0, configs as u64);
    csrs::write(PMPCFG2, (configs >> 64) as u64);
    csrs::fence();
}
