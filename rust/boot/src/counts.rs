//! What the firmware did, counted. table.rs prints it.

use vhart::{Csr, Effect, Refusal};

use crate::csrs;
use crate::start::VECTOR;
use crate::status::World;

/// An entry of the library that works on the record.
#[derive(Clone, Copy)]
pub enum Entry {
    Fresh,
    Read,
    Write,
    Csrrw,
    Csrrs,
    Csrrc,
    Csrrwi,
    Csrrsi,
    Csrrci,
    Pending,
    Inject,
    Trap,
    Mret,
    Sret,
}

/// In the order of the entries.
const NAMES: [&str; 14] = [
    "fresh", "read", "write", "csrrw", "csrrs", "csrrc", "csrrwi", "csrrsi", "csrrci", "pending",
    "inject", "trap", "mret", "sret",
];

impl Entry {
    pub fn name(self) -> &'static str {
        NAMES[self as usize]
    }
}

/// The calls of an entry, and what minstret grew by in them.
#[derive(Clone, Copy)]
pub struct Calls {
    pub made: u64,
    pub ticks: u64,
}

/// How often, by a number below N.
pub struct Tally<const N: usize>([u64; N]);

impl<const N: usize> Tally<N> {
    const fn new() -> Tally<N> {
        Tally([0; N])
    }

    fn add(&mut self, number: u64) {
        if let Some(count) = self.0.get_mut(number as usize) {
            *count += 1;
        }
    }

    /// Those that aren't 0, with their numbers.
    pub fn each(&self) -> impl Iterator<Item = (u64, u64)> + '_ {
        (0..)
            .zip(self.0.iter().copied())
            .filter(|(_, count)| *count != 0)
    }
}

pub struct Counts {
    calls: [Calls; NAMES.len()],
    pub refusals: Tally<24>,
    pub csrs: Tally<4096>,
    pub csrs_refused: Tally<4096>,
    pub injected: Tally<64>,
    pub interrupts: Tally<64>,
    pub firmwares_exceptions: Tally<64>,
    pub payloads_exceptions: Tally<64>,
    pub seip_set: u64,
    pub seip_cleared: u64,
    /// What the monitor does without the library.
    pub pmp: u64,
    pub read_only: u64,
    pub waits: u64,
    pub fences: u64,
    pub mprv: u64,
    pub switches: u64,
    /// What minstret grew by in each world, in the monitor with all that it calls, and in that.
    pub payload: u64,
    pub firmware: u64,
    pub monitor: u64,
    pub library: u64,
    pub log: u64,
    /// What it grows by for an instruction: qemu's may count nanoseconds.
    unit: u64,
    /// What it held when the monitor was entered or left last.
    at: u64,
}

impl Counts {
    pub const fn new() -> Counts {
        Counts {
            calls: [Calls { made: 0, ticks: 0 }; NAMES.len()],
            refusals: Tally::new(),
            csrs: Tally::new(),
            csrs_refused: Tally::new(),
            injected: Tally::new(),
            interrupts: Tally::new(),
            firmwares_exceptions: Tally::new(),
            payloads_exceptions: Tally::new(),
            seip_set: 0,
            seip_cleared: 0,
            pmp: 0,
            read_only: 0,
            waits: 0,
            fences: 0,
            mprv: 0,
            switches: 0,
            payload: 0,
            firmware: 0,
            monitor: 0,
            library: 0,
            log: 0,
            unit: 1,
            at: 0,
        }
    }

    /// Before the firmware runs.
    pub fn start(&mut self) {
        self.unit = csrs::minstret_of_64().div_ceil(64).max(1);
        self.at = csrs::read(Csr::MINSTRET);
    }

    pub fn call(&mut self, entry: Entry, ticks: u64, refusal: Option<Refusal>) {
        let calls = &mut self.calls[entry as usize];
        calls.made += 1;
        calls.ticks += ticks;
        self.library += ticks;
        if let Some(number) = refusal.and_then(Refusal::number) {
            self.refusals.add(number);
        }
    }

    /// The calls of each entry.
    pub fn calls(&self) -> impl Iterator<Item = (&'static str, Calls)> + '_ {
        NAMES.into_iter().zip(self.calls)
    }

    pub fn csr(&mut self, csr: Csr, is_done: bool) {
        match is_done {
            true => self.csrs.add(csr.0),
            false => self.csrs_refused.add(csr.0),
        }
    }

    pub fn effect(&mut self, effect: Effect) {
        match effect {
            Effect::SetSeip => self.seip_set += 1,
            Effect::ClearSeip => self.seip_cleared += 1,
            _ => {}
        }
    }

    pub fn injection(&mut self, number: u64) {
        self.injected.add(number);
    }

    pub fn interrupt(&mut self, mcause: u64) {
        self.interrupts.add(mcause & !(1 << 63));
    }

    pub fn exception(&mut self, world: World, mcause: u64) {
        match world {
            World::Firmware => self.firmwares_exceptions.add(mcause),
            World::Payload => self.payloads_exceptions.add(mcause),
        }
    }

    /// The hart has trapped: what it ran since the monitor was left.
    pub fn entered(&mut self, world: World) {
        let now = csrs::read(Csr::MINSTRET);
        let own = now.wrapping_sub(self.at).saturating_sub(VECTOR * self.unit);
        match world {
            World::Firmware => self.firmware += own,
            World::Payload => self.payload += own,
        }
        self.at = now;
    }

    /// The hart runs on: what the monitor ran since it was entered.
    pub fn left(&mut self) {
        let now = csrs::read(Csr::MINSTRET);
        self.monitor += now.wrapping_sub(self.at) + VECTOR * self.unit;
        self.at = now;
    }

    /// The firmware has set minstret, so the count goes on from there.
    pub fn moved(&mut self, from: u64, to: u64) {
        self.at = self.at.wrapping_add(to).wrapping_sub(from);
    }

    pub fn instructions(&self, ticks: u64) -> u64 {
        ticks.checked_div(self.unit).unwrap_or(0)
    }
}
