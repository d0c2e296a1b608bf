//! The switch of worlds: the payload's CSRs onto the board and back into the record, and what
//! stands on the board while the firmware runs.

use vhart::{mip, mstatus, Csr, Word};

use crate::csrs;
use crate::monitor::{Monitor, M_LINES};
use crate::pmp::View;
use crate::status::{self, World};
use crate::stop::Stop;

/// What software sets in mip, and the payload sees.
pub const S_BITS: u64 = mip::SSIP | mip::STIP;

/// The CSRs that the payload writes itself, and those that the firmware sets for it.
pub const PAYLOADS: [(Csr, Word); 8] = [
    (Csr::STVEC, Word::Stvec),
    (Csr::SCOUNTEREN, Word::Scounteren),
    (Csr::SENVCFG, Word::Senvcfg),
    (Csr::SSCRATCH, Word::Sscratch),
    (Csr::SEPC, Word::Sepc),
    (Csr::SCAUSE, Word::Scause),
    (Csr::STVAL, Word::Stval),
    (Csr::SATP, Word::Satp),
];
const FOR_PAYLOAD: [(Csr, Word); 3] = [
    (Csr::MEDELEG, Word::Medeleg),
    (Csr::MIDELEG, Word::Mideleg),
    (Csr::MIE, Word::Mie),
];

impl Monitor {
    /// The payload has trapped: what it changed comes into the record, by the rules of its CSRs.
    pub fn payload_in(&mut self, board: u64) -> Result<(), Stop> {
        self.hart
            .set(Word::Mode, (board & mstatus::MPP) >> mstatus::MPP_SHIFT);
        let bits = csrs::read(Csr::MIP) & S_BITS;
        self.hart
            .set(Word::Mip, self.hart.get(Word::Mip) & !S_BITS | bits);
        let status = status::taken_back(&self.hart, board, World::Payload);
        self.write(Csr::MSTATUS, status)?;
        self.write(Csr::SIE, csrs::read(Csr::SIE))?;
        self.payloads = PAYLOADS.map(|(csr, _)| csrs::read(csr));
        for ((csr, _), value) in PAYLOADS.into_iter().zip(self.payloads) {
            self.write(csr, value)?;
        }
        if self.has_stimecmp() {
            self.write(Csr::STIMECMP, csrs::read(Csr::STIMECMP))?;
        }
        Ok(())
    }

    /// The hart is in S or U: the payload runs on.
    pub fn payload_out(&mut self) {
        let hart = &self.hart;
        csrs::write(Csr::MSTATUS, status::on_board(hart, World::Payload));
        csrs::clear_mip(S_BITS);
        csrs::set_mip(hart.get(Word::Mip) & S_BITS);
        for (csr, word) in FOR_PAYLOAD {
            csrs::write(csr, hart.get(word));
        }
        for ((csr, _), value) in PAYLOADS.into_iter().zip(self.payloads) {
            csrs::write(csr, value);
        }
        csrs::write(Csr::MCOUNTEREN, hart.get(Word::Mcounteren) & !self.stopped);
        self.pmp.show(View::Payload);
        self.now_on_board(World::Payload);
    }

    /// The firmware wrote one of the payload's CSRs: so that is what the payload finds.
    pub fn payloads_written(&mut self, written: Csr) {
        for ((csr, word), value) in PAYLOADS.into_iter().zip(&mut self.payloads) {
            if csr == written {
                *value = self.hart.get(word);
            }
        }
    }

    /// The payload's, of whose modes the record takes two.
    pub fn satp(&self) -> u64 {
        let [.., satp] = self.payloads;
        satp
    }

    /// The firmware has trapped: it may have used its floating-point or vector registers.
    pub fn firmware_in(&mut self, board: u64) -> Result<(), Stop> {
        match status::taken_back(&self.hart, board, World::Firmware) {
            same if same == self.hart.get(Word::Mstatus) => Ok(()),
            status => self.write(Csr::MSTATUS, status),
        }
    }

    /// The hart is in M: the firmware runs on, in U of the board.
    pub fn firmware_out(&mut self) {
        if self.on_board != Some(World::Firmware) {
            csrs::write(Csr::MEDELEG, 0); // all traps come to the monitor
            csrs::write(Csr::MIDELEG, 0);
            csrs::write(Csr::MCOUNTEREN, 0); // a look at time or a counter too
            csrs::write(Csr::SATP, 0); // its addresses are physical
            csrs::write(Csr::SENVCFG, 0); // which acts on U
            self.now_on_board(World::Firmware);
        }
        csrs::write(Csr::MSTATUS, status::on_board(&self.hart, World::Firmware));
        let mie = match self.hart.get(Word::Mstatus) & mstatus::MIE {
            0 => 0,
            _ => self.hart.get(Word::Mie) & M_LINES,
        };
        csrs::write(Csr::MIE, mie);
        self.pmp.show(match self.is_under_mprv() {
            true => View::FetchOnly,
            false => View::Firmware,
        });
    }

    fn now_on_board(&mut self, world: World) {
        if self.on_board != Some(world) {
            self.counts.switches += 1;
            self.on_board = Some(world);
        }
    }
}
