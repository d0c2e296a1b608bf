//! The firmware's instructions that it may not run itself, in U: they are done in its place.

use vhart::{mip, Csr, Host, Refusal, Word};

use crate::counts::Entry;
use crate::decode::{decode, CsrInstruction, Instruction};
use crate::monitor::{Monitor, ILLEGAL};
use crate::pmp::Pmp;
use crate::stop::Stop;
use crate::{csrs, virt};

impl Monitor {
    pub fn emulate(&mut self, instruction: u64) -> Result<(), Stop> {
        match decode(instruction) {
            Instruction::Csr(made) if Pmp::has(made.csr) => self.pmp_csr(&made),
            Instruction::Csr(made) if made.writes() && made.csr.is_read_only() => {
                self.counts.read_only += 1; // the library would do it, and ignore the value
                self.give(ILLEGAL, instruction)
            }
            Instruction::Csr(made) if made.csr != Csr::SEED => {
                let came = self.library_csr(&made);
                self.or_illegal(came, instruction)
            }
            Instruction::Mret => self.mret(),
            Instruction::Sret => {
                let came = self.sret();
                self.or_illegal(came, instruction)
            }
            Instruction::Wfi => {
                self.counts.waits += 1;
                self.hart.set(Word::Waiting, 1);
                self.step_over(4);
                Ok(())
            }
            Instruction::SfenceVma => {
                self.counts.fences += 1;
                csrs::fence();
                self.step_over(4);
                Ok(())
            }
            _ => self.give(ILLEGAL, instruction), // seed too: this board has no Zkr
        }
    }

    /// What the firmware did wrong, the firmware must handle. Another refusal is the monitor's
    /// fault.
    fn or_illegal(&mut self, came: Result<(), (Entry, Refusal)>, word: u64) -> Result<(), Stop> {
        use Refusal::{CsrAbsent, NoSuchCsr, NoSupervisor};
        match came {
            Err((_, NoSuchCsr | CsrAbsent | NoSupervisor)) => self.give(ILLEGAL, word),
            Err((entry, refusal)) => Err(Stop::Refused(entry, refusal)),
            Ok(()) => Ok(()),
        }
    }

    fn library_csr(&mut self, made: &CsrInstruction) -> Result<(), (Entry, Refusal)> {
        let csr = made.csr;
        self.counters_in(csr);
        let host = Host {
            time: if csr == Csr::TIME { virt::time() } else { 0 },
            seed: 0,
            line: csrs::read(Csr::MIP) & mip::SEIP != 0,
        };
        let answer = self.csr(made, host)?;
        self.act(answer.effect);
        if made.writes() {
            self.written(csr);
        }
        self.step_over(4);
        Ok(())
    }

    /// The firmware wrote a CSR that acts on the board at once.
    fn written(&mut self, csr: Csr) {
        match csr {
            Csr::MENVCFG => csrs::write(csr, self.hart.get(Word::Menvcfg)),
            Csr::STIMECMP => csrs::write(csr, self.hart.get(Word::Stimecmp)),
            _ => {
                self.payloads_written(csr);
                self.counters_out(csr);
            }
        }
    }

    /// A register of the PMP, which the library doesn't have.
    fn pmp_csr(&mut self, made: &CsrInstruction) -> Result<(), Stop> {
        self.counts.pmp += 1;
        let old = self.pmp.read(made.csr);
        if made.writes() {
            let new = made.written(&self.hart, old);
            self.pmp.write(made.csr, new);
        }
        self.hart.set_x(made.rd.into(), old);
        self.step_over(4);
        Ok(())
    }
}
