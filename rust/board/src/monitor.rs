//! The monitor: what it does when the firmware traps into it, and before the firmware runs on.

use vhart::mip::SEIP;
use vhart::{Answer, Caps, Csr, Effect, Hart, Host, Imm, Rd, Refusal, Rs1, TrapInfo, Word};

use crate::board;

const ILLEGAL_INSTRUCTION: u64 = 2;

pub struct Monitor {
    pub caps: Caps,
    pub hart: Hart,
    /// What the firmware reads as time and seed. Its line isn't used: the board's is.
    pub host: Host,
}

impl Monitor {
    /// The firmware has run an instruction that it may not run itself. An error: the hart can't run
    /// on.
    pub fn on_illegal(&mut self, word: u64) -> Result<(), Refusal> {
        match self.emulate(word) {
            // What the firmware did wrong, the firmware must handle.
            Err(Refusal::NoSuchCsr | Refusal::CsrAbsent) => self.give_illegal(word),
            outcome => outcome,
        }
    }

    /// Injects what is pending, and gives its number.
    pub fn resume(&mut self) -> Result<Option<u64>, Refusal> {
        let pending = self.hart.pending(&self.caps)?;
        if let Some(number) = pending {
            self.hart.inject(&self.caps, number)?;
        }
        Ok(pending)
    }

    fn emulate(&mut self, word: u64) -> Result<(), Refusal> {
        let (hart, caps) = (&mut self.hart, &self.caps);
        let host = Host {
            line: board::mip() & SEIP != 0,
            ..self.host
        };
        let (csr, rd, operand) = (Csr(word >> 20), Rd(word >> 7 & 31), word >> 15 & 31);
        let answer = match word >> 12 & 7 {
            1 => hart.csrrw(caps, csr, rd, Rs1(operand), host)?,
            2 => hart.csrrs(caps, csr, rd, Rs1(operand), host)?,
            6 => hart.csrrsi(caps, csr, rd, Imm(operand), host)?,
            _ => return hart.mret(caps), // which is all else that this firmware runs
        };
        self.finish(answer);
        Ok(())
    }

    /// After a CSR instruction: moves pc on, and does what the answer asks.
    fn finish(&mut self, answer: Answer) {
        let next = self.hart.get(Word::Pc).wrapping_add(4);
        self.hart.set(Word::Pc, next);
        match answer.effect {
            Effect::SetSeip => board::set_seip(),
            Effect::ClearSeip => board::clear_seip(),
            _ => {}
        }
    }

    fn give_illegal(&mut self, word: u64) -> Result<(), Refusal> {
        let trap = TrapInfo {
            mcause: ILLEGAL_INSTRUCTION,
            mtval: word,
            mepc: self.hart.get(Word::Pc),
            mip: self.hart.get(Word::Mip), // its own, since the firmware itself trapped
            mstatus: 0,                    // not looked at, since the firmware is in mode M
        };
        self.hart.trap(&self.caps, trap)
    }
}
