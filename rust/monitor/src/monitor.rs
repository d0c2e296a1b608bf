//! The monitor: what it does when the firmware traps into it. What the CSRs become is the library's
//! to say.

use vhart::mip::{MTIP, SEIP};
use vhart::{Caps, Effect, Hart, Host, Refusal, TrapInfo, Word};

use crate::decode::decode;

const ILLEGAL_INSTRUCTION: u64 = 2;

pub struct Monitor {
    pub hart: Hart,
    pub caps: Caps,
    /// The board's own mip.
    pub board_mip: u64,
    /// What it did, for the terminal.
    pub deeds: Vec<Deed>,
    pub tally: Tally,
}

pub enum Deed {
    Did(String),
    /// The library refused a call.
    Refused(String),
}

/// How often what happened.
#[derive(Default)]
pub struct Tally {
    pub instructions: u32,
    pub done: u32,
    pub refused: u32,
    pub traps: u32,
    pub interrupts: u32,
}

impl Tally {
    fn count<T>(&mut self, outcome: Result<T, Refusal>) -> Result<T, Refusal> {
        match outcome {
            Ok(_) => self.done += 1,
            Err(_) => self.refused += 1,
        }
        outcome
    }
}

impl Monitor {
    /// Starts a hart under these capabilities.
    pub fn start(caps: Caps, pc: u64) -> Result<Monitor, Refusal> {
        let mut tally = Tally::default();
        let hart = tally.count(Hart::fresh(&caps, pc))?;
        Ok(Monitor {
            hart,
            caps,
            board_mip: 0,
            deeds: Vec::new(),
            tally,
        })
    }

    /// The firmware has run an instruction that it may not run itself. An error: the hart can't run
    /// on.
    pub fn on_illegal(&mut self, word: u32) -> Result<(), Refusal> {
        self.tally.instructions += 1;
        let before = self.hart.clone();
        if let Err(why) = self.emulate(word) {
            self.deeds.push(Deed::Refused(why.to_string()));
            if self.hart == before {
                self.tell("the record is as it was, byte for byte");
            }
            match why {
                // What the firmware did wrong, the firmware must handle.
                Refusal::NoSuchCsr | Refusal::CsrAbsent | Refusal::NoSupervisor => {
                    self.give_illegal(word)?;
                }
                _ => {
                    if let Err(fault) = self.hart.check(&self.caps) {
                        self.tell(format!("asks what is wrong: {fault}"));
                    }
                    self.tell("stops the hart");
                    return Err(why);
                }
            }
        }
        self.resume()
    }

    /// The firmware's timer is due, or has been set anew.
    pub fn on_timer(&mut self, is_due: bool) -> Result<(), Refusal> {
        let mip = self.hart.get(Word::Mip);
        let (mip, deed) = match is_due {
            true => (mip | MTIP, "raises MTIP"),
            false => (mip & !MTIP, "lowers MTIP"),
        };
        self.hart.set(Word::Mip, mip);
        self.tell(deed);
        self.resume()
    }

    fn emulate(&mut self, word: u32) -> Result<(), Refusal> {
        let Some(instruction) = decode(word) else {
            return self.give_illegal(word);
        };
        let outcome = instruction.run(&mut self.hart, &self.caps, Host::default());
        let effect = self.tally.count(outcome)?;
        self.tell("done");
        // There is no other effect that this monitor knows.
        match effect {
            Effect::SetSeip => self.board_mip |= SEIP,
            Effect::ClearSeip => self.board_mip &= !SEIP,
            _ => return Ok(()),
        }
        self.tell("does the same to the board's SEIP, as the answer asks");
        Ok(())
    }

    fn give_illegal(&mut self, word: u32) -> Result<(), Refusal> {
        let trap = TrapInfo {
            mcause: ILLEGAL_INSTRUCTION,
            mtval: word.into(),
            mepc: self.hart.get(Word::Pc),
            mip: self.hart.get(Word::Mip), // its own, since the firmware itself trapped
            mstatus: 0,                    // not looked at, since the firmware is in mode M
        };
        self.tally.count(self.hart.trap(&self.caps, trap))?;
        self.tally.traps += 1;
        self.tell("gives the firmware an illegal-instruction trap");
        Ok(())
    }

    /// Before the firmware runs on: injects what is pending.
    fn resume(&mut self) -> Result<(), Refusal> {
        if let Some(number) = self.tally.count(self.hart.pending(&self.caps))? {
            self.tally.count(self.hart.inject(&self.caps, number))?;
            self.tally.interrupts += 1;
            self.tell(format!("injects interrupt {number}, which is pending"));
        }
        Ok(())
    }

    /// What the effects are for: the board's SEIP is the record's.
    pub fn seip_agrees(&self) -> bool {
        (self.board_mip ^ self.hart.get(Word::Mip)) & SEIP == 0
    }

    fn tell(&mut self, deed: impl Into<String>) {
        self.deeds.push(Deed::Did(deed.into()));
    }
}
