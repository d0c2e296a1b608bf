//! mcycle and minstret. The record's don't count: the board's count for the firmware, for the
//! payload and for the monitor, which goes by them. So the board's are never stopped. One that the
//! firmware stops stands still in the record, and a look at it comes to the monitor.

use vhart::{Csr, Host, Mode, Rd, Word};

use crate::csrs;
use crate::decode::{decode, Instruction};
use crate::monitor::Monitor;
use crate::stop::Stop;

struct Counter {
    csr: Csr,
    /// What modes below M read it by.
    read_by: Csr,
    word: Word,
    /// In mcountinhibit, mcounteren and scounteren.
    bit: u64,
}

const COUNTERS: [Counter; 2] = [
    Counter {
        csr: Csr::MCYCLE,
        read_by: Csr::CYCLE,
        word: Word::Mcycle,
        bit: 1 << 0,
    },
    Counter {
        csr: Csr::MINSTRET,
        read_by: Csr::INSTRET,
        word: Word::Minstret,
        bit: 1 << 2,
    },
];

impl Monitor {
    /// Before the firmware looks at a CSR.
    pub fn counters_in(&mut self, csr: Csr) {
        for counter in &COUNTERS {
            let is_meant = csr == counter.csr || csr == counter.read_by;
            if is_meant && self.stopped & counter.bit == 0 {
                self.hart.set(counter.word, csrs::read(counter.csr));
            }
        }
    }

    /// After it wrote one.
    pub fn counters_out(&mut self, csr: Csr) {
        let stopped = self.hart.get(Word::Mcountinhibit);
        for counter in &COUNTERS {
            match (self.stopped & counter.bit != 0, stopped & counter.bit != 0) {
                (false, true) => self.hart.set(counter.word, csrs::read(counter.csr)),
                (true, false) => self.set_counter(counter),
                (false, false) if csr == counter.csr => self.set_counter(counter),
                _ => {}
            }
        }
        self.stopped = stopped;
    }

    fn set_counter(&mut self, counter: &Counter) {
        let value = self.hart.get(counter.word);
        if counter.csr == Csr::MINSTRET {
            self.counts.moved(csrs::read(Csr::MINSTRET), value);
        }
        csrs::write(counter.csr, value);
    }

    /// The payload has run an instruction that is illegal on the board: is it a look at a counter
    /// that stands still, and that the firmware and the payload's S let it read?
    pub fn stopped_counter(&self, instruction: u64) -> Option<(Csr, Rd)> {
        let Instruction::Csr(made) = decode(instruction) else {
            return None;
        };
        let counter = COUNTERS
            .iter()
            .find(|counter| counter.read_by == made.csr)?;
        let (hart, bit) = (&self.hart, counter.bit);
        let is_let = hart.get(Word::Mcounteren) & bit != 0
            && (hart.mode() == Some(Mode::S) || hart.get(Word::Scounteren) & bit != 0);
        (is_let && self.stopped & bit != 0 && !made.writes()).then_some((made.csr, made.rd))
    }

    pub fn read_stopped(&mut self, csr: Csr, rd: Rd) -> Result<(), Stop> {
        let value = self.read(csr, Host::default())?;
        self.hart.set_x(rd.into(), value);
        self.step_over(4);
        Ok(())
    }
}
