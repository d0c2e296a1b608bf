//! The calls of the library, each counted with its instructions. Those that a call log can hold are
//! logged too.

use vhart::{Answer, Caps, Csr, Effect, Hart, Host, Logged, Refusal, TrapInfo};

use crate::counts::Entry;
use crate::csrs;
use crate::decode::{CsrInstruction, Form};
use crate::log::Log;
use crate::monitor::Monitor;
use crate::stop::Stop;

impl Monitor {
    fn call<T>(
        &mut self,
        entry: Entry,
        call: impl FnOnce(&mut Hart, &Caps) -> Result<T, Refusal>,
    ) -> Result<T, Refusal> {
        let before = csrs::read(Csr::MINSTRET);
        let came = call(&mut self.hart, &self.caps);
        let instructions = csrs::read(Csr::MINSTRET).wrapping_sub(before);
        self.counts
            .call(entry, instructions, came.as_ref().err().copied());
        came
    }

    fn logged(
        &mut self,
        entry: Entry,
        logged: Logged,
        call: impl FnOnce(&mut Hart, &Caps) -> Result<Answer, Refusal>,
    ) -> Result<Answer, Refusal> {
        self.keep(|log, hart| log.before(hart));
        let came = self.call(entry, call);
        let result = match came {
            Ok(Answer { value, effect }) => [value, number(effect), 0],
            Err(refusal) => [0, 0, refusal.number().unwrap_or(0)],
        };
        self.keep(|log, hart| log.after(logged, result, hart));
        came
    }

    fn keep(&mut self, keep: impl FnOnce(&mut Log, &Hart)) {
        if self.log.is_kept() {
            let before = csrs::read(Csr::MINSTRET);
            keep(&mut self.log, &self.hart);
            self.counts.log += csrs::read(Csr::MINSTRET).wrapping_sub(before);
        }
    }

    pub fn fresh(&mut self, pc: u64) -> Result<(), Stop> {
        let fresh = |hart: &mut Hart, caps: &Caps| Hart::fresh(caps, pc).map(|made| *hart = made);
        self.call(Entry::Fresh, fresh).map_err(of(Entry::Fresh))
    }

    pub fn read(&mut self, csr: Csr, host: Host) -> Result<u64, Stop> {
        let read = |hart: &mut Hart, caps: &Caps| hart.read(caps, csr, host).map(value_alone);
        let came = self.logged(Entry::Read, Logged::Read { csr }, read);
        came.map(|answer| answer.value).map_err(of(Entry::Read))
    }

    /// A write, and its effect.
    pub fn write(&mut self, csr: Csr, value: u64) -> Result<(), Stop> {
        let write = |hart: &mut Hart, caps: &Caps| hart.write(caps, csr, value).map(effect_alone);
        let came = self.logged(Entry::Write, Logged::Write { csr, value }, write);
        self.act(came.map_err(of(Entry::Write))?.effect);
        Ok(())
    }

    /// A CSR instruction. A refusal is the caller's to look at.
    pub fn csr(&mut self, made: &CsrInstruction, host: Host) -> Result<Answer, (Entry, Refusal)> {
        let (csr, rd) = (made.csr, made.rd);
        let entry = match made.form {
            Form::Csrrw => Entry::Csrrw,
            Form::Csrrs => Entry::Csrrs,
            Form::Csrrc => Entry::Csrrc,
            Form::Csrrwi => Entry::Csrrwi,
            Form::Csrrsi => Entry::Csrrsi,
            Form::Csrrci => Entry::Csrrci,
        };
        let came = self.call(entry, |hart, caps| match made.form {
            Form::Csrrw => hart.csrrw(caps, csr, rd, made.rs1(), host),
            Form::Csrrs => hart.csrrs(caps, csr, rd, made.rs1(), host),
            Form::Csrrc => hart.csrrc(caps, csr, rd, made.rs1(), host),
            Form::Csrrwi => hart.csrrwi(caps, csr, rd, made.imm(), host),
            Form::Csrrsi => hart.csrrsi(caps, csr, rd, made.imm(), host),
            Form::Csrrci => hart.csrrci(caps, csr, rd, made.imm(), host),
        });
        self.counts.csr(csr, came.is_ok());
        came.map_err(|refusal| (entry, refusal))
    }

    pub fn pending(&mut self) -> Result<Option<u64>, Stop> {
        let pending = |hart: &mut Hart, caps: &Caps| hart.pending(caps);
        self.call(Entry::Pending, pending)
            .map_err(of(Entry::Pending))
    }

    pub fn inject(&mut self, number: u64) -> Result<(), Stop> {
        self.counts.injection(number);
        let inject = |hart: &mut Hart, caps: &Caps| hart.inject(caps, number).map(nothing);
        let came = self.logged(Entry::Inject, Logged::Inject { number }, inject);
        came.map(drop).map_err(of(Entry::Inject))
    }

    pub fn trap(&mut self, trap: TrapInfo) -> Result<(), Stop> {
        let taken = |hart: &mut Hart, caps: &Caps| hart.trap(caps, trap);
        self.call(Entry::Trap, taken).map_err(of(Entry::Trap))
    }

    pub fn mret(&mut self) -> Result<(), Stop> {
        let mret = |hart: &mut Hart, caps: &Caps| hart.mret(caps).map(nothing);
        let came = self.logged(Entry::Mret, Logged::Mret, mret);
        came.map(drop).map_err(of(Entry::Mret))
    }

    /// A refusal is the caller's to look at: without S the instruction is illegal.
    pub fn sret(&mut self) -> Result<(), (Entry, Refusal)> {
        let sret = |hart: &mut Hart, caps: &Caps| hart.sret(caps).map(nothing);
        let came = self.logged(Entry::Sret, Logged::Sret, sret);
        came.map(drop).map_err(|refusal| (Entry::Sret, refusal))
    }

    /// Does what a call asks for.
    pub fn act(&mut self, effect: Effect) {
        use vhart::mip::SEIP;
        self.counts.effect(effect);
        match effect {
            Effect::SetSeip => csrs::set_mip(SEIP),
            Effect::ClearSeip => csrs::clear_mip(SEIP),
            _ => {}
        }
    }
}

fn of(entry: Entry) -> impl Fn(Refusal) -> Stop {
    move |refusal| Stop::Refused(entry, refusal)
}

fn value_alone(value: u64) -> Answer {
    Answer {
        value,
        effect: Effect::None,
    }
}

fn effect_alone(effect: Effect) -> Answer {
    Answer { value: 0, effect }
}

fn nothing((): ()) -> Answer {
    effect_alone(Effect::None)
}

fn number(effect: Effect) -> u64 {
    match effect {
        Effect::SetSeip => 1,
        Effect::ClearSeip => 2,
        Effect::Other(number) => number,
        _ => 0,
    }
}
