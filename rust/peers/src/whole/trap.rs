//! The pending question, injection, the firmware trap, mret and sret.
use super::caps::Caps;
use super::hart::Hart;
use crate::arguments::TrapInfo;
use crate::outcome::Refusal;
use crate::rules::{self, mode, mstatus};

/// Whether a trap record is good for a hart in this mode, but for its mcause.
#[inline(always)]
fn is_good(trap: &TrapInfo, caps: &Caps, mode: u64) -> bool {
    caps.is_aligned(trap.mepc)
        && caps.has_interrupts(trap.mip)
        && (mode == mode::M
            || (caps.legalize_mstatus(trap.mstatus) == trap.mstatus
                && rules::mpp(trap.mstatus) == mode))
}

impl Hart {
    /// The interrupts that are enabled, pending and not delegated; `None` where they are held back.
    #[inline(always)]
    pub fn ready(&self) -> Option<u64> {
        if self.mode == mode::M && self.mstatus & mstatus::MIE == 0 && self.waiting == 0 {
            return None;
        }
        Some(self.mie & self.mip & !self.mideleg)
    }

    #[inline(always)]
    pub fn pending(&self) -> u64 {
        self.ready().map_or(0, rules::first)
    }

    #[inline(always)]
    pub fn inject(&mut self, caps: &Caps, number: u64) -> Result<(), Refusal> {
        if number > 63 || caps.interrupts >> number & 1 == 0 {
            return Err(Refusal::BadInterrupt);
        }
        self.mstatus = rules::entered(self.mode, self.mstatus);
        self.mcause = rules::INTERRUPT | number;
        self.mepc = self.pc;
        self.mtval = 0;
        self.mode = mode::M;
        self.pc = rules::target(self.mtvec, number);
        Ok(())
    }

    #[inline(always)]
    pub fn trap(&mut self, caps: &Caps, trap: &TrapInfo) -> Result<(), Refusal> {
        if trap.mcause & rules::INTERRUPT != 0 {
            return Err(Refusal::NotException);
        }
        if !is_good(trap, caps, self.mode) {
            return Err(Refusal::BadTrap);
        }
        self.mcause = trap.mcause;
        self.mtval = trap.mtval;
        self.mepc = trap.mepc;
        self.mip = rules::trapped_mip(self.mip, trap.mip);
        self.mstatus = if self.mode == mode::M {
            rules::entered(mode::M, self.mstatus)
        } else {
            trap.mstatus
        };
        self.mode = mode::M;
        self.pc = rules::base(self.mtvec);
        Ok(())
    }

    #[inline(always)]
    pub fn mret(&mut self) -> Result<(), Refusal> {
        if self.mode != mode::M {
            return Err(Refusal::NotMachine);
        }
        self.mode = rules::mpp(self.mstatus);
        self.mstatus = rules::mret(self.mstatus);
        self.pc = self.mepc;
        Ok(())
    }

    #[inline(always)]
    pub fn sret(&mut self, caps: &Caps) -> Result<(), Refusal> {
        if self.mode != mode::M {
            return Err(Refusal::NotMachine);
        }
        if !caps.s() {
            return Err(Refusal::NoSupervisor);
        }
        self.mode = rules::spp(self.mstatus);
        self.mstatus = rules::sret(self.mstatus);
        self.pc = self.sepc;
        Ok(())
    }
}
