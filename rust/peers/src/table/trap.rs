//! The pending question, injection, the firmware trap, mret and sret, on the words where they lie.
use super::legality::{alignment, faults, faults_but_mode, mstatus_faults};
use super::{put, refusal, word};
use crate::arguments::TrapInfo;
use crate::image::{caps, hart, CapsImage, HartImage};
use crate::outcome::{done, effect, refused, Outcome, Refusal};
use crate::rules::{self, interrupts, mode, mstatus};

const DONE: Outcome = done(0, effect::NONE);

#[inline(always)]
pub fn pending(c: &CapsImage, h: &HartImage) -> Outcome {
    if by_s!(c, faults(c, h)) != 0 {
        return refusal::of_images(c, h, Refusal::BadHart);
    }
    if word(h, hart::MODE) == mode::M
        && word(h, hart::MSTATUS) & mstatus::MIE == 0
        && word(h, hart::WAITING) == 0
    {
        return DONE;
    }
    // a legal record delegates all others, but for LCOFI, which it doesn't enable
    let ready = word(h, hart::MIE) & word(h, hart::MIP) & interrupts::MACHINE;
    done(rules::first(ready), effect::NONE)
}

#[inline(always)]
pub fn inject(c: &CapsImage, h: &mut HartImage, number: u64) -> Outcome {
    let bad_number = number >> 6 | !(word(c, caps::INTERRUPTS) >> (number & 63)) & 1;
    if by_s!(c, faults(c, h)) | bad_number != 0 {
        return refusal::of_images(c, h, Refusal::BadInterrupt);
    }
    let status = rules::entered(word(h, hart::MODE), word(h, hart::MSTATUS));
    put(h, hart::MSTATUS, status);
    put(h, hart::MODE, mode::M);
    put(h, hart::MCAUSE, rules::INTERRUPT | number);
    put(h, hart::MEPC, word(h, hart::PC));
    put(h, hart::MTVAL, 0);
    put(h, hart::PC, rules::target(word(h, hart::MTVEC), number));
    DONE
}

#[inline(always)]
pub fn trap(c: &CapsImage, h: &mut HartImage, trap: &TrapInfo) -> Outcome {
    if by_s!(c, faults(c, h)) | trap.mcause & rules::INTERRUPT != 0 {
        return refusal::of_images(c, h, Refusal::NotException);
    }
    if trap.mepc & alignment(c) | trap.mip & !word(c, caps::INTERRUPTS) != 0 {
        return refused(Refusal::BadTrap);
    }
    let mode = word(h, hart::MODE);
    let status = if mode == mode::M {
        rules::entered(mode::M, word(h, hart::MSTATUS))
    } else {
        let faults = by_s!(c, mstatus_faults(c, trap.mstatus));
        if faults != 0 || rules::mpp(trap.mstatus) != mode {
            return refused(Refusal::BadTrap);
        }
        trap.mstatus
    };
    put(h, hart::MSTATUS, status);
    put(h, hart::MODE, mode::M);
    put(h, hart::MCAUSE, trap.mcause);
    put(h, hart::MEPC, trap.mepc);
    put(h, hart::MTVAL, trap.mtval);
    let mip = rules::trapped_mip(word(h, hart::MIP), trap.mip);
    put(h, hart::MIP, mip);
    put(h, hart::PC, rules::base(word(h, hart::MTVEC)));
    DONE
}

#[inline(always)]
pub fn mret(c: &CapsImage, h: &mut HartImage) -> Outcome {
    if by_s!(c, faults_but_mode(c, h)) | word(h, hart::MODE) ^ mode::M != 0 {
        return refusal::of_images(c, h, Refusal::NotMachine);
    }
    let status = word(h, hart::MSTATUS);
    put(h, hart::MODE, rules::mpp(status));
    put(h, hart::MSTATUS, rules::mret(status));
    put(h, hart::PC, word(h, hart::MEPC));
    DONE
}

#[inline(always)]
pub fn sret(c: &CapsImage, h: &mut HartImage) -> Outcome {
    // to lack S is a fault here
    if faults_but_mode::<true>(c, h) | word(h, hart::MODE) ^ mode::M != 0 {
        return refusal::of_sret(c, h);
    }
    let status = word(h, hart::MSTATUS);
    put(h, hart::MODE, rules::spp(status));
    put(h, hart::MSTATUS, rules::sret(status));
    put(h, hart::PC, word(h, hart::SEPC));
    DONE
}
