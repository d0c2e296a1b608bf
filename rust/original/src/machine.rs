//! The original's record, from image words and back, and each entry of the C interface as a call of
//! the original's own function.
#![warn(dead_code, unused_imports)] // of ours, which the crate allows for the original's sake
use std::panic::{catch_unwind, AssertUnwindSafe};

use peers::csr;
use peers::image::{caps, hart, CapsWords, HartWords};
use peers::interface::{Args, Entry};
use peers::outcome::{done, effect, Outcome};
use peers::rules::{envcfg, flags, misa, mode};

use crate::arch::metal::{self, EFFECTS};
use crate::arch::{Csr, ExtensionsCapability, Mode, Register, TrapInfo};
use crate::decoder::IllegalInst;
use crate::host::MiralisContext;
use crate::platform::VirtPlatform;
use crate::virt::traits::*;
use crate::virt::{VirtContext, VirtCsr};

/// A hart of the original: the two contexts that its functions take.
pub struct Machine {
    pub ctx: VirtContext,
    pub mctx: MiralisContext,
    highest: u64,
}

/// Why there is no answer.
#[derive(Clone, Debug, PartialEq, Eq)]
pub enum Stopped {
    /// Its decoder knows no such CSR.
    NoCsr,
    /// It panics: the monitor halts.
    Panic(String),
}

/// What the capability words say, as the original's record of extensions. Those of which the words
/// don't speak (Zicntr, Zihpm, crypto) are there, since docs/RULES.md has their registers.
fn extensions(caps: &CapsWords, menvcfg: u64) -> ExtensionsCapability {
    let letter = |letter| caps[caps::MISA] & letter != 0;
    let flag = |flag| caps[caps::FLAGS] & flag != 0;
    ExtensionsCapability {
        has_h_extension: letter(misa::H),
        has_s_extension: letter(misa::S),
        has_v_extension: letter(misa::V),
        has_c_extension: letter(misa::C),
        has_crypto_extension: true,
        has_zicntr: true,
        has_zfinx: flag(flags::ZFINX),
        has_sstc_extension: flag(flags::SSTC),
        is_sstc_enabled: menvcfg & envcfg::STCE != 0,
        has_zihpm_extension: true,
        has_zicbom_extension: flag(flags::ZICBOM),
        has_zicboz_extension: flag(flags::ZICBOZ),
        has_tee_extension: false,
    }
}

/// The words of the record that are CSRs of the original, each with its field.
macro_rules! csr_words {
    ($($word:ident $field:ident: $type:ty,)*) => {
        fn csr_word(csr: &VirtCsr, word: usize) -> u64 {
            match word {
                $(hart::$word => csr.$field as u64,)*
                _ => panic!("the record has no word {word}"),
            }
        }

        fn set_csr_word(csr: &mut VirtCsr, word: usize, value: u64) {
            match word {
                $(hart::$word => csr.$field = value as $type,)*
                _ => panic!("the record has no word {word}"),
            }
        }
    };
}

csr_words! {
    MSTATUS mstatus: usize,
    MIE mie: usize,
    MIP mip: usize,
    MIDELEG mideleg: usize,
    MEDELEG medeleg: usize,
    MTVEC mtvec: usize,
    MCOUNTEREN mcounteren: u32,
    MCOUNTINHIBIT mcountinhibit: u32,
    MENVCFG menvcfg: usize,
    MSCRATCH mscratch: usize,
    MEPC mepc: usize,
    MCAUSE mcause: usize,
    MTVAL mtval: usize,
    MCYCLE mcycle: usize,
    MINSTRET minstret: usize,
    TSELECT tselect: usize,
    STVEC stvec: usize,
    SCOUNTEREN scounteren: u32,
    SENVCFG senvcfg: usize,
    SSCRATCH sscratch: usize,
    SEPC sepc: usize,
    SCAUSE scause: usize,
    STVAL stval: usize,
    SATP satp: usize,
    STIMECMP stimecmp: usize,
}

impl Machine {
    /// The original's own fresh record, with the words that its start-up code takes from the
    /// hardware.
    pub fn fresh(caps: &CapsWords, pc: u64) -> Machine {
        let extensions = extensions(caps, 0);
        let hart_id = caps[caps::MHARTID] as usize;
        let mut ctx = VirtContext::new(hart_id, 0, extensions.clone());
        ctx.pc = pc as usize;
        ctx.csr.misa = caps[caps::MISA] as usize;
        ctx.csr.mvendorid = caps[caps::MVENDORID] as u32;
        ctx.csr.marchid = caps[caps::MARCHID] as usize;
        ctx.csr.mimpid = caps[caps::MIMPID] as usize;
        ctx.csr.mconfigptr = caps[caps::MCONFIGPTR] as usize;
        let interrupts = caps[caps::INTERRUPTS] as usize;
        let hardware = metal::hardware(interrupts, extensions, hart_id);
        Machine {
            ctx,
            mctx: MiralisContext::new(hardware, 0, 0),
            highest: caps[caps::HIGHEST],
        }
    }

    /// The original's record that holds these words.
    pub fn load(caps: &CapsWords, words: &HartWords) -> Machine {
        let mut machine = Machine::fresh(caps, 0);
        for (word, &value) in words.iter().enumerate() {
            machine.set_word(word, value);
        }
        machine
    }

    pub fn words(&self) -> HartWords {
        std::array::from_fn(|word| self.word(word))
    }

    fn word(&self, word: usize) -> u64 {
        match word {
            0..hart::PC => self.ctx.regs[word] as u64,
            hart::PC => self.ctx.pc as u64,
            hart::MODE => self.ctx.mode.to_bits() as u64,
            hart::WAITING => self.ctx.is_wfi as u64,
            _ => csr_word(&self.ctx.csr, word),
        }
    }

    /// Puts a value in a word from outside. Whether Sstc is enabled, which the original keeps
    /// beside menvcfg, goes with it.
    pub fn set_word(&mut self, word: usize, value: u64) {
        match word {
            0..hart::PC => self.ctx.regs[word] = value as usize,
            hart::PC => self.ctx.pc = value as usize,
            hart::MODE => self.ctx.mode = mode_of(value),
            hart::WAITING => self.ctx.is_wfi = value == 1,
            _ => set_csr_word(&mut self.ctx.csr, word, value),
        }
        if word == hart::MENVCFG {
            self.mctx.hw.extensions.is_sstc_enabled = value & envcfg::STCE != 0;
        }
    }

    /// Calls the original's function for an entry, with the entry's arguments. A panic is caught
    /// and told.
    pub fn call(&mut self, entry: Entry, args: &Args) -> Result<Outcome, Stopped> {
        VirtPlatform::set_highest(self.highest as usize);
        EFFECTS.with(|effects| effects.borrow_mut().clear());
        let answer = match catch_unwind(AssertUnwindSafe(|| self.run(entry, args))) {
            Ok(answer) => answer?,
            Err(panic) => return Err(Stopped::Panic(message(&*panic))),
        };
        Ok(done(answer, asked()))
    }

    fn run(&mut self, entry: Entry, args: &Args) -> Result<u64, Stopped> {
        let &[a, b, c, d, e, ..] = args;
        match entry {
            Entry::Read | Entry::PlainRead => {
                metal::set_host(b, c);
                Ok(self.ctx.get(self.csr(a)?) as u64)
            }
            Entry::Write | Entry::PlainWrite => {
                let csr = self.csr(a)?;
                self.ctx.set_csr(csr, b as usize, &mut self.mctx);
                Ok(0)
            }
            Entry::Csrrw
            | Entry::Csrrs
            | Entry::Csrrc
            | Entry::Csrrwi
            | Entry::Csrrsi
            | Entry::Csrrci => {
                metal::set_host(d, e);
                let csr = self.csr(a)?;
                // the value that the instruction reads: the original leaves it in rd alone, which
                // may be x0
                let answer = self.ctx.get(csr) as u64;
                self.instruction(entry, csr, b as usize, c as usize);
                Ok(answer)
            }
            Entry::Pending => Ok(self.ctx.pending().unwrap_or(0) as u64),
            Entry::Inject => {
                self.ctx.inject(a as usize);
                Ok(0)
            }
            Entry::Trap => {
                self.ctx.trap_info = trap_info(args);
                self.ctx.emulate_firmware_trap();
                Ok(0)
            }
            Entry::Mret => {
                self.ctx.emulate_mret(&mut self.mctx);
                Ok(0)
            }
            Entry::Sret => {
                self.ctx.emulate_sret(&mut self.mctx);
                Ok(0)
            }
            Entry::Fresh => {
                unreachable!("the original makes a fresh record without one: Machine::fresh")
            }
        }
    }

    fn instruction(&mut self, entry: Entry, csr: Csr, rd: usize, field: usize) {
        let (ctx, mctx) = (&mut self.ctx, &mut self.mctx);
        let (rd, rs1) = (Register::from(rd), Register::from(field));
        match entry {
            Entry::Csrrw => ctx.emulate_csrrw(mctx, csr, rd, rs1),
            Entry::Csrrs => ctx.emulate_csrrs(mctx, csr, rd, rs1),
            Entry::Csrrc => ctx.emulate_csrrc(mctx, csr, rd, rs1),
            Entry::Csrrwi => ctx.emulate_csrrwi(mctx, csr, rd, field),
            Entry::Csrrsi => ctx.emulate_csrrsi(mctx, csr, rd, field),
            Entry::Csrrci => ctx.emulate_csrrci(mctx, csr, rd, field),
            _ => unreachable!("no CSR instruction"),
        }
    }

    /// The register at an address, as its decoder has it; stimecmp also where the decoder hides it
    /// until menvcfg enables Sstc, since csr.rs itself doesn't ask.
    pub fn csr(&self, address: u64) -> Result<Csr, Stopped> {
        let decoded = usize::try_from(address)
            .ok()
            .filter(|&a| a < 0x1000)
            .and_then(|a| self.mctx.decode_csr(a));
        let has_sstc = self.mctx.hw.extensions.has_sstc_extension;
        match decoded {
            None if address == csr::STIMECMP && has_sstc => Ok(Csr::Stimecmp),
            decoded => decoded.ok_or(Stopped::NoCsr),
        }
    }

    /// Reads a register past the decoder; why it stops, if it does.
    pub fn reads(&self, csr: Csr) -> Option<Stopped> {
        let panic = catch_unwind(AssertUnwindSafe(|| self.ctx.get(csr))).err()?;
        Some(Stopped::Panic(message(&*panic)))
    }

    /// Whether its decoder takes a CSR instruction, given as its word.
    pub fn decodes(&self, instruction: u32) -> bool {
        !matches!(
            self.mctx.decode_illegal_instruction(instruction as usize),
            IllegalInst::InvalidCsrOp | IllegalInst::Unknown
        )
    }
}

/// The trap record of the entry's five numbers.
pub fn trap_info(args: &Args) -> TrapInfo {
    let [mcause, mtval, mepc, mip, mstatus, ..] = args.map(|arg| arg as usize);
    TrapInfo {
        mepc,
        mstatus,
        mcause,
        mip,
        mtval,
        mtval2: 0,
        mtinst: 0,
        gva: false,
    }
}

fn mode_of(number: u64) -> Mode {
    match number {
        mode::U => Mode::U,
        mode::S => Mode::S,
        _ => Mode::M,
    }
}

/// What was asked of the machine since the call began, by the interface's numbers: at most one
/// change, of the physical SEIP.
fn asked() -> u64 {
    const SEIP: usize = 1 << 9;
    EFFECTS.with(|effects| match effects.borrow()[..] {
        [] => effect::NONE,
        [(true, Csr::Mip, SEIP)] => effect::SET,
        [(false, Csr::Mip, SEIP)] => effect::CLEAR,
        ref other => panic!("the original asks for {other:?}"),
    })
}

fn message(panic: &(dyn std::any::Any + Send)) -> String {
    let text = panic.downcast_ref::<String>().map(String::as_str);
    text.or(panic.downcast_ref::<&str>().copied())
        .unwrap_or("a panic without a text")
        .into()
}
