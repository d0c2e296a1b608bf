//! The hart's record, parsed from its image and stored back whole, and when it is legal.
use core::array;

use super::caps::Caps;
use crate::image::{hart as at, hart_words, CapsWords, HartImage, HartWords};
use crate::outcome::Refusal;
use crate::rules::{self, interrupts, mode};

macro_rules! parsed {
    ($($word:ident $name:ident $at:literal,)*) => {
        #[derive(Clone, Default)]
        pub struct Hart {
            pub x: [u64; 32],
            $(pub $name: u64,)*
        }

        impl Hart {
            #[inline(always)]
            pub fn parse(image: &HartImage) -> Hart {
                let word = |at: usize| u64::from_le_bytes(image[at]);
                Hart {
                    x: array::from_fn(word),
                    $($name: word(at::$word),)*
                }
            }

            #[inline(always)]
            pub fn store(&self, image: &mut HartImage) {
                let mut put = |at: usize, v: u64| image[at] = v.to_le_bytes();
                for (at, x) in self.x.into_iter().enumerate() {
                    put(at, x);
                }
                $(put(at::$word, self.$name);)*
            }
        }
    };
}
hart_words!(parsed);

impl Hart {
    #[inline(always)]
    pub fn fresh(caps: &Caps, pc: u64) -> Hart {
        Hart {
            pc,
            mode: mode::M,
            mstatus: caps.legalize_mstatus(0),
            mideleg: if caps.s() { interrupts::SUPERVISOR } else { 0 },
            ..Hart::default()
        }
    }

    /// Shows each condition, the lowest word's first: the word's place, what the condition makes of
    /// it, and the word. It is met where these two are the same.
    #[inline(always)]
    fn all(
        &mut self,
        caps: &Caps,
        s: bool,
        mut is_met: impl FnMut(usize, u64, &mut u64) -> bool,
    ) -> bool {
        let with_s = |v| if s { v } else { 0 };
        let with_sstc = |v| if caps.sstc() { v } else { 0 };
        is_met(at::X0, 0, &mut self.x[0])
            && is_met(at::PC, caps.aligned(self.pc), &mut self.pc)
            && is_met(
                at::MODE,
                if caps.is_mode(self.mode) {
                    self.mode
                } else {
                    mode::M
                },
                &mut self.mode,
            )
            && is_met(at::WAITING, self.waiting & 1, &mut self.waiting)
            && is_met(
                at::MSTATUS,
                caps.legalize_mstatus(self.mstatus),
                &mut self.mstatus,
            )
            && is_met(
                at::MIE,
                rules::legalize_mie(caps.interrupts, self.mie),
                &mut self.mie,
            )
            && is_met(at::MIP, self.mip & caps.interrupts, &mut self.mip)
            && is_met(
                at::MIDELEG,
                with_s(rules::legalize_mideleg(caps.interrupts, self.mideleg)),
                &mut self.mideleg,
            )
            && is_met(
                at::MEDELEG,
                with_s(self.medeleg & rules::MEDELEG),
                &mut self.medeleg,
            )
            && is_met(
                at::MTVEC,
                self.mtvec & !rules::TVEC_RESERVED,
                &mut self.mtvec,
            )
            && is_met(
                at::MCOUNTEREN,
                self.mcounteren & rules::COUNTEREN,
                &mut self.mcounteren,
            )
            && is_met(
                at::MCOUNTINHIBIT,
                self.mcountinhibit & rules::COUNTINHIBIT,
                &mut self.mcountinhibit,
            )
            && is_met(
                at::MENVCFG,
                rules::legalize_menvcfg(caps.flags, self.menvcfg),
                &mut self.menvcfg,
            )
            && is_met(at::MEPC, caps.aligned(self.mepc), &mut self.mepc)
            && is_met(
                at::STVEC,
                with_s(self.stvec & !rules::TVEC_RESERVED),
                &mut self.stvec,
            )
            && is_met(
                at::SCOUNTEREN,
                with_s(self.scounteren & rules::COUNTEREN),
                &mut self.scounteren,
            )
            && is_met(
                at::SENVCFG,
                with_s(rules::legalize_senvcfg(caps.flags, self.senvcfg)),
                &mut self.senvcfg,
            )
            && is_met(at::SSCRATCH, with_s(self.sscratch), &mut self.sscratch)
            && is_met(at::SEPC, with_s(caps.aligned(self.sepc)), &mut self.sepc)
            && is_met(at::SCAUSE, with_s(self.scause), &mut self.scause)
            && is_met(at::STVAL, with_s(self.stval), &mut self.stval)
            && is_met(
                at::SATP,
                with_s(self.satp & !rules::SATP_RESERVED),
                &mut self.satp,
            )
            && is_met(
                at::STIMECMP,
                with_s(with_sstc(self.stimecmp)),
                &mut self.stimecmp,
            )
    }

    /// Refuses a record that isn't legal.
    #[inline(always)]
    pub fn check(&mut self, caps: &Caps) -> Result<(), Refusal> {
        let is_legal = if caps.s() {
            self.all(caps, true, |_, legal, word| legal == *word)
        } else {
            self.all(caps, false, |_, legal, word| legal == *word)
        };
        is_legal.then_some(()).ok_or(Refusal::BadHart)
    }

    /// The lowest word that isn't legal under legal capabilities, and what it holds.
    pub fn illegal_word(&mut self, caps: &Caps) -> Option<(usize, u64)> {
        let mut found = None;
        self.all(caps, caps.s(), |at, legal, word| {
            if legal != *word {
                found = Some((at, *word));
            }
            found.is_none()
        });
        found
    }

    #[inline(always)]
    pub fn set_x(&mut self, rd: usize, v: u64) {
        if rd != 0 {
            self.x[rd] = v;
        }
    }
}

/// The words with those made legal that aren't, under legal capabilities.
pub fn legal_hart(caps: &CapsWords, words: &HartWords) -> HartWords {
    let mut image = words.map(u64::to_le_bytes);
    let mut hart = Hart::parse(&image);
    let caps = Caps::of(caps);
    hart.all(&caps, caps.s(), |_, legal, word| {
        *word = legal;
        true
    });
    hart.store(&mut image);
    image.map(u64::from_le_bytes)
}
