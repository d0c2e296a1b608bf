//! The capabilities, parsed from their image, and when they are legal.
use crate::image::{caps as at, caps_words, CapsImage, CapsWords};
use crate::rules::{self, flags, interrupts, misa};

macro_rules! parsed {
    ($($word:ident $name:ident $at:literal,)*) => {
        #[derive(Clone)]
        pub struct Caps {
            $(pub $name: u64,)*
        }

        impl Caps {
            #[inline(always)]
            pub fn parse(image: &CapsImage) -> Caps {
                Caps {
                    $($name: u64::from_le_bytes(image[at::$word]),)*
                }
            }

            pub fn words(&self) -> CapsWords {
                [$(self.$name),*]
            }
        }
    };
}
caps_words!(parsed);

impl Caps {
    pub fn of(words: &CapsWords) -> Caps {
        Caps::parse(&words.map(u64::to_le_bytes))
    }

    #[inline(always)]
    pub fn c(&self) -> bool {
        self.misa & misa::C != 0
    }

    #[inline(always)]
    pub fn f(&self) -> bool {
        self.misa & misa::F != 0
    }

    #[inline(always)]
    pub fn s(&self) -> bool {
        self.misa & misa::S != 0
    }

    #[inline(always)]
    pub fn v(&self) -> bool {
        self.misa & misa::V != 0
    }

    #[inline(always)]
    pub fn zfinx(&self) -> bool {
        self.flags & flags::ZFINX != 0
    }

    #[inline(always)]
    pub fn sstc(&self) -> bool {
        self.flags & flags::SSTC != 0
    }

    /// The next address below that an instruction can have.
    #[inline(always)]
    pub fn aligned(&self, address: u64) -> u64 {
        address & !rules::alignment(self.c())
    }

    #[inline(always)]
    pub fn is_aligned(&self, address: u64) -> bool {
        self.aligned(address) == address
    }

    #[inline(always)]
    pub fn has_interrupts(&self, set: u64) -> bool {
        set & !self.interrupts == 0
    }

    /// Whether mstatus has FS.
    #[inline(always)]
    fn fs(&self) -> bool {
        (self.s() || self.f()) && !self.zfinx()
    }

    /// Whether it has VS.
    #[inline(always)]
    fn vs(&self) -> bool {
        self.s() || self.v()
    }

    #[inline(always)]
    pub fn legalize_mstatus(&self, v: u64) -> u64 {
        rules::legalize_mstatus(self.s(), self.fs(), self.vs(), v)
    }

    #[inline(always)]
    pub fn is_mode(&self, mode: u64) -> bool {
        rules::is_mode(self.s(), mode)
    }

    /// Shows each condition, the lowest word's first: the word's place, what the condition makes of
    /// it, and the word. It is met where these two are the same.
    #[inline(always)]
    fn all(&mut self, mut is_met: impl FnMut(usize, u64, &mut u64) -> bool) -> bool {
        let letters = misa::MXL | misa::H | misa::N;
        let misa = (self.misa & !letters) | misa::MXL_64 | misa::U;
        is_met(at::MISA, misa, &mut self.misa)
            && is_met(
                at::INTERRUPTS,
                self.interrupts & interrupts::ALL,
                &mut self.interrupts,
            )
            && is_met(
                at::INTERRUPTS,
                if self.s() {
                    self.interrupts | interrupts::SUPERVISOR
                } else {
                    self.interrupts & !(interrupts::SUPERVISOR | interrupts::LCOFI)
                },
                &mut self.interrupts,
            )
            && is_met(at::FLAGS, self.flags & flags::ALL, &mut self.flags)
            && is_met(
                at::FLAGS,
                if self.f() {
                    self.flags & !flags::ZFINX
                } else {
                    self.flags
                },
                &mut self.flags,
            )
            && is_met(
                at::FLAGS,
                if self.s() {
                    self.flags
                } else {
                    self.flags & !flags::WITH_S
                },
                &mut self.flags,
            )
            && is_met(
                at::MVENDORID,
                self.mvendorid & 0xFFFF_FFFF,
                &mut self.mvendorid,
            )
    }

    #[inline(always)]
    pub fn is_legal(&mut self) -> bool {
        self.all(|_, legal, word| legal == *word)
    }

    /// With those words made legal that aren't.
    pub fn made_legal(mut self) -> Caps {
        self.all(|_, legal, word| {
            *word = legal;
            true
        });
        self
    }

    /// The lowest word that isn't legal, and what it holds.
    pub fn illegal_word(&mut self) -> Option<(usize, u64)> {
        let mut found = None;
        self.all(|at, legal, word| {
            if legal != *word {
                found = Some((at, *word));
            }
            found.is_none()
        });
        found
    }
}

/// The words with those made legal that aren't.
pub fn legal_caps(words: &CapsWords) -> CapsWords {
    Caps::of(words).made_legal().words()
}
