//! One call: of which entry, with which arguments, on which capabilities and record; and what is
//! made of it.
use std::fmt::{self, Display, Formatter};

use library::LIBRARY;
use original::machine::{Machine, Stopped};
use peers::csr;
use peers::image::{caps, hart, CapsWords, HartWords, CAPS_WORDS, HART_WORDS};
use peers::inputs::{self, Input, Rng};
use peers::interface::{self, Args, Entry, Interface, WHOLE};
use peers::outcome::{done, effect, Outcome};
use peers::rules::{interrupts, misa};

#[derive(Clone, Copy)]
pub struct Call {
    pub caps: CapsWords,
    pub hart: HartWords,
    pub entry: Entry,
    pub args: Args,
}

/// What a call gives, and the record that it leaves.
#[derive(Clone, Copy)]
pub struct Made {
    pub outcome: Outcome,
    pub hart: HartWords,
}

impl Call {
    /// On a record that is fresh at 0x80000000, of a hart with C, these letters and flags, and
    /// every interrupt but LCOFI.
    pub fn on_fresh(letters: u64, flags: u64, entry: Entry, args: Args) -> Call {
        let mut caps: CapsWords = [0; CAPS_WORDS];
        caps[caps::MISA] = misa::MXL_64 | misa::U | misa::C | letters;
        caps[caps::INTERRUPTS] = match letters & misa::S {
            0 => interrupts::MACHINE,
            _ => interrupts::MACHINE | interrupts::SUPERVISOR,
        };
        (caps[caps::HIGHEST], caps[caps::FLAGS]) = (!0, flags);
        let mut call = Call {
            caps,
            hart: [0; HART_WORDS],
            entry: Entry::Fresh,
            args: interface::args([0x8000_0000]),
        };
        call.hart = call.by(&LIBRARY).hart;
        (call.entry, call.args) = (entry, args);
        call
    }

    /// Draws arguments that its entry may accept, with the line down: the original shows none.
    pub fn draw_args(&mut self, rng: &mut Rng) {
        self.args = inputs::good_args(rng, self.entry, &self.caps, &self.hart);
        for (arg, name) in self.args.iter_mut().zip(self.entry.numbers()) {
            if *name == "line" {
                *arg = 0;
            }
        }
    }

    /// What an implementation of the C interface makes of it.
    pub fn by(&self, interface: &Interface) -> Made {
        let mut input = Input::new(&self.caps, &self.hart, self.args);
        let outcome = input.call(interface.function(self.entry));
        Made {
            outcome,
            hart: input.hart_words(),
        }
    }

    /// Whether it is to be compared: the original has no refusals, so the contract written by hand
    /// is asked.
    pub fn is_accepted(&self) -> bool {
        self.by(&WHOLE).outcome.refusal == 0
    }

    /// What the original makes of it, whose record holds the call's words already and holds what it
    /// leaves afterwards.
    pub fn by_original(&self, machine: &mut Machine) -> Result<Made, Stopped> {
        let outcome = if self.entry == Entry::Fresh {
            *machine = Machine::fresh(&self.caps, self.args[0]);
            done(0, effect::NONE)
        } else {
            machine.call(self.entry, &self.args)?
        };
        Ok(Made {
            outcome,
            hart: machine.words(),
        })
    }

    /// The original with the call's record.
    pub fn machine(&self) -> Machine {
        Machine::load(&self.caps, &self.hart)
    }

    /// How many bits are set in it.
    pub fn bits(&self) -> u32 {
        let words = self.caps.iter().chain(&self.hart).chain(&self.args);
        words.map(|word| word.count_ones()).sum()
    }

    /// The CSR that it is about, if it is about one.
    pub fn csr(&self) -> Option<u64> {
        self.entry.takes_csr().then_some(self.args[0])
    }
}

/// The call, then the words that aren't 0.
impl Display for Call {
    fn fmt(&self, f: &mut Formatter) -> fmt::Result {
        write!(f, "{}", self.entry.name())?;
        for (n, arg) in self.args[..self.entry.arity()].iter().enumerate() {
            match csr::name(*arg) {
                Some(name) if n == 0 && self.entry.takes_csr() => write!(f, " {name}")?,
                _ => write!(f, " {arg:#x}")?,
            }
        }
        write!(f, "; capabilities")?;
        let is_set = |(_, value): &(usize, &u64)| **value != 0;
        for (word, value) in self.caps.iter().enumerate().filter(is_set) {
            write!(f, " {}={value:#x}", caps::name(word).unwrap_or("?"))?;
        }
        write!(f, "; record")?;
        for (word, value) in self.hart.iter().enumerate().filter(is_set) {
            write!(f, " {}={value:#x}", word_name(word))?;
        }
        Ok(())
    }
}

/// The name of a word of the record.
pub fn word_name(word: usize) -> String {
    hart::name(word).map_or_else(|| format!("x{word}"), String::from)
}
