//! Where the library and the original differ on a call, and which of it docs/DIFFERENCES.md lists.
use std::fmt::{self, Display, Formatter};

use original::machine::Stopped;
use peers::csr;
use peers::image::{caps, hart, HartWords};
use peers::interface::Entry;
use peers::rules::{self, envcfg, interrupts, misa, mstatus};

use crate::call::{word_name, Call, Made};

/// A listed difference: bits of a word that the two leave otherwise.
pub struct Listed {
    word: usize,
    bits: u64,
    way: Way,
}

/// How the two differ.
enum Way {
    /// In a written word the original has the bits, and the library doesn't.
    OriginalHas,
    /// The other way round.
    LibraryHas,
    /// In a fresh record on a hart with S, or on one without, the original has the bits.
    Fresh { with_s: bool },
    /// On a hart with none of these letters the original stores a field of mstatus that tells of a
    /// unit, and the library has 0 there. SD differs with it, where the field alone is dirty.
    Unit { without: u64 },
}

pub const LISTED: [Listed; 9] = [
    listed(hart::MSTATUS, mstatus::FS | mstatus::SD, unit(misa::F)),
    listed(hart::MSTATUS, mstatus::VS | mstatus::SD, unit(misa::V)),
    listed(hart::MIDELEG, interrupts::LCOFI, Way::OriginalHas),
    listed(hart::MEDELEG, 1 << 18, Way::OriginalHas),
    listed(hart::MEDELEG, 1 << 19, Way::OriginalHas),
    listed(hart::MENVCFG, envcfg::PBMTE, Way::LibraryHas),
    listed(
        hart::MIDELEG,
        interrupts::LCOFI,
        Way::Fresh { with_s: true },
    ),
    listed(
        hart::MIDELEG,
        interrupts::SUPERVISOR | interrupts::LCOFI,
        Way::Fresh { with_s: false },
    ),
    listed(hart::MSTATUS, mstatus::SXL_64, Way::Fresh { with_s: false }),
];

const fn listed(word: usize, bits: u64, way: Way) -> Listed {
    Listed { word, bits, way }
}

const fn unit(letter: u64) -> Way {
    let without = misa::S | letter;
    Way::Unit { without }
}

impl Listed {
    /// Whether it can show in the call: in one that makes a fresh record, or in one that is about
    /// the word's CSR.
    fn concerns(&self, call: &Call) -> bool {
        let has = |letters| call.caps[caps::MISA] & letters != 0;
        let names_it = call.csr().and_then(csr::name) == hart::name(self.word);
        match self.way {
            Way::OriginalHas | Way::LibraryHas => names_it,
            Way::Fresh { with_s } => call.entry == Entry::Fresh && has(misa::S) == with_s,
            Way::Unit { without } => names_it && !has(without),
        }
    }

    /// Those of its bits that differ as it says: all of them or none, but of a unit's field those
    /// that the original has.
    fn bits_of(&self, call: &Call, word: usize, library: u64, original: u64) -> u64 {
        if word != self.word || !self.concerns(call) {
            return 0;
        }
        let (has, lacks) = match self.way {
            Way::LibraryHas => (library, original),
            _ => (original, library),
        };
        let bits = match self.way {
            Way::Unit { .. } => unit_bits(self.field(), library, original),
            _ => self.bits,
        };
        match has & !lacks & bits == bits {
            true => bits,
            false => 0,
        }
    }

    /// Whether the library keeps a unit's field in this word, which the hart doesn't have.
    fn is_kept(&self, call: &Call, word: usize, library: u64) -> bool {
        let is_unit = matches!(self.way, Way::Unit { .. });
        is_unit && word == self.word && self.concerns(call) && library & self.field() != 0
    }

    /// The field of a unit: its bits but for SD.
    fn field(&self) -> u64 {
        self.bits & !mstatus::SD
    }

    /// The word, and in which record, if that isn't the one that a call writes to.
    fn place(&self) -> String {
        let record = match self.way {
            Way::OriginalHas | Way::LibraryHas | Way::Unit { .. } => "",
            Way::Fresh { with_s: true } => ", fresh with S",
            Way::Fresh { with_s: false } => ", fresh without S",
        };
        word_name(self.word) + record
    }

    /// Its name, as a text goes on with it.
    pub fn name(&self) -> String {
        format!("bits {:#x} of {}", self.bits, self.place())
    }
}

/// What the original has in a unit's field; and SD, if the field is dirty and none of the library's
/// is.
fn unit_bits(field: u64, library: u64, original: u64) -> u64 {
    let stored = original & field;
    let is_dirty = stored == field && rules::sd(library) == 0;
    stored | if is_dirty { mstatus::SD } else { 0 }
}

/// Of each word the bits that differ as it is listed.
pub fn listed_bits(call: &Call, library: &HartWords, original: &HartWords) -> HartWords {
    std::array::from_fn(|word| {
        let bits = LISTED
            .iter()
            .map(|listed| listed.bits_of(call, word, library[word], original[word]));
        bits.fold(0, |all, bits| all | bits)
    })
}

/// The row that docs/DIFFERENCES.md has of it begins so.
impl Display for Listed {
    fn fmt(&self, f: &mut Formatter) -> fmt::Result {
        write!(f, "| {} | {:#x} |", self.place(), self.bits)
    }
}

/// What differs in kind.
#[derive(Clone, Copy, PartialEq, Eq, PartialOrd, Ord)]
pub enum Kind {
    /// The listed difference of this number.
    Listed(usize),
    /// The original panics.
    Stops(&'static str),
    Refusal(&'static str),
    Answer(&'static str),
    Effect(&'static str),
    /// Bits of a word that aren't listed.
    Word(&'static str, usize),
    /// A field that the hart doesn't have is in the word, whatever the original does.
    Kept(&'static str, usize),
}

impl Kind {
    pub fn is_listed(self) -> bool {
        matches!(self, Kind::Listed(_))
    }
}

impl Display for Kind {
    fn fmt(&self, f: &mut Formatter) -> fmt::Result {
        match *self {
            Kind::Listed(number) => write!(f, "listed: {}", LISTED[number]),
            Kind::Stops(entry) => write!(f, "not listed: {entry}: the original stops,"),
            Kind::Refusal(entry) => write!(f, "not listed: {entry}: the library refuses it,"),
            Kind::Answer(entry) => write!(f, "not listed: {entry}: the answer differs,"),
            Kind::Effect(entry) => write!(f, "not listed: {entry}: the effect differs,"),
            Kind::Word(entry, word) => {
                write!(f, "not listed: {entry}: {} differs,", word_name(word))
            }
            Kind::Kept(entry, word) => {
                let word = word_name(word);
                write!(
                    f,
                    "not listed: {entry}: {word} keeps a field that isn't there,"
                )
            }
        }
    }
}

/// The kinds in which the two differ on a call.
pub fn kinds(call: &Call, library: &Made, original: &Result<Made, Stopped>) -> Vec<Kind> {
    let entry = call.entry.name();
    let mut kinds = Vec::new();
    let Ok(original) = original else {
        return vec![Kind::Stops(entry)];
    };
    for (kind, ours, theirs) in [
        (
            Kind::Refusal(entry),
            library.outcome.refusal,
            original.outcome.refusal,
        ),
        (
            Kind::Answer(entry),
            library.outcome.answer,
            original.outcome.answer,
        ),
        (
            Kind::Effect(entry),
            library.outcome.effect,
            original.outcome.effect,
        ),
    ] {
        if ours != theirs {
            kinds.push(kind);
        }
    }
    for (word, (&ours, &theirs)) in library.hart.iter().zip(&original.hart).enumerate() {
        if LISTED.iter().any(|listed| listed.is_kept(call, word, ours)) {
            kinds.push(Kind::Kept(entry, word));
        }
        let mut rest = ours ^ theirs;
        if rest == 0 {
            continue;
        }
        for (number, listed) in LISTED.iter().enumerate() {
            let bits = listed.bits_of(call, word, ours, theirs);
            if bits != 0 {
                kinds.push(Kind::Listed(number));
                rest &= !bits;
            }
        }
        if rest != 0 {
            kinds.push(Kind::Word(entry, word));
        }
    }
    kinds
}
