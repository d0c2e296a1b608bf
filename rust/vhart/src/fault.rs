//! What is wrong with an image: which word is at fault, what it holds, and what it must be.

use core::error::Error;
use core::fmt;

use crate::answer::Refusal;
use crate::image::{CapsWord, Word, CAPS_BYTES, HART_BYTES};
use crate::numbers::X;

/// Which of the two images is meant.
#[derive(Clone, Copy, Debug, PartialEq, Eq, Hash)]
pub enum Image {
    /// The capability image.
    Caps,
    /// The hart image.
    Hart,
}

/// Why an image isn't legal, from [`Caps::check`](crate::Caps::check) and
/// [`Hart::check`](crate::Hart::check). Its text is a sentence for people.
///
/// ```
/// use vhart::{misa, Caps, CapsWord, CapsWords, FaultWord, Refusal};
///
/// // neither interrupts of S (0x222), nor U
/// let misa = misa::RV64 | misa::I | misa::S;
/// let caps = Caps::from(CapsWords { misa, interrupts: 0x888, ..CapsWords::default() });
/// let fault = caps.check().unwrap_err();
/// assert_eq!((fault.refusal, fault.word), (Refusal::BadCaps, FaultWord::Caps(CapsWord::Misa)));
/// assert_eq!(
///     fault.to_string(),
///     "refusal 1: capability word misa (word 0) holds 0x8000000000040100, \
///      but must have MXL (bits 63:62) 2 and U (bit 20), and neither H (7) nor N (13)"
/// );
/// ```
#[derive(Clone, Copy, PartialEq, Eq, Hash)]
pub struct Fault {
    /// What every call gives on this image; only `fresh` accepts a record at fault.
    pub refusal: Refusal,
    /// The image that isn't legal.
    pub image: Image,
    /// The lowest word at fault, or what else is.
    pub word: FaultWord,
    /// What the word holds; 0 where no word is at fault.
    pub value: u64,
}

/// What of an image is at fault.
#[derive(Clone, Copy, Debug, PartialEq, Eq, Hash)]
#[non_exhaustive]
pub enum FaultWord {
    /// A word of the capability image.
    Caps(CapsWord),
    /// A general register of the record.
    X(X),
    /// Another word of the record.
    Hart(Word),
    /// The image's length: it has this many bytes.
    Length(usize),
    /// Where the image stands: with the feature `aligned` it must be a multiple of 8.
    Alignment,
    /// A number that a newer library gives and this binding doesn't know.
    Other(u64),
}

impl Fault {
    /// What the library found in images of these lengths.
    pub(crate) fn from_found(found: entries::Fault, caps: usize, hart: usize) -> Result<(), Fault> {
        let refusal = match found.refusal {
            0 => return Ok(()),
            number => Refusal::from_number(number),
        };
        let (image, length) = match refusal {
            Refusal::BadCaps => (Image::Caps, caps),
            _ => (Image::Hart, hart),
        };
        let word = image.word(found.word, length);
        let value = found.value;
        Err(Fault {
            refusal,
            image,
            word,
            value,
        })
    }

    pub(crate) const fn not_aligned(image: Image) -> Fault {
        Fault {
            refusal: Refusal::NotAligned,
            image,
            word: FaultWord::Alignment,
            value: 0,
        }
    }
}

impl Image {
    const fn bytes(self) -> usize {
        match self {
            Image::Caps => CAPS_BYTES,
            Image::Hart => HART_BYTES,
        }
    }

    /// The word of this number; the number of words stands for the image's length.
    fn word(self, number: u64, length: usize) -> FaultWord {
        let word = match self {
            Image::Caps => CapsWord::ALL
                .into_iter()
                .find(|word| *word as u64 == number)
                .map(FaultWord::Caps),
            Image::Hart if number < 32 => Some(FaultWord::X(X(number))),
            Image::Hart => Word::ALL
                .into_iter()
                .find(|word| *word as u64 == number)
                .map(FaultWord::Hart),
        };
        word.unwrap_or(match number {
            _ if number == self.bytes() as u64 / 8 => FaultWord::Length(length),
            _ => FaultWord::Other(number),
        })
    }
}

impl fmt::Display for Image {
    fn fmt(&self, f: &mut fmt::Formatter<'_>) -> fmt::Result {
        f.write_str(match self {
            Image::Caps => "capability",
            Image::Hart => "hart",
        })
    }
}

impl fmt::Display for Fault {
    fn fmt(&self, f: &mut fmt::Formatter<'_>) -> fmt::Result {
        let (image, value) = (self.image, self.value);
        match self.refusal.number() {
            Some(number) => write!(f, "refusal {number}: ")?,
            None => f.write_str("refused by the binding: ")?,
        }
        match self.word {
            FaultWord::Length(length) => {
                write!(
                    f,
                    "the {image} image has {length} bytes, but must have {}",
                    image.bytes()
                )
            }
            FaultWord::Alignment => {
                write!(
                    f,
                    "the {image} image isn't at a multiple of 8, which the feature `aligned` needs"
                )
            }
            FaultWord::Caps(word) => {
                let (name, number) = (word.name(), word as usize);
                write!(
                    f,
                    "{image} word {name} (word {number}) holds {value:#x}, but must {}",
                    of_caps(word)
                )
            }
            FaultWord::X(x) => write!(
                f,
                "{image} word {x} (word {}) holds {value:#x}, but must be 0",
                x.0
            ),
            FaultWord::Hart(word) => {
                let (name, number) = (word.name(), word as usize);
                write!(
                    f,
                    "{image} word {name} (word {number}) holds {value:#x}, but must {}",
                    of_hart(word)
                )
            }
            FaultWord::Other(word) => {
                write!(
                    f,
                    "{image} word {word} holds {value:#x}; the library is newer than this binding"
                )
            }
        }
    }
}

/// What a word of the capability image must do to be legal. Those that may hold anything are never
/// at fault.
const fn of_caps(word: CapsWord) -> &'static str {
    match word {
        CapsWord::Misa => "have MXL (bits 63:62) 2 and U (bit 20), and neither H (7) nor N (13)",
        CapsWord::Interrupts => {
            "be within 0x2aaa, with S have all of 0x222, and without S none of 0x2222"
        }
        CapsWord::Flags => {
            "be below 32, have no Zfinx with F, and have Sstc and Svpbmt only with S"
        }
        CapsWord::Mvendorid => "be below 2^32",
        CapsWord::Highest
        | CapsWord::Mhartid
        | CapsWord::Marchid
        | CapsWord::Mimpid
        | CapsWord::Mconfigptr => ANYTHING,
    }
}

/// What a word of the record must do to be legal.
const fn of_hart(word: Word) -> &'static str {
    match word {
        Word::Pc | Word::Mepc => "be a multiple of 2 with C, of 4 without",
        Word::Mode => "be 0 (U), 3 (M), or with S 1 (S)",
        Word::Waiting => "be 0 or 1",
        Word::Mstatus => {
            "be what a write of it stores: only fields that this hart has (FS with F or S, but not \
             with Zfinx, and VS with V or S), MPP a mode that it has, UXL 2, SXL 2 with S and 0 \
             without, SD set exactly if FS or VS is 3"
        }
        Word::Mie => "be within `interrupts` and 0xaaa",
        Word::Mip => "be within `interrupts`",
        Word::Mideleg => {
            "with S be 0x222, or also 0x2222 if `interrupts` has bit 13, and without S be 0"
        }
        Word::Medeleg => "be within 0xb3ff, and 0 without S",
        Word::Mtvec => "have 0 or 1 as its mode (bits 1:0)",
        Word::Mcounteren => "be within 7",
        Word::Mcountinhibit => "be within 5",
        Word::Menvcfg => {
            "have only FIOM (bit 0), with Zicbom CBIE (5:4, not 2) and CBCFE (6), with Zicboz CBZE \
             (7), with Svpbmt PBMTE (62), with Sstc STCE (63)"
        }
        Word::Stvec => "have 0 or 1 as its mode (bits 1:0), and be 0 without S",
        Word::Scounteren => "be within 7, and 0 without S",
        Word::Senvcfg => {
            "have only FIOM (bit 0), with Zicbom CBIE (5:4, not 2) and CBCFE (6), with Zicboz CBZE \
             (7), and be 0 without S"
        }
        Word::Sepc => "be a multiple of 2 with C, of 4 without, and be 0 without S",
        Word::Satp => "have 0 or 8 as its mode (bits 63:60), and be 0 without S",
        Word::Sscratch | Word::Scause | Word::Stval => "be 0 without S",
        Word::Stimecmp => "be 0 without Sstc",
        Word::Mscratch
        | Word::Mcause
        | Word::Mtval
        | Word::Mcycle
        | Word::Minstret
        | Word::Tselect => ANYTHING,
    }
}

const ANYTHING: &str = "be whatever a newer library wants; this binding knows no condition";

impl fmt::Debug for Fault {
    fn fmt(&self, f: &mut fmt::Formatter<'_>) -> fmt::Result {
        f.debug_struct("Fault")
            .field("refusal", &self.refusal)
            .field("image", &self.image)
            .field("word", &self.word)
            .field("value", &format_args!("{:#x}", self.value))
            .finish()
    }
}

impl Error for Fault {}

/// What a call on the same images is refused with.
impl From<Fault> for Refusal {
    fn from(fault: Fault) -> Refusal {
        fault.refusal
    }
}
