//! The two images as types of their own: what the hart has, and the hart's record, each word by its
//! name.

use core::error::Error;
use core::fmt;

use crate::ffi;
use crate::numbers::{Flags, Mode, X};

/// The bytes of a capability image.
pub const CAPS_BYTES: usize = 72;

/// The bytes of a hart image.
pub const HART_BYTES: usize = 480;

/// What the hart has, by name. A [`Caps`] is made of it.
#[derive(Clone, Copy, Default, PartialEq, Eq, Hash)]
pub struct CapsWords {
    /// misa: MXL 2, with U, without H and N. [`misa`](crate::misa) has its bits.
    pub misa: u64,
    /// Bit n is set where the hart has interrupt n: within 0x2AAA; all of 0x222 with S, none of
    /// 0x2222 without. [`mip`](crate::mip) has its bits.
    pub interrupts: u64,
    /// The highest valid address: a write of a value above it to mepc or sepc is ignored.
    pub highest: u64,
    /// The extensions that misa has no letter for.
    pub flags: Flags,
    /// mhartid.
    pub mhartid: u64,
    /// mvendorid, below 2^32.
    pub mvendorid: u64,
    /// marchid.
    pub marchid: u64,
    /// mimpid.
    pub mimpid: u64,
    /// mconfigptr.
    pub mconfigptr: u64,
}

impl CapsWords {
    fn get(&self, word: CapsWord) -> u64 {
        match word {
            CapsWord::Misa => self.misa,
            CapsWord::Interrupts => self.interrupts,
            CapsWord::Highest => self.highest,
            CapsWord::Flags => self.flags.bits(),
            CapsWord::Mhartid => self.mhartid,
            CapsWord::Mvendorid => self.mvendorid,
            CapsWord::Marchid => self.marchid,
            CapsWord::Mimpid => self.mimpid,
            CapsWord::Mconfigptr => self.mconfigptr,
        }
    }
}

/// The words in the image's order, as [`settings_read`](crate::slices::settings_read) gives them.
impl From<[u64; 9]> for CapsWords {
    fn from(words: [u64; 9]) -> CapsWords {
        let word = |word: CapsWord| words[word as usize];
        CapsWords {
            misa: word(CapsWord::Misa),
            interrupts: word(CapsWord::Interrupts),
            highest: word(CapsWord::Highest),
            flags: Flags::from_bits(word(CapsWord::Flags)),
            mhartid: word(CapsWord::Mhartid),
            mvendorid: word(CapsWord::Mvendorid),
            marchid: word(CapsWord::Marchid),
            mimpid: word(CapsWord::Mimpid),
            mconfigptr: word(CapsWord::Mconfigptr),
        }
    }
}

impl fmt::Debug for CapsWords {
    fn fmt(&self, f: &mut fmt::Formatter<'_>) -> fmt::Result {
        f.debug_struct("CapsWords")
            .field("misa", &format_args!("{:#x}", self.misa))
            .field("interrupts", &format_args!("{:#x}", self.interrupts))
            .field("highest", &format_args!("{:#x}", self.highest))
            .field("flags", &self.flags)
            .field("mhartid", &format_args!("{:#x}", self.mhartid))
            .field("mvendorid", &format_args!("{:#x}", self.mvendorid))
            .field("marchid", &format_args!("{:#x}", self.marchid))
            .field("mimpid", &format_args!("{:#x}", self.mimpid))
            .field("mconfigptr", &format_args!("{:#x}", self.mconfigptr))
            .finish()
    }
}

/// A word of the capability image. Its number is its place among the image's 9 words.
#[derive(Clone, Copy, Debug, PartialEq, Eq, Hash)]
#[repr(usize)]
pub enum CapsWord {
    /// misa.
    Misa,
    /// The interrupts that the hart has.
    Interrupts,
    /// The highest valid address.
    Highest,
    /// The bits of [`Flags`].
    Flags,
    /// mhartid.
    Mhartid,
    /// mvendorid.
    Mvendorid,
    /// marchid.
    Marchid,
    /// mimpid.
    Mimpid,
    /// mconfigptr.
    Mconfigptr,
}

impl CapsWord {
    /// All of them, in the image's order.
    pub const ALL: [CapsWord; 9] = [
        CapsWord::Misa,
        CapsWord::Interrupts,
        CapsWord::Highest,
        CapsWord::Flags,
        CapsWord::Mhartid,
        CapsWord::Mvendorid,
        CapsWord::Marchid,
        CapsWord::Mimpid,
        CapsWord::Mconfigptr,
    ];

    /// Its name, as docs/RULES.md has it.
    #[must_use]
    pub const fn name(self) -> &'static str {
        match self {
            CapsWord::Misa => "misa",
            CapsWord::Interrupts => "interrupts",
            CapsWord::Highest => "highest",
            CapsWord::Flags => "flags",
            CapsWord::Mhartid => "mhartid",
            CapsWord::Mvendorid => "mvendorid",
            CapsWord::Marchid => "marchid",
            CapsWord::Mimpid => "mimpid",
            CapsWord::Mconfigptr => "mconfigptr",
        }
    }
}

/// The capability image. Whether it is legal is tested by each call, not here.
#[derive(Clone, PartialEq, Eq, Hash)]
#[repr(C, align(8))]
pub struct Caps {
    bytes: [u8; CAPS_BYTES],
}

impl Caps {
    /// The image of these bytes.
    #[must_use]
    pub const fn from_bytes(bytes: [u8; CAPS_BYTES]) -> Caps {
        Caps { bytes }
    }

    /// These bytes as an image, where they lie. [`Caps::try_from`] copies them instead, and needs
    /// no alignment.
    ///
    /// # Errors
    ///
    /// They must be [`CAPS_BYTES`] long, and stand at a multiple of 8.
    pub fn view(bytes: &[u8]) -> Result<&Caps, BytesError> {
        ffi::view_caps(bytes)
    }

    /// Its bytes.
    #[must_use]
    pub const fn as_bytes(&self) -> &[u8; CAPS_BYTES] {
        &self.bytes
    }

    /// Its words by name.
    #[must_use]
    pub fn words(&self) -> CapsWords {
        CapsWords::from(CapsWord::ALL.map(|word| load(&self.bytes, word as usize)))
    }
}

impl From<CapsWords> for Caps {
    fn from(words: CapsWords) -> Caps {
        let mut bytes = [0; CAPS_BYTES];
        for word in CapsWord::ALL {
            store(&mut bytes, word as usize, words.get(word));
        }
        Caps { bytes }
    }
}

/// A copy of the bytes, which need no alignment.
impl TryFrom<&[u8]> for Caps {
    type Error = BytesError;

    fn try_from(bytes: &[u8]) -> Result<Caps, BytesError> {
        copy(bytes).map(Caps::from_bytes)
    }
}

impl fmt::Debug for Caps {
    fn fmt(&self, f: &mut fmt::Formatter<'_>) -> fmt::Result {
        self.words().fmt(f)
    }
}

/// A word of the hart image after x0 to x31. Its number is its place among the image's 60 words.
#[derive(Clone, Copy, Debug, PartialEq, Eq, Hash)]
#[non_exhaustive]
#[repr(usize)]
pub enum Word {
    /// pc.
    Pc = 32,
    /// The number of the privilege mode, a [`Mode`]'s.
    Mode,
    /// 1 while the hart waits in wfi, else 0: the host's to set and to clear.
    Waiting,
    /// mstatus.
    Mstatus,
    /// mie.
    Mie,
    /// mip. MSIP, MTIP and MEIP (bits 3, 7 and 11) are the host's to set and to clear.
    Mip,
    /// mideleg.
    Mideleg,
    /// medeleg.
    Medeleg,
    /// mtvec.
    Mtvec,
    /// mcounteren.
    Mcounteren,
    /// mcountinhibit.
    Mcountinhibit,
    /// menvcfg.
    Menvcfg,
    /// mscratch.
    Mscratch,
    /// mepc.
    Mepc,
    /// mcause.
    Mcause,
    /// mtval.
    Mtval,
    /// mcycle, which doesn't count by itself.
    Mcycle,
    /// minstret, which doesn't count by itself.
    Minstret,
    /// tselect as stored: a read gives the complement.
    Tselect,
    /// stvec.
    Stvec,
    /// scounteren.
    Scounteren,
    /// senvcfg.
    Senvcfg,
    /// sscratch.
    Sscratch,
    /// sepc.
    Sepc,
    /// scause.
    Scause,
    /// stval.
    Stval,
    /// satp.
    Satp,
    /// stimecmp.
    Stimecmp,
}

impl Word {
    /// All of them, in the image's order.
    pub const ALL: [Word; 28] = [
        Word::Pc,
        Word::Mode,
        Word::Waiting,
        Word::Mstatus,
        Word::Mie,
        Word::Mip,
        Word::Mideleg,
        Word::Medeleg,
        Word::Mtvec,
        Word::Mcounteren,
        Word::Mcountinhibit,
        Word::Menvcfg,
        Word::Mscratch,
        Word::Mepc,
        Word::Mcause,
        Word::Mtval,
        Word::Mcycle,
        Word::Minstret,
        Word::Tselect,
        Word::Stvec,
        Word::Scounteren,
        Word::Senvcfg,
        Word::Sscratch,
        Word::Sepc,
        Word::Scause,
        Word::Stval,
        Word::Satp,
        Word::Stimecmp,
    ];

    /// Its name, as docs/RULES.md has it.
    #[must_use]
    pub const fn name(self) -> &'static str {
        match self {
            Word::Pc => "pc",
            Word::Mode => "mode",
            Word::Waiting => "waiting",
            Word::Mstatus => "mstatus",
            Word::Mie => "mie",
            Word::Mip => "mip",
            Word::Mideleg => "mideleg",
            Word::Medeleg => "medeleg",
            Word::Mtvec => "mtvec",
            Word::Mcounteren => "mcounteren",
            Word::Mcountinhibit => "mcountinhibit",
            Word::Menvcfg => "menvcfg",
            Word::Mscratch => "mscratch",
            Word::Mepc => "mepc",
            Word::Mcause => "mcause",
            Word::Mtval => "mtval",
            Word::Mcycle => "mcycle",
            Word::Minstret => "minstret",
            Word::Tselect => "tselect",
            Word::Stvec => "stvec",
            Word::Scounteren => "scounteren",
            Word::Senvcfg => "senvcfg",
            Word::Sscratch => "sscratch",
            Word::Sepc => "sepc",
            Word::Scause => "scause",
            Word::Stval => "stval",
            Word::Satp => "satp",
            Word::Stimecmp => "stimecmp",
        }
    }
}

/// The hart image: the record of a hart. Whether it is legal is tested by each call, not here.
///
/// The calls are its methods. The host sets words itself where they are its own: pc, the general
/// registers, the waiting word, and the pending bits of the machine's own interrupts.
///
/// ```
/// # use vhart::{mip, misa, Caps, CapsWords, Hart, Refusal, Word};
/// # let mut words = CapsWords::default();
/// # (words.misa, words.interrupts) = (misa::RV64 | misa::I | misa::U, 0x888);
/// # let caps = Caps::from(words);
/// # let mut hart = Hart::fresh(&caps, 0x8000_0000)?;
/// hart.set(Word::Mip, hart.get(Word::Mip) | mip::MTIP); // the timer has fired
/// # Ok::<(), Refusal>(())
/// ```
///
/// A word that isn't legal under the capabilities is stored all the same, and refused by the next
/// call with [`Refusal::BadHart`](crate::Refusal::BadHart). [`Hart::check`] says which word it is.
/// So may a record be that an older version of the library stored: docs/GUIDE.md, "Records of an
/// older version", says what to do then.
///
/// A record that lies in memory of the host's own is used where it lies:
///
/// ```
/// use vhart::{BytesError, Hart, Word, HART_BYTES};
///
/// #[repr(align(8))]
/// struct Saved([u8; HART_BYTES]);
///
/// let mut saved = Saved([0; HART_BYTES]);
/// let hart: &mut Hart = Hart::view_mut(&mut saved.0)?;
/// hart.set(Word::Pc, 0x8000_0000);
/// assert_eq!(saved.0[8 * Word::Pc as usize + 3], 0x80);
/// # Ok::<(), BytesError>(())
/// ```
#[derive(Clone, PartialEq, Eq, Hash)]
#[repr(C, align(8))]
pub struct Hart {
    bytes: [u8; HART_BYTES],
}

impl Hart {
    /// The image of these bytes.
    #[must_use]
    pub const fn from_bytes(bytes: [u8; HART_BYTES]) -> Hart {
        Hart { bytes }
    }

    /// These bytes as a record, where they lie. [`Hart::try_from`] copies them instead, and needs
    /// no alignment.
    ///
    /// # Errors
    ///
    /// They must be [`HART_BYTES`] long, and stand at a multiple of 8.
    pub fn view(bytes: &[u8]) -> Result<&Hart, BytesError> {
        ffi::view_hart(bytes)
    }

    /// These bytes as a record that can be changed, where they lie.
    ///
    /// # Errors
    ///
    /// They must be [`HART_BYTES`] long, and stand at a multiple of 8.
    pub fn view_mut(bytes: &mut [u8]) -> Result<&mut Hart, BytesError> {
        ffi::view_hart_mut(bytes)
    }

    /// Its bytes.
    #[must_use]
    pub const fn as_bytes(&self) -> &[u8; HART_BYTES] {
        &self.bytes
    }

    pub(crate) fn as_mut_bytes(&mut self) -> &mut [u8; HART_BYTES] {
        &mut self.bytes
    }

    /// A word of the record.
    #[must_use]
    pub fn get(&self, word: Word) -> u64 {
        load(&self.bytes, word as usize)
    }

    /// Sets a word of the record, as it is: nothing is made legal.
    pub fn set(&mut self, word: Word, value: u64) {
        store(&mut self.bytes, word as usize, value);
    }

    /// A general register; 0 where there is none of this number.
    #[must_use]
    pub fn x(&self, register: X) -> u64 {
        place(register).map_or(0, |place| load(&self.bytes, place))
    }

    /// Sets a general register; x0 stays 0, and there is none above 31.
    pub fn set_x(&mut self, register: X, value: u64) {
        if let Some(place @ 1..) = place(register) {
            store(&mut self.bytes, place, value);
        }
    }

    /// The privilege mode; `None` where the word isn't a mode's number.
    #[must_use]
    pub fn mode(&self) -> Option<Mode> {
        Mode::from_number(self.get(Word::Mode))
    }

    /// Sets the privilege mode.
    pub fn set_mode(&mut self, mode: Mode) {
        self.set(Word::Mode, mode.number());
    }
}

/// A copy of the bytes, which need no alignment.
impl TryFrom<&[u8]> for Hart {
    type Error = BytesError;

    fn try_from(bytes: &[u8]) -> Result<Hart, BytesError> {
        copy(bytes).map(Hart::from_bytes)
    }
}

impl fmt::Debug for Hart {
    fn fmt(&self, f: &mut fmt::Formatter<'_>) -> fmt::Result {
        let mut words = f.debug_struct("Hart");
        for (name, n) in X_NAMES.iter().zip(0..) {
            words.field(name, &format_args!("{:#x}", self.x(X(n))));
        }
        for word in Word::ALL {
            words.field(word.name(), &format_args!("{:#x}", self.get(word)));
        }
        words.finish()
    }
}

const X_NAMES: [&str; 32] = [
    "x0", "x1", "x2", "x3", "x4", "x5", "x6", "x7", "x8", "x9", "x10", "x11", "x12", "x13", "x14",
    "x15", "x16", "x17", "x18", "x19", "x20", "x21", "x22", "x23", "x24", "x25", "x26", "x27",
    "x28", "x29", "x30", "x31",
];

/// Why bytes aren't an image.
#[derive(Clone, Copy, Debug, PartialEq, Eq, Hash)]
#[non_exhaustive]
pub enum BytesError {
    /// There are more or fewer bytes than the image has.
    Length {
        /// How many there are.
        is: usize,
        /// How many there must be.
        needed: usize,
    },
    /// They don't stand at a multiple of 8, which a view needs.
    Alignment,
}

impl fmt::Display for BytesError {
    fn fmt(&self, f: &mut fmt::Formatter<'_>) -> fmt::Result {
        match self {
            BytesError::Length { is, needed } => {
                write!(f, "{is} bytes were given, and the image has {needed}")
            }
            BytesError::Alignment => f.write_str("the bytes don't stand at a multiple of 8"),
        }
    }
}

impl Error for BytesError {}

fn copy<const N: usize>(bytes: &[u8]) -> Result<[u8; N], BytesError> {
    let wrong = BytesError::Length {
        is: bytes.len(),
        needed: N,
    };
    bytes.try_into().map_err(|_| wrong)
}

// Where a general register stands among the words, if there is one of this number.
fn place(register: X) -> Option<usize> {
    usize::try_from(register.0)
        .ok()
        .filter(|place| *place < X_NAMES.len())
}

// The little-endian word at this place.
pub(crate) fn load(bytes: &[u8], place: usize) -> u64 {
    let mut word = [0; 8];
    word.copy_from_slice(&bytes[8 * place..8 * place + 8]);
    u64::from_le_bytes(word)
}

pub(crate) fn store(bytes: &mut [u8], place: usize, value: u64) {
    bytes[8 * place..8 * place + 8].copy_from_slice(&value.to_le_bytes());
}
