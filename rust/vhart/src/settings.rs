//! The settings file of a board: its capability image, behind a mark and a version.

use core::fmt;

use crate::answer::Refusal;
use crate::fault::Fault;
use crate::image::{Caps, CapsWords, CAPS_BYTES};
use crate::slices;

/// The bytes of a settings file of version 1.
pub const SETTINGS_BYTES: usize = 78;

/// A board's settings file that was accepted, or made of legal capabilities.
///
/// It says what the board's hart has, so that one monitor serves many boards. docs/RULES.md, "The
/// settings file", has its bytes.
///
/// ```
/// use vhart::{mip, misa, Caps, CapsWords, Flags, Hart, Refusal, Settings};
///
/// // Once for a board: make its file.
/// let caps = Caps::from(CapsWords {
///     misa: misa::RV64 | misa::A | misa::C | misa::I | misa::M | misa::S | misa::U,
///     interrupts: mip::SSIP | mip::MSIP | mip::STIP | mip::MTIP | mip::SEIP | mip::MEIP,
///     highest: u64::MAX, // mepc and sepc take any address
///     flags: Flags::SSTC,
///     ..CapsWords::default()
/// });
/// let made = Settings::of(&caps)?;
/// let file: &[u8] = made.file();
/// assert_eq!(file.len(), vhart::SETTINGS_BYTES);
///
/// // At each boot: read it, and make the hart's record under its capabilities.
/// let settings = Settings::read(file)?;
/// assert_eq!(settings, made);
/// let hart = Hart::fresh(settings.caps(), 0x8000_0000)?;
/// # assert_eq!(hart.check(&caps), Ok(()));
/// # Ok::<(), Refusal>(())
/// ```
#[derive(Clone, PartialEq, Eq, Hash)]
pub struct Settings {
    caps: Caps,
    file: [u8; SETTINGS_BYTES],
}

impl Settings {
    /// Reads a settings file, which may stand at any address.
    ///
    /// ```
    /// # use vhart::{misa, Caps, CapsWords, Refusal, Settings};
    /// # let mut words = CapsWords::default();
    /// # (words.misa, words.interrupts) = (misa::RV64 | misa::I | misa::U, 0x888);
    /// # let good = *Settings::of(&Caps::from(words))?.file();
    /// let read = |change: fn(&mut Vec<u8>)| {
    ///     let mut file = good.to_vec();
    ///     change(&mut file);
    ///     Settings::read(&file).map(|settings| settings.caps().words().misa)
    /// };
    /// assert_eq!(read(|_| {}), Ok(misa::RV64 | misa::I | misa::U));
    /// assert_eq!(read(|file| file.truncate(5)), Err(Refusal::BadLength));
    /// assert_eq!(read(|file| file[0] = b'v'), Err(Refusal::BadMark));
    /// assert_eq!(read(|file| file[5] = 1), Err(Refusal::BadMark));
    /// assert_eq!(read(|file| file[3] = 2), Err(Refusal::UnknownVersion));
    /// assert_eq!(read(|file| file.push(0)), Err(Refusal::BadLength));
    /// assert_eq!(read(|file| file[6..14].fill(0)), Err(Refusal::BadCaps)); // misa is 0
    /// # Ok::<(), Refusal>(())
    /// ```
    ///
    /// # Errors
    ///
    /// The first of these that applies, which isn't always the lowest number:
    /// [`BadLength`](Refusal::BadLength) for fewer than 6 bytes; [`BadMark`](Refusal::BadMark);
    /// [`UnknownVersion`](Refusal::UnknownVersion); [`BadLength`](Refusal::BadLength) for another
    /// length than [`SETTINGS_BYTES`]; [`BadCaps`](Refusal::BadCaps) for an image that isn't legal,
    /// and then [`Settings::fault`] says which word of it.
    pub fn read(file: &[u8]) -> Result<Settings, Refusal> {
        let words = slices::settings_read(file)?;
        // What is accepted has this length, unless the library is newer.
        let file = file.try_into().map_err(|_| Refusal::BadLength)?;
        Ok(Settings {
            caps: Caps::from(CapsWords::from(words)),
            file,
        })
    }

    /// The settings file of these capabilities.
    ///
    /// ```
    /// use vhart::{misa, Caps, CapsWords, Refusal, Settings};
    ///
    /// let misa = misa::RV64 | misa::A | misa::C | misa::I | misa::M | misa::U;
    /// let mut words = CapsWords { misa, interrupts: 0x888, ..CapsWords::default() };
    /// let settings = Settings::of(&Caps::from(words))?;
    /// assert_eq!(settings.file()[..6], *b"VHR\x01\0\0");
    /// assert_eq!(settings.file()[6..], settings.caps().as_bytes()[..]);
    ///
    /// words.interrupts = 0xAAA; // with the interrupts of S, which this hart lacks
    /// assert_eq!(Settings::of(&Caps::from(words)), Err(Refusal::BadCaps));
    /// # Ok::<(), Refusal>(())
    /// ```
    ///
    /// # Errors
    ///
    /// [`BadCaps`](Refusal::BadCaps), and then [`Caps::check`] says which word is at fault.
    pub fn of(caps: &Caps) -> Result<Settings, Refusal> {
        let mut file = [0; SETTINGS_BYTES];
        slices::settings_write(caps.as_bytes(), &mut file)?;
        Ok(Settings {
            caps: caps.clone(),
            file,
        })
    }

    /// Which word of a file's image isn't legal, where that is why the file is refused; `None` for
    /// every other file.
    ///
    /// ```
    /// # use vhart::{misa, Caps, CapsWord, CapsWords, FaultWord, Refusal, Settings};
    /// # let mut words = CapsWords::default();
    /// # (words.misa, words.interrupts) = (misa::RV64 | misa::I | misa::U, 0x888);
    /// # let good = *Settings::of(&Caps::from(words))?.file();
    /// let mut file = good;
    /// file[6 + 8 * CapsWord::Mvendorid as usize + 4] = 1;
    /// assert_eq!(Settings::read(&file), Err(Refusal::BadCaps));
    ///
    /// let fault = Settings::fault(&file).expect("BadCaps");
    /// assert_eq!(fault.word, FaultWord::Caps(CapsWord::Mvendorid));
    /// assert_eq!(
    ///     fault.to_string(),
    ///     "refusal 1: capability word mvendorid (word 5) holds 0x100000000, \
    ///      but must be below 2^32"
    /// );
    /// assert_eq!(Settings::fault(&good), None);
    /// assert_eq!(Settings::fault(&good[1..]), None); // refused too, but not for a word
    /// # Ok::<(), Refusal>(())
    /// ```
    #[must_use]
    pub fn fault(file: &[u8]) -> Option<Fault> {
        match slices::settings_read(file) {
            Err(Refusal::BadCaps) => {
                // The image is the file's end, copied since the file may stand anywhere.
                let image = file.get(SETTINGS_BYTES - CAPS_BYTES..)?;
                Caps::try_from(image).ok()?.check().err()
            }
            _ => None,
        }
    }

    /// What the board's hart has: legal capabilities, for [`Hart::fresh`](crate::Hart::fresh) and
    /// all other calls.
    #[must_use]
    pub const fn caps(&self) -> &Caps {
        &self.caps
    }

    /// The file's bytes, to be stored as they are.
    #[must_use]
    pub const fn file(&self) -> &[u8; SETTINGS_BYTES] {
        &self.file
    }
}

/// As [`Settings::read`].
impl TryFrom<&[u8]> for Settings {
    type Error = Refusal;

    fn try_from(file: &[u8]) -> Result<Settings, Refusal> {
        Settings::read(file)
    }
}

// The capabilities alone, since the file is made of them.
impl fmt::Debug for Settings {
    fn fmt(&self, f: &mut fmt::Formatter<'_>) -> fmt::Result {
        f.debug_tuple("Settings").field(&self.caps).finish()
    }
}
