//! The two byte images: their sizes, and where each little-endian word stands in them.
use core::array;

pub const CAPS_WORDS: usize = 9;
pub const CAPS_BYTES: usize = 8 * CAPS_WORDS;
pub const HART_WORDS: usize = 60;
pub const HART_BYTES: usize = 8 * HART_WORDS;

/// An image of the right length, word by word, at any alignment.
pub type CapsImage = [[u8; 8]; CAPS_WORDS];
pub type HartImage = [[u8; 8]; HART_WORDS];

pub type CapsWords = [u64; CAPS_WORDS];
pub type HartWords = [u64; HART_WORDS];

/// The image that these bytes are, if they are as many.
#[inline(always)]
pub fn caps_image(bytes: &[u8]) -> Option<&CapsImage> {
    // SAFETY: the length is the image's, whose bytes may be any and stand anywhere
    (bytes.len() == CAPS_BYTES).then(|| unsafe { &*bytes.as_ptr().cast() })
}

#[inline(always)]
pub fn hart_image(bytes: &[u8]) -> Option<&HartImage> {
    // SAFETY: as above
    (bytes.len() == HART_BYTES).then(|| unsafe { &*bytes.as_ptr().cast() })
}

#[inline(always)]
pub fn hart_image_mut(bytes: &mut [u8]) -> Option<&mut HartImage> {
    // SAFETY: as above
    (bytes.len() == HART_BYTES).then(|| unsafe { &mut *bytes.as_mut_ptr().cast() })
}

/// The first words of an image.
pub fn words<const N: usize>(image: &[u8]) -> [u64; N] {
    array::from_fn(|word| u64::from_le_bytes(array::from_fn(|byte| image[8 * word + byte])))
}

/// Puts these words where the first of an image's stand.
pub fn store(image: &mut [u8], words: &[u64]) {
    for (bytes, word) in image.chunks_exact_mut(8).zip(words) {
        bytes.copy_from_slice(&word.to_le_bytes());
    }
}

/// The places of the words that a call left changed.
pub fn changed<'a>(
    before: &'a HartWords,
    after: &'a HartWords,
) -> impl Iterator<Item = usize> + 'a {
    (0..HART_WORDS).filter(|&word| before[word] != after[word])
}

/// Hands the words of the capability image to a macro: each with its name and its place.
macro_rules! caps_words {
    ($then:ident) => {
        $then! {
            MISA misa 0,
            INTERRUPTS interrupts 1,
            HIGHEST highest 2,
            FLAGS flags 3,
            MHARTID mhartid 4,
            MVENDORID mvendorid 5,
            MARCHID marchid 6,
            MIMPID mimpid 7,
            MCONFIGPTR mconfigptr 8,
        }
    };
}
pub(crate) use caps_words;

/// Hands the words of the hart image to a macro, but for the general registers, which stand before
/// them.
macro_rules! hart_words {
    ($then:ident) => {
        $then! {
            PC pc 32,
            MODE mode 33,
            WAITING waiting 34,
            MSTATUS mstatus 35,
            MIE mie 36,
            MIP mip 37,
            MIDELEG mideleg 38,
            MEDELEG medeleg 39,
            MTVEC mtvec 40,
            MCOUNTEREN mcounteren 41,
            MCOUNTINHIBIT mcountinhibit 42,
            MENVCFG menvcfg 43,
            MSCRATCH mscratch 44,
            MEPC mepc 45,
            MCAUSE mcause 46,
            MTVAL mtval 47,
            MCYCLE mcycle 48,
            MINSTRET minstret 49,
            TSELECT tselect 50,
            STVEC stvec 51,
            SCOUNTEREN scounteren 52,
            SENVCFG senvcfg 53,
            SSCRATCH sscratch 54,
            SEPC sepc 55,
            SCAUSE scause 56,
            STVAL stval 57,
            SATP satp 58,
            STIMECMP stimecmp 59,
        }
    };
}
pub(crate) use hart_words;

macro_rules! places {
    ($($word:ident $name:ident $at:literal,)*) => {
        $(pub const $word: usize = $at;)*

        /// The word's name, if it has one of its own.
        pub const fn name(word: usize) -> Option<&'static str> {
            match word {
                $($word => Some(stringify!($name)),)*
                _ => None,
            }
        }
    };
}

pub mod caps {
    caps_words!(places);
}

pub mod hart {
    hart_words!(places);

    /// General register n is n words behind it.
    pub const X0: usize = 0;
}
