//! The settings file: its bytes, each refusal in the order tested, and what a refused call leaves.

use std::collections::HashSet;

use vhart::{
    slices, Caps, CapsWord, CapsWords, FaultWord, Flags, Refusal, Settings, CAPS_BYTES,
    SETTINGS_BYTES,
};

/// The entries themselves: the binding drops the words of a file that is refused.
#[allow(dead_code)]
mod raw {
    entries::declare!();
}

/// Something else in every word, and in the lowest and the highest byte of most.
const WORDS: CapsWords = CapsWords {
    misa: 0x8000_0000_0014_1105,
    interrupts: 0xAAA,
    highest: 0x80_0000_0000,
    flags: Flags::SSTC,
    mhartid: 0x0102_0304_0506_0708,
    mvendorid: 0xFFFF_FF89,
    marchid: 0x8000_0000_0000_0007,
    mimpid: 0x2018_1004,
    mconfigptr: 0xFEDC_BA98_7654_3210,
};

/// The file of these words.
#[rustfmt::skip] // a line for each word
const FILE: [u8; SETTINGS_BYTES] = [
    b'V', b'H', b'R', 1, 0, 0,
    0x05, 0x11, 0x14, 0, 0, 0, 0, 0x80,
    0xAA, 0x0A, 0, 0, 0, 0, 0, 0,
    0, 0, 0, 0, 0x80, 0, 0, 0,
    2, 0, 0, 0, 0, 0, 0, 0,
    8, 7, 6, 5, 4, 3, 2, 1,
    0x89, 0xFF, 0xFF, 0xFF, 0, 0, 0, 0,
    7, 0, 0, 0, 0, 0, 0, 0x80,
    0x04, 0x10, 0x18, 0x20, 0, 0, 0, 0,
    0x10, 0x32, 0x54, 0x76, 0x98, 0xBA, 0xDC, 0xFE,
];

/// What can be wrong with a file, in the order tested.
type Damage = (&'static str, fn(&mut Vec<u8>), Refusal);

#[rustfmt::skip] // a line for each
const DAMAGES: [Damage; 15] = [
    ("no byte", |file| file.clear(), Refusal::BadLength),
    ("five bytes", |file| file.truncate(5), Refusal::BadLength),
    ("no V", |file| file[0] = b'v', Refusal::BadMark),
    ("no H", |file| file[1] = b'R', Refusal::BadMark),
    ("no R", |file| file[2] = 0, Refusal::BadMark),
    ("the sixth byte 1", |file| file[5] = 1, Refusal::BadMark),
    ("the sixth byte 128", |file| file[5] = 0x80, Refusal::BadMark),
    ("version 0", |file| file[3] = 0, Refusal::UnknownVersion),
    ("version 2", |file| file[3] = 2, Refusal::UnknownVersion),
    ("version 257", |file| file[4] = 1, Refusal::UnknownVersion),
    ("no image", |file| file.truncate(6), Refusal::BadLength),
    ("a byte less", |file| file.truncate(SETTINGS_BYTES - 1), Refusal::BadLength),
    ("a byte more", |file| file.push(0), Refusal::BadLength),
    ("misa without U", |file| file[8] = 0x04, Refusal::BadCaps),
    ("mvendorid of 33 bits", |file| file[50] = 1, Refusal::BadCaps),
];

/// The file with what can be wrong with it; and with any two of these, for which the first counts.
fn refused() -> impl Iterator<Item = (String, Vec<u8>, Refusal)> {
    (0..DAMAGES.len()).flat_map(|first| {
        (first..DAMAGES.len()).map(move |second| {
            let (what, damage, refusal) = DAMAGES[first];
            let (and, other, _) = DAMAGES[second];
            let mut file = FILE.to_vec();
            other(&mut file); // first, since the earlier ones cut more
            damage(&mut file);
            (format!("{what}, {and}"), file, refusal)
        })
    })
}

#[test]
fn a_file_is_made_of_its_words_and_read_back() -> Result<(), Refusal> {
    let caps = Caps::from(WORDS);
    let made = Settings::of(&caps)?;
    assert_eq!((made.file(), made.caps()), (&FILE, &caps));
    let read = Settings::read(&FILE)?;
    assert_eq!((read.file(), read.caps()), (&FILE, &caps));
    assert_eq!(read.caps().words(), WORDS);
    assert_eq!(Settings::try_from(&FILE[..]), Ok(made));
    assert_eq!(slices::settings_read(&FILE).map(CapsWords::from), Ok(WORDS));
    assert_eq!(Settings::fault(&FILE), None);
    Ok(())
}

#[test]
fn every_wrong_file_is_refused_with_the_first_that_applies() {
    for (what, file, refusal) in refused() {
        assert_eq!(Settings::read(&file), Err(refusal), "{what}");
        assert_eq!(Settings::try_from(&file[..]), Err(refusal), "{what}");
        assert_eq!(slices::settings_read(&file), Err(refusal), "{what}");
        let fault = Settings::fault(&file).map(|fault| fault.refusal);
        let expected = (refusal == Refusal::BadCaps).then_some(refusal);
        assert_eq!(fault, expected, "{what}");
    }
}

#[test]
fn a_file_that_is_refused_gives_words_of_0() {
    for (what, file, refusal) in refused() {
        // SAFETY: the file is valid for its length.
        let read = unsafe { raw::vhart_settings_read(file.as_ptr(), file.len()) };
        let (refusal, words) = (refusal.number(), [0; 9]);
        assert_eq!((Some(read.refusal), read.words), (refusal, words), "{what}");
    }
}

#[test]
fn what_is_at_fault_is_named() {
    let mut file = FILE;
    file[50] = 1; // above the 32 bits of mvendorid
    file[30] = 0xFF; // flags that aren't any
    let fault = Settings::fault(&file).expect("the image isn't legal");
    assert_eq!(fault.word, FaultWord::Caps(CapsWord::Flags));
    assert_eq!(fault.value, 0xFF);
}

/// A buffer for a file, with bytes on both sides that nothing may touch.
struct Buffer {
    room: [u8; Buffer::BEFORE + Buffer::MOST + 8],
    length: usize,
}

impl Buffer {
    const BEFORE: usize = 8;
    const MOST: usize = 100;
    const FILLER: u8 = 0xA5;

    fn new(length: usize) -> Buffer {
        let room = [Buffer::FILLER; Buffer::BEFORE + Buffer::MOST + 8];
        Buffer { room, length }
    }

    fn lent(&mut self) -> &mut [u8] {
        &mut self.room[Buffer::BEFORE..][..self.length]
    }

    /// Whether it begins with these bytes, and no other byte has changed.
    fn holds(&self, file: &[u8]) -> bool {
        let (before, rest) = self.room.split_at(Buffer::BEFORE);
        let rest = rest.strip_prefix(file);
        let mut around = before.iter().chain(rest.into_iter().flatten());
        rest.is_some() && around.all(|byte| *byte == Buffer::FILLER)
    }
}

#[test]
fn a_file_is_written_into_a_buffer_of_its_length_alone() {
    let caps = Caps::from(WORDS);
    for length in 0..=Buffer::MOST {
        let mut buffer = Buffer::new(length);
        let came = slices::settings_write(caps.as_bytes(), buffer.lent());
        let (expected, left): (_, &[u8]) = match length {
            SETTINGS_BYTES => (Ok(()), &FILE),
            _ => (Err(Refusal::BadLength), &[]),
        };
        assert_eq!(came, expected, "{length} bytes");
        assert!(buffer.holds(left), "{length} bytes");
    }
}

#[test]
fn capabilities_that_are_not_legal_are_not_written() {
    let mut wrong = vec![WORDS; 4];
    wrong[0].misa = 0;
    wrong[1].interrupts = 0x888;
    wrong[2].flags = Flags::from_bits(0x20);
    wrong[3].mvendorid = 1 << 32;
    for words in wrong {
        let caps = Caps::from(words);
        assert_eq!(Settings::of(&caps), Err(Refusal::BadCaps), "{words:?}");
        for length in [0, SETTINGS_BYTES - 1, SETTINGS_BYTES, Buffer::MOST] {
            let mut buffer = Buffer::new(length);
            let came = slices::settings_write(caps.as_bytes(), buffer.lent());
            assert_eq!(came, Err(Refusal::BadCaps), "{words:?}, {length} bytes");
            assert!(buffer.holds(&[]), "{words:?}, {length} bytes");
        }
    }
    let image = [Caps::from(WORDS).as_bytes(), &[0; CAPS_BYTES][..]].concat();
    for caps_length in (0..2 * CAPS_BYTES).filter(|length| *length != CAPS_BYTES) {
        let mut buffer = Buffer::new(SETTINGS_BYTES);
        let came = slices::settings_write(&image[..caps_length], buffer.lent());
        assert_eq!(came, Err(Refusal::BadCaps), "of {caps_length} bytes");
        assert!(buffer.holds(&[]), "of {caps_length} bytes");
    }
}

#[test]
fn settings_are_shown_by_their_words_and_can_be_counted_in_a_set() -> Result<(), Refusal> {
    let one = Settings::read(&FILE)?;
    assert_eq!(format!("{one:?}"), format!("Settings({WORDS:?})"));
    let other = Settings::of(&Caps::from(CapsWords {
        mhartid: 1,
        ..WORDS
    }))?;
    assert_eq!(HashSet::from([one.clone(), one, other]).len(), 2);
    Ok(())
}
