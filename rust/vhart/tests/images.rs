//! The two images: where their words stand, how bytes become an image, and how they are shown.

use std::collections::HashSet;

use vhart::{
    BytesError, Caps, CapsWord, CapsWords, Flags, Hart, Host, Mode, TrapInfo, Word, CAPS_BYTES,
    HART_BYTES, X,
};

#[repr(align(8))]
struct Aligned<const N: usize>([u8; N]);

#[test]
fn every_word_has_its_place() {
    let words = CapsWords {
        misa: 0,
        interrupts: 1,
        highest: 2,
        flags: Flags::from_bits(3),
        mhartid: 4,
        mvendorid: 5,
        marchid: 6,
        mimpid: 7,
        mconfigptr: 8,
    };
    let caps = Caps::from(words);
    assert_eq!(caps.words(), words);
    assert_eq!(CapsWords::from([0, 1, 2, 3, 4, 5, 6, 7, 8]), words);
    assert!(CapsWord::ALL.into_iter().map(|word| word as usize).eq(0..9));
    let mut hart = Hart::from_bytes([0; HART_BYTES]);
    (0..40).for_each(|n| hart.set_x(X(n), n));
    for word in Word::ALL {
        hart.set(word, word as u64);
    }
    assert!((0..40).all(|n| hart.x(X(n)) == if n < 32 { n } else { 0 }));
    assert_eq!(hart.x(X(u64::MAX)), 0);
    assert!(Word::ALL
        .into_iter()
        .all(|word| hart.get(word) == word as u64));
    for bytes in [&caps.as_bytes()[..], &hart.as_bytes()[..]] {
        for (place, word) in (0u64..).zip(bytes.chunks(8)) {
            assert_eq!(word, place.to_le_bytes());
        }
    }
}

#[test]
fn x0_stays_0_and_the_mode_is_a_mode_or_none() {
    let mut hart = Hart::from_bytes([0; HART_BYTES]);
    hart.set_x(X(0), 5);
    assert_eq!((hart.x(X(0)), hart.mode()), (0, Some(Mode::U)));
    hart.set_mode(Mode::M);
    assert_eq!((hart.get(Word::Mode), hart.mode()), (3, Some(Mode::M)));
    hart.set(Word::Mode, 2);
    assert_eq!(hart.mode(), None);
}

#[test]
fn bytes_of_another_length_are_no_image() {
    let bytes = Aligned([7; HART_BYTES + 1]);
    for length in [0, CAPS_BYTES - 1, CAPS_BYTES + 1] {
        let wrong = BytesError::Length {
            is: length,
            needed: CAPS_BYTES,
        };
        assert_eq!(Caps::try_from(&bytes.0[..length]), Err(wrong));
        assert_eq!(Caps::view(&bytes.0[..length]), Err(wrong));
    }
    let mut bytes = bytes;
    for length in [0, HART_BYTES - 1, HART_BYTES + 1] {
        let wrong = BytesError::Length {
            is: length,
            needed: HART_BYTES,
        };
        assert_eq!(Hart::try_from(&bytes.0[..length]), Err(wrong));
        assert_eq!(Hart::view(&bytes.0[..length]), Err(wrong));
        assert_eq!(Hart::view_mut(&mut bytes.0[..length]), Err(wrong));
    }
    let wrong = BytesError::Length {
        is: 71,
        needed: CAPS_BYTES,
    };
    assert_eq!(
        wrong.to_string(),
        "71 bytes were given, and the image has 72"
    );
}

#[test]
fn a_copy_needs_no_alignment_and_a_view_does() {
    let mut bytes = Aligned([7; HART_BYTES + 8]);
    for start in 1..8 {
        let caps = &bytes.0[start..start + CAPS_BYTES];
        assert_eq!(Caps::try_from(caps), Ok(Caps::from_bytes([7; CAPS_BYTES])));
        assert_eq!(Caps::view(caps), Err(BytesError::Alignment));
        let hart = &mut bytes.0[start..start + HART_BYTES];
        assert_eq!(
            Hart::try_from(&*hart),
            Ok(Hart::from_bytes([7; HART_BYTES]))
        );
        assert_eq!(Hart::view(hart), Err(BytesError::Alignment));
        assert_eq!(Hart::view_mut(hart), Err(BytesError::Alignment));
    }
    assert_eq!(
        Caps::view(&bytes.0[8..8 + CAPS_BYTES]),
        Ok(&Caps::from_bytes([7; CAPS_BYTES]))
    );
    assert_eq!(
        Hart::view(&bytes.0[8..]),
        Ok(&Hart::from_bytes([7; HART_BYTES]))
    );
    assert_eq!(
        BytesError::Alignment.to_string(),
        "the bytes don't stand at a multiple of 8"
    );
}

#[test]
fn a_view_changes_the_bytes_themselves() -> Result<(), BytesError> {
    let mut bytes = Aligned([7; HART_BYTES + 8]);
    let hart = Hart::view_mut(&mut bytes.0[8..])?;
    hart.set(Word::Stimecmp, 0x0102_0304_0506_0708);
    assert_eq!(bytes.0[HART_BYTES..], [8, 7, 6, 5, 4, 3, 2, 1]);
    assert!(bytes.0[..HART_BYTES].iter().all(|byte| *byte == 7));
    Ok(())
}

#[test]
fn images_can_be_counted_in_a_set() {
    let one = Hart::from_bytes([1; HART_BYTES]);
    let harts = HashSet::from([one.clone(), one, Hart::from_bytes([2; HART_BYTES])]);
    let caps = HashSet::from([
        Caps::from_bytes([1; CAPS_BYTES]),
        Caps::from(CapsWords::default()),
    ]);
    assert_eq!((harts.len(), caps.len()), (2, 2));
}

#[test]
fn words_are_shown_in_hex() {
    let caps = Caps::from(CapsWords {
        misa: 0x8000_0000_0014_1105,
        flags: Flags::SSTC,
        mvendorid: 0x489,
        ..CapsWords::default()
    });
    assert_eq!(
        format!("{caps:?}"),
        "CapsWords { misa: 0x8000000000141105, interrupts: 0x0, highest: 0x0, flags: Flags(SSTC), \
         mhartid: 0x0, mvendorid: 0x489, marchid: 0x0, mimpid: 0x0, mconfigptr: 0x0 }"
    );
    let mut hart = Hart::from_bytes([0; HART_BYTES]);
    hart.set_x(X(10), 0x1F);
    hart.set(Word::Pc, 0x8000_0000);
    let shown = format!("{hart:?}");
    assert!(
        shown.contains(" x10: 0x1f, ") && shown.contains(" pc: 0x80000000, "),
        "{shown}"
    );
    let trap = TrapInfo {
        mcause: 2,
        mtval: 0x3020_0073,
        ..TrapInfo::default()
    };
    let host = Host {
        time: 16,
        line: true,
        ..Host::default()
    };
    assert_eq!(
        format!("{trap:?} {host:?}"),
        "TrapInfo { mcause: 0x2, mtval: 0x30200073, mepc: 0x0, mip: 0x0, mstatus: 0x0 } \
         Host { time: 0x10, seed: 0x0, line: true }"
    );
}
