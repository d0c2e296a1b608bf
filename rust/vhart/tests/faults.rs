//! What `check` says of an image that isn't legal: for each word that has a condition the sentence,
//! and that every other word may hold anything.

use vhart::{
    slices, Caps, CapsWord, CapsWords, Fault, FaultWord, Flags, Hart, Image, Refusal, Word,
    CAPS_BYTES, HART_BYTES, X,
};

/// RV64 with A, C, I, M, S, U and Sstc.
fn with_s() -> CapsWords {
    CapsWords {
        misa: 0x8000_0000_0014_1105,
        interrupts: 0xAAA,
        highest: u64::MAX,
        flags: Flags::SSTC,
        ..CapsWords::default()
    }
}

/// The same without S and Sstc.
fn without_s() -> CapsWords {
    CapsWords {
        misa: 0x8000_0000_0010_1105,
        interrupts: 0x888,
        flags: Flags::NONE,
        ..with_s()
    }
}

/// The image with another value in a word.
fn put(image: &[u8], word: usize, value: u64) -> Vec<u8> {
    let mut bytes = image.to_vec();
    bytes[8 * word..8 * word + 8].copy_from_slice(&value.to_le_bytes());
    bytes
}

fn said(of: Result<(), Fault>) -> String {
    of.map_or_else(|fault| fault.to_string(), |()| "legal".to_string())
}

#[test]
fn each_word_of_the_capabilities_has_its_sentence() -> Result<(), vhart::BytesError> {
    use CapsWord::{Interrupts, Misa, Mvendorid};
    #[rustfmt::skip] // a line for each
    let bad = [
        (Misa, 0x8000_0000_0014_1185, "have MXL (bits 63:62) 2 and U (bit 20), and neither H (7) nor N (13)"),
        (Interrupts, 0x8AA, "be within 0x2aaa, with S have all of 0x222, and without S none of 0x2222"),
        (CapsWord::Flags, 0x22, "be below 32, have no Zfinx with F, and have Sstc and Svpbmt only with S"),
        (Mvendorid, 1 << 32, "be below 2^32"),
    ];
    let caps = Caps::from(with_s());
    assert_eq!(said(caps.check()), "legal");
    for (word, value, must) in bad {
        let (name, number) = (word.name(), word as usize);
        let caps = Caps::try_from(&put(caps.as_bytes(), number, value)[..])?;
        let sentence = format!(
            "refusal 1: capability word {name} (word {number}) holds {value:#x}, but must {must}"
        );
        assert_eq!(said(caps.check()), sentence);
        // The capabilities come first, whatever the record is.
        assert_eq!(
            Hart::from_bytes([0xA5; HART_BYTES]).check(&caps),
            caps.check()
        );
    }
    for word in CapsWord::ALL
        .into_iter()
        .filter(|word| bad.iter().all(|(bad, ..)| bad != word))
    {
        let caps = Caps::try_from(&put(caps.as_bytes(), word as usize, u64::MAX)[..])?;
        assert_eq!(said(caps.check()), "legal", "{word:?}");
    }
    Ok(())
}

#[test]
fn each_word_of_the_record_has_its_sentence() -> Result<(), Refusal> {
    let aligned = "be a multiple of 2 with C, of 4 without";
    #[rustfmt::skip] // a line for each
    let bad = [
        (Word::Pc, 1, aligned),
        (Word::Mode, 2, "be 0 (U), 3 (M), or with S 1 (S)"),
        (Word::Waiting, 2, "be 0 or 1"),
        (Word::Mstatus, 0xA_0000_1000, "be what a write of it stores: only fields that this hart has (FS with F or \
            S, but not with Zfinx, and VS with V or S), MPP a mode that it has, UXL 2, SXL 2 with S and 0 without, SD set \
            exactly if FS or VS is 3"),
        (Word::Mie, 0x2000, "be within `interrupts` and 0xaaa"),
        (Word::Mip, 0x2000, "be within `interrupts`"),
        (Word::Mideleg, 0x22, "with S be 0x222, or also 0x2222 if `interrupts` has bit 13, and without S be 0"),
        (Word::Medeleg, 0x800, "be within 0xb3ff, and 0 without S"),
        (Word::Mtvec, 2, "have 0 or 1 as its mode (bits 1:0)"),
        (Word::Mcounteren, 8, "be within 7"),
        (Word::Mcountinhibit, 2, "be within 5"),
        (Word::Menvcfg, 0x80, "have only FIOM (bit 0), with Zicbom CBIE (5:4, not 2) and CBCFE (6), with Zicboz \
            CBZE (7), with Svpbmt PBMTE (62), with Sstc STCE (63)"),
        (Word::Mepc, 1, aligned),
        (Word::Stvec, 3, "have 0 or 1 as its mode (bits 1:0), and be 0 without S"),
        (Word::Scounteren, 8, "be within 7, and 0 without S"),
        (Word::Senvcfg, 0x80, "have only FIOM (bit 0), with Zicbom CBIE (5:4, not 2) and CBCFE (6), with Zicboz \
            CBZE (7), and be 0 without S"),
        (Word::Sepc, 1, "be a multiple of 2 with C, of 4 without, and be 0 without S"),
        (Word::Satp, 9 << 60, "have 0 or 8 as its mode (bits 63:60), and be 0 without S"),
    ];
    #[rustfmt::skip]
    let bad_without_s = [
        (Word::Sscratch, 1, "be 0 without S"),
        (Word::Scause, 1, "be 0 without S"),
        (Word::Stval, 1, "be 0 without S"),
        (Word::Stimecmp, 1, "be 0 without Sstc"),
    ];
    let holds = |word: Word, value: u64, must: &str| {
        let (name, number) = (word.name(), word as usize);
        format!("refusal 2: hart word {name} (word {number}) holds {value:#x}, but must {must}")
    };
    for (words, bad) in [(with_s(), &bad[..]), (without_s(), &bad_without_s[..])] {
        let caps = Caps::from(words);
        let fresh = Hart::fresh(&caps, 0x8000_0000)?;
        assert_eq!(said(fresh.check(&caps)), "legal");
        for (word, value, must) in bad {
            let mut hart = fresh.clone();
            hart.set(*word, *value);
            assert_eq!(said(hart.check(&caps)), holds(*word, *value, must));
            assert_eq!(hart.pending(&caps), Err(Refusal::BadHart));
        }
    }
    let caps = Caps::from(with_s());
    let fresh = Hart::fresh(&caps, 0x8000_0000)?;
    for word in Word::ALL
        .into_iter()
        .filter(|word| bad.iter().all(|(bad, ..)| bad != word))
    {
        let mut hart = fresh.clone();
        hart.set(word, u64::MAX);
        assert_eq!(said(hart.check(&caps)), "legal", "{word:?}");
    }
    Ok(())
}

#[test]
fn x0_and_the_lowest_word_are_named() -> Result<(), Refusal> {
    let caps = Caps::from(with_s());
    let mut hart = Hart::fresh(&caps, 0x8000_0000)?;
    (1..32).for_each(|n| hart.set_x(X(n), u64::MAX));
    assert_eq!(hart.check(&caps), Ok(()));
    hart.set(Word::Satp, 1 << 60);
    hart.set(Word::Mtvec, 3);
    let fault = Fault {
        refusal: Refusal::BadHart,
        image: Image::Hart,
        word: FaultWord::Hart(Word::Mtvec),
        value: 3,
    };
    assert_eq!(hart.check(&caps), Err(fault));
    assert_eq!(Refusal::from(fault), Refusal::BadHart);
    assert_eq!(
        format!("{fault:?}"),
        "Fault { refusal: BadHart, image: Hart, word: Hart(Mtvec), value: 0x3 }"
    );
    let bytes = put(hart.as_bytes(), 0, 5);
    let hart = Hart::try_from(&bytes[..]).expect("480 bytes");
    assert_eq!(
        said(hart.check(&caps)),
        "refusal 2: hart word x0 (word 0) holds 0x5, but must be 0"
    );
    Ok(())
}

#[test]
fn a_wrong_length_is_named() {
    #[repr(align(8))]
    struct Aligned([u8; HART_BYTES + 1]);

    let caps = Caps::from(with_s());
    let room = Aligned([0; HART_BYTES + 1]);
    for length in [0, 1, CAPS_BYTES - 1, CAPS_BYTES + 1, HART_BYTES] {
        let bytes = &room.0[..length];
        let sentence =
            format!("refusal 1: the capability image has {length} bytes, but must have 72");
        assert_eq!(said(slices::check_caps(bytes)), sentence);
        assert_eq!(
            slices::check_hart(bytes, &room.0),
            slices::check_caps(bytes)
        );
    }
    for length in [0, 1, CAPS_BYTES, HART_BYTES - 1, HART_BYTES + 1] {
        let fault = Fault {
            refusal: Refusal::BadHart,
            image: Image::Hart,
            word: FaultWord::Length(length),
            value: 0,
        };
        assert_eq!(
            slices::check_hart(caps.as_bytes(), &room.0[..length]),
            Err(fault)
        );
        let sentence = format!("refusal 2: the hart image has {length} bytes, but must have 480");
        assert_eq!(fault.to_string(), sentence);
    }
}
