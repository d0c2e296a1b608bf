//! The words of `vhart settings write`, such as `misa=rv64imacsu` and `sstc`. What is wrong with
//! one is said of it by name. Whether they are legal together, the library says.

use std::ffi::{OsStr, OsString};

use vhart::{CapsWord, CapsWords};

use super::names::{self, Names, FLAGS, INTERRUPTS, LETTERS, MAX, WIDTHS};
use crate::arguments::shown;
use crate::number::{self, Wrong};

/// What has no value that suits most boards.
pub const NEEDED: [CapsWord; 3] = [CapsWord::Misa, CapsWord::Interrupts, CapsWord::Highest];

/// The words of a capability image, or what is wrong with the arguments.
pub fn parse(arguments: &[OsString]) -> Result<CapsWords, String> {
    let mut given = [None; CapsWord::ALL.len()];
    let mut flags = 0;
    for argument in arguments {
        let wrong = |why: String| format!("{}: {why}", shown(argument));
        let text = argument.to_str().ok_or_else(|| wrong(unknown()))?;
        let text = text.to_ascii_lowercase();
        let is_new = match split(&text) {
            Some((word, value)) => {
                let value = value_of(word, value).map_err(wrong)?;
                given[word as usize].replace(value).is_none()
            }
            None => {
                let before = flags;
                flags |= names::bit(&FLAGS, &text).ok_or_else(|| wrong(unknown()))?;
                flags != before
            }
        };
        if !is_new {
            return Err(wrong("is given twice".into()));
        }
    }
    if flags != 0 && given[CapsWord::Flags as usize].replace(flags).is_some() {
        let (names, _) = names::of(&FLAGS, flags);
        return Err(format!(
            "{} beside flags=: say all of them in one way",
            names.join(" ")
        ));
    }
    let missing = NEEDED
        .iter()
        .filter(|word| given[**word as usize].is_none());
    let missing: Vec<_> = missing.map(|word| format!("{}=", word.name())).collect();
    match missing.is_empty() {
        true => Ok(CapsWords::from(given.map(Option::unwrap_or_default))),
        false => Err(format!("{} must be given", missing.join(", "))),
    }
}

/// Whether an argument is meant as a word, and not as a file.
pub fn is_word(argument: &OsStr) -> bool {
    let text = argument.to_string_lossy().to_ascii_lowercase();
    split(&text).is_some() || names::bit(&FLAGS, &text).is_some()
}

/// A word of the image and the text that it is to have.
fn split(text: &str) -> Option<(CapsWord, &str)> {
    let (name, value) = text.split_once('=')?;
    let word = CapsWord::ALL.into_iter().find(|word| word.name() == name)?;
    Some((word, value))
}

fn unknown() -> String {
    let words: Vec<_> = CapsWord::ALL
        .iter()
        .map(|word| format!("{}=", word.name()))
        .collect();
    format!(
        "no such word; there are {} and {}",
        words.join(" "),
        names::list(&FLAGS)
    )
}

fn value_of(word: CapsWord, text: &str) -> Result<u64, String> {
    if text.is_empty() {
        return Err("has no value".into());
    }
    match (word, number::parse(text)) {
        (_, Ok(number)) => Ok(number),
        (CapsWord::Misa, Err(Wrong::NoNumber)) => misa(text),
        (CapsWord::Highest, Err(Wrong::NoNumber)) if text == MAX => Ok(u64::MAX),
        (CapsWord::Interrupts, Err(Wrong::NoNumber)) => set(&INTERRUPTS, "interrupt", text),
        (CapsWord::Flags, Err(Wrong::NoNumber)) => set(&FLAGS, "flag", text),
        (_, Err(wrong)) => Err(wrong.to_string()),
    }
}

fn misa(text: &str) -> Result<u64, String> {
    let mut widths = WIDTHS.iter();
    let Some((width, mut bits)) = widths.find(|(width, _)| text.starts_with(width)) else {
        return Err("misa is rv64 and letters, such as rv64imacsu, or a number".into());
    };
    for c in text[width.len()..].chars() {
        let Some(bit) = names::bit(&LETTERS, c.encode_utf8(&mut [0; 4])) else {
            return Err(no_letter(c));
        };
        if bits & bit != 0 {
            return Err(format!("the letter {c} is given twice"));
        }
        bits |= bit;
    }
    Ok(bits)
}

fn no_letter(c: char) -> String {
    let hint = match c {
        'g' => "; for g say imafd".into(),
        'z' | '_' => format!(
            "; of longer names there are the words {}",
            names::list(&FLAGS)
        ),
        _ => String::new(),
    };
    let all = names::list(&LETTERS);
    format!("misa has no letter {c:?}; it has {all}{hint}")
}

fn set(names: &Names, what: &str, text: &str) -> Result<u64, String> {
    let mut bits = 0;
    for name in text.split(',') {
        let Some(bit) = names::bit(names, name) else {
            let all = names::list(names);
            return Err(format!(
                "no {what} is called {name:?}; there are {all}, with commas between"
            ));
        };
        if bits & bit != 0 {
            return Err(format!("{name} is given twice"));
        }
        bits |= bit;
    }
    Ok(bits)
}

#[cfg(test)]
mod tests {
    use std::ffi::{OsStr, OsString};
    use std::os::unix::ffi::{OsStrExt, OsStringExt};

    use vhart::{CapsWords, Flags};

    use super::{is_word, parse};

    fn words(line: &str) -> Result<CapsWords, String> {
        let arguments: Vec<_> = line.split(' ').map(OsString::from).collect();
        parse(&arguments)
    }

    /// What is said of one argument among those that must be given.
    fn said_of(argument: &str) -> String {
        let line = format!("misa=rv64iu interrupts=0 highest=0 {argument}");
        words(&line).map_or_else(|why| why, |_| "nothing".into())
    }

    #[test]
    fn words_go_by_name_in_any_order_and_case() {
        let expected = CapsWords {
            misa: 0x8000_0000_0014_1105,
            interrupts: 0xAAA,
            highest: 0x80_0000_0000,
            flags: Flags::SSTC | Flags::ZICBOM,
            mvendorid: 0x489,
            ..CapsWords::default()
        };
        for line in [
            "misa=rv64imacsu interrupts=ssi,msi,sti,mti,sei,mei highest=0x80_0000_0000 sstc zicbom mvendorid=0x489",
            "Zicbom MISA=RV64USCAMI mvendorid=1161 Sstc Interrupts=MEI,SSI,MSI,STI,MTI,SEI highest=549755813888",
            "misa=0x8000000000141105 interrupts=0b1010_1010_1010 highest=0x8000000000 flags=zicbom,sstc mvendorid=0x489",
            "flags=6 misa=0x8000000000141105 interrupts=2730 highest=0x8000000000 mvendorid=0x489 mhartid=0",
        ] {
            assert_eq!(words(line), Ok(expected), "{line}");
        }
        let any = words("misa=rv64iu interrupts=0 highest=Max").map(|words| words.highest);
        assert_eq!(any, Ok(u64::MAX));
    }

    #[test]
    fn every_word_has_its_place() {
        let line = "misa=1 interrupts=2 highest=3 flags=4 mhartid=5 mvendorid=6 marchid=7 mimpid=8 mconfigptr=9";
        assert_eq!(
            words(line),
            Ok(CapsWords::from([1, 2, 3, 4, 5, 6, 7, 8, 9]))
        );
    }

    #[test]
    fn what_must_be_given_is_named() {
        assert_eq!(
            parse(&[]).unwrap_err(),
            "misa=, interrupts=, highest= must be given"
        );
        assert_eq!(
            words("misa=rv64iu highest=0").unwrap_err(),
            "interrupts= must be given"
        );
        assert_eq!(said_of("sstc"), "nothing");
    }

    #[test]
    fn a_word_is_given_once() {
        for (argument, why) in [
            ("misa=rv64iu", "misa=rv64iu: is given twice"),
            ("HIGHEST=0", "HIGHEST=0: is given twice"),
            ("flags=0 flags=0", "flags=0: is given twice"),
            ("sstc Sstc", "Sstc: is given twice"),
            (
                "flags=2 sstc",
                "sstc beside flags=: say all of them in one way",
            ),
            (
                "sstc flags=2",
                "sstc beside flags=: say all of them in one way",
            ),
            ("flags=sstc,sstc", "flags=sstc,sstc: sstc is given twice"),
        ] {
            assert_eq!(said_of(argument), why);
        }
    }

    #[test]
    fn an_unknown_word_is_told_what_there_is() {
        for argument in [
            "mhartd=1",
            "=",
            "",
            "board.vhr",
            "zfinx=1",
            "misa",
            "sstc,zicbom",
            "é",
        ] {
            let said = said_of(argument);
            assert!(
                said.contains("no such word; there are misa= interrupts= "),
                "{said}"
            );
            assert!(
                said.ends_with("mconfigptr= and zfinx sstc zicbom zicboz svpbmt"),
                "{said}"
            );
        }
        let bytes = OsString::from_vec(b"misa=\xff".to_vec());
        assert!(parse(&[bytes])
            .unwrap_err()
            .starts_with("misa=\u{fffd}: no such word"));
    }

    #[test]
    fn what_a_word_cannot_have_is_told() {
        let of_misa = |value: &str| words(&format!("misa={value}")).unwrap_err();
        let letters = "misa has no letter";
        let all = "it has i e m a f d q c b p v n h s u x";
        for (value, why) in [
            ("", "has no value".into()),
            (
                "imac",
                "misa is rv64 and letters, such as rv64imacsu, or a number".into(),
            ),
            ("rv64gc", format!("{letters} 'g'; {all}; for g say imafd")),
            ("rv64imak", format!("{letters} 'k'; {all}")),
            ("rv64é", format!("{letters} 'é'; {all}")),
            ("rv64iMm", "the letter m is given twice".into()),
            (
                "0x1_0000_0000_0000_0000",
                "the number doesn't fit in 64 bits; the greatest is 0xffff_ffff_ffff_ffff".into(),
            ),
        ] {
            assert_eq!(of_misa(value), format!("misa={value}: {why}"));
        }
        assert!(
            of_misa("rv64i_zicbom").contains("; of longer names there are the words zfinx sstc")
        );
        let of_interrupts = |value: &str| words(&format!("interrupts={value}")).unwrap_err();
        assert!(of_interrupts("ssi,msj")
            .contains("no interrupt is called \"msj\"; there are ssi msi sti mti sei mei lcofi"));
        assert!(of_interrupts("1,3,5").contains("no interrupt is called \"1\"; there are ssi"));
        assert!(of_interrupts("ssi,").contains("no interrupt is called \"\""));
        assert!(of_interrupts("mei,ssi,mei").ends_with("mei is given twice"));
        assert!(said_of("flags=sst").contains("no flag is called \"sst\""));
        assert!(said_of("mhartid=ten").contains("no number"));
        assert!(said_of("mhartid=max").contains("no number"));
    }

    #[test]
    fn a_word_is_no_file() {
        for word in ["misa=", "Flags=2", "sstc", "mhartid=0"] {
            assert!(is_word(OsStr::new(word)), "{word}");
        }
        for file in ["board.vhr", "./sstc", "misa", "a=b", ""] {
            assert!(!is_word(OsStr::new(file)), "{file}");
        }
        assert!(!is_word(OsStr::from_bytes(b"\xff=\xff")));
    }
}
