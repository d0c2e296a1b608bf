//! The words of a record by name, such as `mtvec=0x80000001` and `x10=1`. Whether they are legal
//! together, the library says.

use std::ffi::{OsStr, OsString};

use vhart::{Hart, Mode, Word, HART_BYTES};

use crate::arguments::shown;
use crate::near::nearest;
use crate::number;
use crate::prose::listed;

/// How many words a record has.
pub const COUNT: usize = HART_BYTES / 8;

const REGISTERS: [&str; 32] = [
    "x0", "x1", "x2", "x3", "x4", "x5", "x6", "x7", "x8", "x9", "x10", "x11", "x12", "x13", "x14",
    "x15", "x16", "x17", "x18", "x19", "x20", "x21", "x22", "x23", "x24", "x25", "x26", "x27",
    "x28", "x29", "x30", "x31",
];

/// The modes by their letters.
pub const MODES: [(&str, Mode); 3] = [("u", Mode::U), ("s", Mode::S), ("m", Mode::M)];

/// The name of the word at this place of a record.
pub fn name(place: usize) -> &'static str {
    match place.checked_sub(REGISTERS.len()) {
        None => REGISTERS[place],
        Some(place) => Word::ALL[place].name(),
    }
}

/// What a record holds at this place.
pub fn value(hart: &Hart, place: usize) -> u64 {
    let mut bytes = [0; 8];
    bytes.copy_from_slice(&hart.as_bytes()[8 * place..8 * place + 8]);
    u64::from_le_bytes(bytes)
}

/// The record with these words, whatever they are.
pub fn with(hart: &Hart, words: &[(usize, u64)]) -> Hart {
    let mut bytes = *hart.as_bytes();
    for (place, value) in words {
        bytes[8 * place..8 * place + 8].copy_from_slice(&value.to_le_bytes());
    }
    Hart::from_bytes(bytes)
}

/// The places of the words that are given, each with its value; or what is wrong with an argument.
pub fn parse(arguments: &[OsString]) -> Result<Vec<(usize, u64)>, String> {
    let mut given: Vec<(usize, u64)> = Vec::new();
    for argument in arguments {
        let wrong = |why: String| format!("{}: {why}", shown(argument));
        let text = argument.to_string_lossy().to_ascii_lowercase();
        let (place, text) = split(&text).ok_or_else(|| wrong(unknown(&text)))?;
        let value = value_of(place, text).map_err(wrong)?;
        if given.iter().any(|(before, _)| *before == place) {
            return Err(wrong("is given twice".into()));
        }
        given.push((place, value));
    }
    Ok(given)
}

/// Whether an argument is meant as a word, and not as a file.
pub fn is_word(argument: &OsStr) -> bool {
    split(&argument.to_string_lossy().to_ascii_lowercase()).is_some()
}

/// The place of a word and the text that it is to have.
fn split(text: &str) -> Option<(usize, &str)> {
    let (word, value) = text.split_once('=')?;
    let place = (0..COUNT).find(|place| name(*place) == word)?;
    Some((place, value))
}

fn unknown(text: &str) -> String {
    let word = text.split('=').next().unwrap_or_default();
    let near = nearest(word, (0..COUNT).map(|place| name(place).into()));
    if near.is_empty() {
        let words = Word::ALL.map(|word| format!("{}=", word.name()));
        return format!("no such word; there are x0= to x31= {}", words.join(" "));
    }
    let near: Vec<_> = near.into_iter().map(|name| name + "=").collect();
    format!("no such word; is it {}?", listed(&near, "or"))
}

fn value_of(place: usize, text: &str) -> Result<u64, String> {
    if text.is_empty() {
        return Err("has no value".into());
    }
    let mode = MODES.iter().find(|(letter, _)| *letter == text);
    match (mode, number::parse(text)) {
        (Some((_, mode)), _) if name(place) == Word::Mode.name() => Ok(mode.number()),
        (_, parsed) => parsed.map_err(|wrong| wrong.to_string()),
    }
}

#[cfg(test)]
mod tests {
    use std::ffi::{OsStr, OsString};

    use vhart::{Hart, Word, X};

    use super::{is_word, name, parse, value, with, COUNT};

    fn words(line: &str) -> Result<Vec<(usize, u64)>, String> {
        let arguments: Vec<_> = line.split_whitespace().map(OsString::from).collect();
        parse(&arguments)
    }

    #[test]
    fn every_word_has_its_place() {
        let none = Hart::from_bytes([0; 480]);
        for place in 0..COUNT {
            let set = words(&format!("{}={}", name(place), 1000 + place)).unwrap();
            let hart = with(&none, &set);
            assert_eq!(value(&hart, place), 1000 + place as u64);
            match place {
                1..=31 => assert_eq!(hart.x(X(place as u64)), 1000 + place as u64),
                0 => assert_ne!(hart, none),
                _ => assert_eq!(hart.get(Word::ALL[place - 32]), 1000 + place as u64),
            }
        }
    }

    #[test]
    fn words_go_by_name_in_any_order_and_case() {
        assert_eq!(
            words("PC=0x8000_0000 x10=5 Mode=S"),
            Ok(vec![(32, 0x8000_0000), (10, 5), (33, 1)])
        );
        assert_eq!(words("mode=M"), words("mode=3"));
        assert_eq!(words(""), Ok(vec![]));
    }

    #[test]
    fn what_is_wrong_is_told() {
        for (line, why) in [
            ("pc=1 PC=2", "PC=2: is given twice"),
            ("pc=", "pc=: has no value"),
            ("pc=s", "pc=s: no number; a number is decimal, 0x.. or 0b.."),
            ("mstaus=1", "mstaus=1: no such word; is it mstatus=?"),
            ("mstatus", "mstatus: no such word; is it mstatus=?"),
        ] {
            assert_eq!(words(line), Err(why.into()));
        }
        for line in ["misa=1", "x32=1", "=1", "é"] {
            let told = words(line).unwrap_err();
            assert!(told.contains("no such word; "), "{told}");
        }
    }

    #[test]
    fn a_word_is_no_file() {
        for word in ["pc=", "X1=2", "mie=0"] {
            assert!(is_word(OsStr::new(word)), "{word}");
        }
        for file in ["hart.img", "./pc=1", "pc", "a=b", ""] {
            assert!(!is_word(OsStr::new(file)), "{file}");
        }
    }
}
