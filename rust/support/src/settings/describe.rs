//! What a settings file says, and why one is refused, in words and as JSON.

use std::ffi::OsStr;

use vhart::{Caps, CapsWord, CapsWords, Refusal, Settings, CAPS_BYTES, SETTINGS_BYTES};

use super::blame;
use super::names::{self, FLAGS, INTERRUPTS, MAX};
use super::words::NEEDED;
use crate::file;
use crate::json::Json;
use crate::outcome::{Line, Report};

/// What the file says, after what came of it.
pub fn report(name: &OsStr, came: &str, settings: &Settings) -> Report {
    let caps = settings.caps().words();
    let values = CapsWord::ALL.map(|word| (word, value(&caps, word)));
    let words: Vec<_> = values.into_iter().flat_map(written).collect();

    let mut lines = vec![Line::head(name, &format!("{came}, {SETTINGS_BYTES} bytes"))];
    for (word, value) in values {
        lines.extend(Line::number(word.name(), value, &in_words(word, value)));
    }
    lines.push(Line::new("words", &words.join(" ")));

    let numbers = values.map(|(word, value)| (word.name(), Json::word(value)));
    let names = values.into_iter().filter_map(|(word, value)| {
        let (names, _) = named(word, value)?;
        Some((word.name(), Json::texts(names)))
    });
    Report {
        lines,
        fields: vec![
            ("file", Json::name(name)),
            ("bytes", Json::Number(SETTINGS_BYTES as u64)),
            ("values", Json::Object(numbers.into())),
            ("names", Json::Object(names.collect())),
            ("words", Json::texts(words)),
        ],
    }
}

/// Why the library refuses a file, with what was found in it.
pub fn refusal(why: Refusal, bytes: &[u8]) -> String {
    if let Some(fault) = Settings::fault(bytes) {
        let image = bytes.get(SETTINGS_BYTES - CAPS_BYTES..).unwrap_or_default();
        return match Caps::try_from(image) {
            Ok(caps) => blame::sentence(&caps.words(), &fault),
            Err(_) => fault.to_string(),
        };
    }
    let found = match (why, bytes) {
        (Refusal::BadLength, _) => format!("it has {}", file::length(bytes)),
        (Refusal::BadMark, _) => {
            let first = bytes.iter().take(6).map(|byte| format!(" {byte:02x}"));
            format!("its first bytes are{}", first.collect::<String>())
        }
        (Refusal::UnknownVersion, [_, _, _, low, high, ..]) => {
            format!("its version is {}", u16::from_le_bytes([*low, *high]))
        }
        _ => return why.to_string(),
    };
    format!("{why}; {found}")
}

pub fn value(words: &CapsWords, word: CapsWord) -> u64 {
    match word {
        CapsWord::Misa => words.misa,
        CapsWord::Interrupts => words.interrupts,
        CapsWord::Highest => words.highest,
        CapsWord::Flags => words.flags.bits(),
        CapsWord::Mhartid => words.mhartid,
        CapsWord::Mvendorid => words.mvendorid,
        CapsWord::Marchid => words.marchid,
        CapsWord::Mimpid => words.mimpid,
        CapsWord::Mconfigptr => words.mconfigptr,
    }
}

/// The names of a word's bits, and the bits that have none; nothing if the word is a number.
fn named(word: CapsWord, value: u64) -> Option<(Vec<&'static str>, u64)> {
    match word {
        CapsWord::Misa => names::of_misa(value),
        CapsWord::Interrupts => Some(names::of(&INTERRUPTS, value)),
        CapsWord::Flags => Some(names::of(&FLAGS, value)),
        _ => None,
    }
}

fn in_words(word: CapsWord, value: u64) -> String {
    match (word, named(word, value)) {
        (CapsWord::Highest, _) if value == u64::MAX => MAX.into(),
        (_, None) => String::new(),
        (_, Some((names, 0))) if names.is_empty() => "none".into(),
        (CapsWord::Misa, Some((names, 0))) => names.concat(),
        (CapsWord::Misa, Some((names, rest))) => format!("{} and {rest:#x}", names.concat()),
        (_, Some((names, 0))) => names.join(" "),
        (_, Some((names, rest))) => format!("{} and {rest:#x}", names.join(" ")),
    }
}

/// What `vhart settings write` takes to give a word this value.
fn written((word, value): (CapsWord, u64)) -> Vec<String> {
    let name = word.name();
    match (word, named(word, value)) {
        (CapsWord::Highest, _) if value == u64::MAX => vec![format!("{name}={MAX}")],
        (CapsWord::Misa, Some((names, 0))) => vec![format!("{name}={}", names.concat())],
        (CapsWord::Flags, Some((names, 0))) => names.into_iter().map(String::from).collect(),
        (_, Some((names, 0))) if value != 0 => vec![format!("{name}={}", names.join(","))],
        _ if value == 0 && !NEEDED.contains(&word) => vec![],
        _ => vec![format!("{name}={value:#x}")],
    }
}
