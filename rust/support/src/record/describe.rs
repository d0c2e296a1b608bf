//! What a record says, in words and as JSON: the words that aren't 0.

use std::ffi::OsStr;

use vhart::{Hart, Word, HART_BYTES};

use super::words::{self, COUNT, MODES};
use crate::fields;
use crate::json::Json;
use crate::outcome::{Line, Report};
use crate::register;

/// What the record says, after what came of it, and by which words it is made of a fresh one.
pub fn report(name: &OsStr, came: &str, hart: &Hart, fresh: &Hart) -> Report {
    let mut report = Report {
        lines: vec![Line::head(name, &format!("{came}, {HART_BYTES} bytes"))],
        fields: vec![
            ("file", Json::name(name)),
            ("bytes", Json::Number(HART_BYTES as u64)),
        ],
    };
    let said = said(hart, fresh);
    report.lines.extend(said.lines);
    report.fields.extend(said.fields);
    report
}

/// What the record says, and by which words it is made of a fresh one.
pub fn said(hart: &Hart, fresh: &Hart) -> Report {
    let words: Vec<_> = (0..COUNT)
        .filter(|place| words::value(hart, *place) != words::value(fresh, *place))
        .map(|place| format!("{}={:#x}", words::name(place), words::value(hart, place)))
        .collect();
    let mut report = found(hart);
    if !words.is_empty() {
        report.lines.push(Line::new("words", &words.join(" ")));
    }
    report.fields.push(("words", Json::texts(words)));
    report
}

/// The words that aren't 0, whether they are legal or not.
pub fn found(hart: &Hart) -> Report {
    let values = (0..COUNT).map(|place| (words::name(place), words::value(hart, place)));
    let values: Vec<_> = values.filter(|(_, value)| *value != 0).collect();
    let lines = values.iter();
    let lines = lines.flat_map(|(name, value)| Line::number(name, *value, &in_words(name, *value)));
    let numbers = values.iter();
    let numbers = numbers.map(|(name, value)| (*name, Json::word(*value)));
    Report {
        lines: lines.collect(),
        fields: vec![("values", Json::Object(numbers.collect()))],
    }
}

/// What a word says, if it is the mode or a register that has fields.
fn in_words(name: &str, value: u64) -> String {
    if name == Word::Mode.name() {
        let mode = MODES.iter().find(|(_, mode)| mode.number() == value);
        return mode.map_or("", |(letter, _)| letter).to_uppercase();
    }
    let csr = register::all().find(|csr| csr.to_string() == name);
    csr.map(|csr| fields::in_words(csr, value))
        .unwrap_or_default()
}
