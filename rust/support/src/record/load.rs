//! A record that a command reads, or why the library refuses it under a board's capabilities.

use std::ffi::OsStr;

use vhart::{slices, Caps, Fault, FaultWord, Hart};

use crate::file;
use crate::outcome::Stop;

pub fn load(name: &OsStr, caps: &Caps) -> Result<Hart, Stop> {
    legal(name, &file::read(name)?, caps)
}

/// The record of these bytes, if it is legal.
pub fn legal(name: &OsStr, bytes: &[u8], caps: &Caps) -> Result<Hart, Stop> {
    let refused = |fault: Fault| {
        let number = fault.refusal.number();
        Stop::refused(name, number, sentence(&fault, bytes))
    };
    slices::check_hart(caps.as_bytes(), bytes).map_err(refused)?;
    // What is legal has the length of a record.
    Hart::try_from(bytes).map_err(|why| Stop::File(why.to_string()))
}

/// The library's sentence. Of a file without end the length isn't known.
fn sentence(fault: &Fault, bytes: &[u8]) -> String {
    let text = fault.to_string();
    match fault.word {
        FaultWord::Length(length) => text.replace(&format!("{length} bytes"), &file::length(bytes)),
        _ => text,
    }
}
