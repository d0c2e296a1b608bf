//! A settings file that a command reads: what it says, or why the library refuses it.

use std::ffi::OsStr;

use vhart::Settings;

use super::describe;
use crate::file;
use crate::outcome::Stop;

pub fn load(name: &OsStr) -> Result<Settings, Stop> {
    let bytes = file::read(name)?;
    Settings::read(&bytes)
        .map_err(|why| Stop::refused(name, why.number(), describe::refusal(why, &bytes)))
}
