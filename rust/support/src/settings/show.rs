//! `vhart settings show`: what a settings file says, or why the library refuses it.

use std::ffi::OsString;

use super::{describe, load};
use crate::arguments::shown;
use crate::command::{Command, Does};
use crate::outcome::{Outcome, Stop};

pub const SHOW: Command = Command {
    name: "show",
    takes: "FILE",
    about: "Show what a settings file says, or why it is refused.",
    help: "\
Each word is shown as a number and, if its bits have names, by these. The last line has the words
by which `vhart settings write` makes the same file. With - as FILE, standard input is read.

Example:
  vhart settings write board.vhr misa=rv64imacu interrupts=msi,mti,mei highest=0xffff_ffff
  vhart settings show board.vhr
",
    does: Does::Runs(show),
};

fn show(arguments: &[OsString]) -> Outcome {
    let name = match arguments {
        [name] => name,
        [] => return Err(Stop::Usage("FILE isn't given".into())),
        [_, more, ..] => {
            let more = shown(more);
            return Err(Stop::Usage(format!("{more}: one file is shown at a time")));
        }
    };
    Ok(describe::report(name, "legal", &load(name)?))
}
