//! `vhart record show`: what a record says, and whether the library takes it under a board.

use std::ffi::OsString;

use vhart::{Hart, Refusal};

use super::describe;
use super::load::legal;
use crate::arguments::shown;
use crate::command::{Command, Does};
use crate::file;
use crate::outcome::{Outcome, Stop};
use crate::settings;

pub const SHOW: Command = Command {
    name: "show",
    takes: "FILE BOARD",
    about: "Show what a record says, or which word of it is refused.",
    help: "\
BOARD is the settings file of the board that the record is for, from `vhart settings write`. The
words that aren't 0 are shown, also if the record is refused. Each is shown as a number and, if it
has fields, by those that aren't 0. The last line has the words by which `vhart record write` makes
the same file. With - as FILE or as BOARD, standard input is read.

Example:
  vhart settings write board.vhr misa=rv64imacu interrupts=msi,mti,mei highest=max
  vhart record write hart.img board.vhr pc=0x8000_0000 mie=0x888
  vhart record show hart.img board.vhr
",
    does: Does::Runs(show),
};

fn show(arguments: &[OsString]) -> Outcome {
    let (name, board) = match arguments {
        [name, board] => (name, board),
        [] => return Err(Stop::Usage("FILE and BOARD aren't given".into())),
        [_] => return Err(Stop::Usage("BOARD isn't given".into())),
        [_, _, more, ..] => {
            let more = shown(more);
            return Err(Stop::Usage(format!(
                "{more}: one record is shown at a time"
            )));
        }
    };
    file::check_standard(&[name, board])?;
    let settings = settings::load(board)?;
    let bytes = file::read(name)?;
    let hart = legal(name, &bytes, settings.caps()).map_err(|stop| {
        let hart = Hart::try_from(&*bytes);
        stop.with(hart.map(|hart| describe::found(&hart)).unwrap_or_default())
    })?;
    let refused = |why: Refusal| Stop::refused(name, why.number(), why.to_string());
    let fresh = Hart::fresh(settings.caps(), 0).map_err(refused)?;
    Ok(describe::report(
        name,
        &format!("legal on {}", shown(board)),
        &hart,
        &fresh,
    ))
}
