//! `vhart record`: the record of a hart as a file, written and shown. What is legal, the library
//! says.

mod describe;
mod load;
mod show;
mod words;
mod write;

pub use describe::{report, said};
pub use load::load;

use crate::command::{Command, Does};

pub const RECORD: Command = Command {
    name: "record",
    takes: "COMMAND ..",
    about: "Write and show the record of a hart: its registers, pc, mode and CSRs.",
    help: "",
    does: Does::Has(&[&write::WRITE, &show::SHOW]),
};
