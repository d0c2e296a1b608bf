//! `vhart settings`: a board's settings file, written and shown. What is legal, the library says.

mod blame;
mod describe;
mod load;
pub mod names;
mod show;
mod words;
mod write;

pub use load::load;

use crate::command::{Command, Does};

pub const SETTINGS: Command = Command {
    name: "settings",
    takes: "COMMAND ..",
    about: "Write and show the settings file of a board, which says what its hart has.",
    help: "",
    does: Does::Has(&[&write::WRITE, &show::SHOW]),
};
