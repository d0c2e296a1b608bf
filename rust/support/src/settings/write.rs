//! `vhart settings write`: makes a settings file of words by name, if the library takes them.

use std::ffi::OsString;

use vhart::{Caps, Settings};

use super::{blame, describe, words};
use crate::command::{Command, Does};
use crate::file;
use crate::outcome::{Outcome, Stop};

pub const WRITE: Command = Command {
    name: "write",
    takes: "FILE WORD..",
    about: "Write a settings file from words by name.",
    help: "\
The words, in any order. The first three must be given, and the others are 0 if they aren't:
  misa=rv64LETTERS     misa's width and letters, such as rv64imacsu; s and u are the modes
  interrupts=NAME,..   of ssi, msi, sti, mti, sei, mei, lcofi; interrupts=0 if there are none
  highest=NUMBER       the highest address that mepc and sepc can take; max if they take any, as a
                       kernel in mode S needs, whose addresses are in the upper half
  zfinx, sstc, zicbom, zicboz, svpbmt
                       extensions that misa has no letter for; flags=NAME,.. is the same
  mhartid=NUMBER, mvendorid=NUMBER, marchid=NUMBER, mimpid=NUMBER, mconfigptr=NUMBER
                       what the CSRs of these names read

A number is decimal, 0x.. or 0b.., with _ between digits where you like. misa, interrupts and flags
take one too, which has all their bits. Capitals are as good as small letters.

What the library refuses isn't written. A file that is there is replaced whole; if it can't be
written, it stays as it was.

Example:
  vhart settings write board.vhr misa=rv64imacsu interrupts=ssi,msi,sti,mti,sei,mei \\
      highest=max sstc mvendorid=0x489
  vhart settings show board.vhr
",
    does: Does::Runs(write),
};

fn write(arguments: &[OsString]) -> Outcome {
    let Some((name, given)) = arguments.split_first() else {
        return Err(Stop::Usage("FILE and the words aren't given".into()));
    };
    if words::is_word(name) {
        return Err(file::no_file(name, "FILE comes first"));
    }
    file::check_writable(name)?;
    let words = words::parse(given).map_err(Stop::Usage)?;
    let caps = Caps::from(words);
    let refuse = |number, text| Stop::refused(name, number, text);
    caps.check()
        .map_err(|fault| refuse(fault.refusal.number(), blame::sentence(&words, &fault)))?;
    let settings = Settings::of(&caps).map_err(|why| refuse(why.number(), why.to_string()))?;
    file::replace(name, settings.file())?;
    Ok(describe::report(name, "written", &settings))
}
