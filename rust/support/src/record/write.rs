//! `vhart record write`: makes a fresh record for a board, with words by name, if the library takes
//! them.

use std::ffi::OsString;

use vhart::{Hart, Word};

use super::{describe, words};
use crate::command::{Command, Does};
use crate::file;
use crate::outcome::{Outcome, Stop};
use crate::settings;

pub const WRITE: Command = Command {
    name: "write",
    takes: "FILE BOARD [WORD=VALUE ..]",
    about: "Write a fresh record for a board, with words by name.",
    help: "\
BOARD is the settings file of the board that the record is for, from `vhart settings write`. With -
standard input is read. FILE becomes the hart image, 480 bytes, as a monitor has it in memory.

The words are those of the record: x1 to x31, pc, mode (u, s, m or a number), waiting, mstatus, mie,
mip, mideleg, medeleg, mtvec, mcounteren, mcountinhibit, menvcfg, mscratch, mepc, mcause, mtval,
mcycle, minstret, tselect, stvec, scounteren, senvcfg, sscratch, sepc, scause, stval, satp,
stimecmp. One that isn't given is as in a hart that was just started: pc is 0, mode is m, mstatus
and mideleg are as the board has them, and the others are 0.

A value is a number: decimal, 0x.. or 0b.., with _ between digits where you like. It is stored as
it is given. What the library then refuses isn't written. A file that is there is replaced whole; if
it can't be written, it stays as it was.

Example:
  vhart settings write board.vhr misa=rv64imacsu interrupts=ssi,msi,sti,mti,sei,mei highest=max
  vhart record write hart.img board.vhr pc=0x8000_0000 mtvec=0x8000_2001 x10=1
  vhart record show hart.img board.vhr
",
    does: Does::Runs(write),
};

fn write(arguments: &[OsString]) -> Outcome {
    let (name, board, given) = match arguments {
        [name, board, given @ ..] => (name, board, given),
        [_] => return Err(Stop::Usage("BOARD isn't given".into())),
        [] => return Err(Stop::Usage("FILE and BOARD aren't given".into())),
    };
    if let Some(word) = [name, board].into_iter().find(|name| words::is_word(name)) {
        return Err(file::no_file(word, "FILE and BOARD come first"));
    }
    file::check_writable(name)?;
    let given = words::parse(given).map_err(Stop::Usage)?;
    let settings = settings::load(board)?;
    let caps = settings.caps();
    let refuse = |number, text| Stop::refused(name, number, text);

    let pc = given.iter().find(|(place, _)| *place == Word::Pc as usize);
    let pc = pc.map_or(0, |(_, pc)| *pc);
    let fresh = |pc| Hart::fresh(caps, pc).map_err(|why| refuse(why.number(), why.to_string()));
    let hart = words::with(&fresh(pc)?, &given);
    hart.check(caps)
        .map_err(|fault| refuse(fault.refusal.number(), fault.to_string()))?;
    file::replace(name, hart.as_bytes())?;
    Ok(describe::report(name, "written", &hart, &fresh(0)?))
}
