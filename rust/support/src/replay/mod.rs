//! `vhart replay`: a call log in words, as it arrives, and the record that it leaves.

mod describe;

use std::ffi::{OsStr, OsString};
use std::io::ErrorKind;

use vhart::{Caps, Hart, Refusal, ENTRY_BYTES};

use describe::{Replayed, Whole};

use crate::arguments::{self, shown};
use crate::command::{Command, Does, Naming};
use crate::file;
use crate::log::{self, Refusals, Replay};
use crate::outcome::{Outcome, Report, Stop};
use crate::progress::Progress;
use crate::prose::not_given;
use crate::screen::Output;
use crate::{record, settings};

pub const REPLAY: Command = Command {
    name: "replay",
    takes: "BOARD RECORD LOG [--save FILE]",
    about: "Replay a call log: each entry in words, and the record at the end.",
    help: "\
BOARD is the settings file of the board, from `vhart settings write`. RECORD is the hart image
before the first entry, 480 bytes: a monitor puts it into a file, or `vhart record write` makes one.
LOG is the call log. With - as one of the three, standard input is read. None of them is changed.

A log has entries of 24 bytes, each three words of 64 bits, little-endian:
  0  ADDRESS  0      a read of the register
  1  ADDRESS  VALUE  a write
  2  NUMBER   0      an interrupt is injected
  3  0        0      mret
  4  0        0      sret

Each entry is made on the record as those before it left it, with time, seed and line 0. It is
printed as soon as it is whole, also while LOG still grows in a pipe: its number, the call, and the
value that is read or written, with the fields that aren't 0. Behind effect: stands what the host is
asked to do to SEIP of the board's mip. An entry that the library refuses is printed with the
refusal, and changes nothing. One that isn't as above has refusal 17, and is printed as three words.

At the end the entries are counted, and those refused by number, each with the first place. Then
comes the record: its words that aren't 0, and those by which `vhart record write` makes the same.
Refused entries are told, and the exit status stays 0. But a log that ends in the middle of an entry
has refusal 18, and the exit status is 1: the entries before it are made and printed.

With --save the record at the end is written to FILE, which may be RECORD, and is replaced whole, if
the exit status is 0. Otherwise it is as it was; but if all entries are printed, and then standard
output can't be written, FILE is already replaced.

With --json each entry has its number, its three words, the call (null with refusal 17), the
register (null if there is none), the answer (null if nothing is read), the effect (\"set SEIP\",
\"clear SEIP\" or null) and the refusal's number (null if it is done). The object for the whole has
the numbers of entries and of those done, the refused ones by number, how many bytes of an entry
wait for the rest of it, and the record.

Example:
  vhart settings write board.vhr misa=rv64imacsu interrupts=ssi,msi,sti,mti,sei,mei highest=max
  vhart record write hart.img board.vhr
  # an entry of 24 bytes, as a monitor logs it: 1, 0x340 and 5, a write of 5 to mscratch
  printf '\\1\\0\\0\\0\\0\\0\\0\\0\\100\\3\\0\\0\\0\\0\\0\\0\\5\\0\\0\\0\\0\\0\\0\\0' >calls.log
  vhart replay board.vhr hart.img calls.log --save after.img
  cat calls.log calls.log | vhart replay board.vhr hart.img -
",
    does: Does::Prints(&SAVE, replay),
};

const SAVE: Naming = Naming {
    option: arguments::SAVE,
    about: "write the record at the end to FILE, which is replaced whole",
};

const NEEDED: [&str; 3] = ["BOARD", "RECORD", "LOG"];

/// So much of a log is read at once, if there is as much.
const FRAGMENT: usize = 0x10000;

fn replay(arguments: &[OsString], save: Option<&OsStr>, output: &mut Output) -> Outcome {
    let (board, record, log) = match arguments {
        [board, record, log] => (board, record, log),
        [_, _, _, more, ..] => {
            let more = shown(more);
            return Err(Stop::Usage(format!(
                "{more}: one log is replayed at a time"
            )));
        }
        given => return Err(Stop::Usage(not_given(&NEEDED[given.len()..]))),
    };
    file::check_standard(&[board, record, log])?;
    save.map_or(Ok(()), file::check_writable)?;
    let settings = settings::load(board)?;
    let caps = settings.caps();
    let hart = record::load(record, caps)?;
    save.map_or(Ok(()), file::check_replaceable)?;

    let mut run = Run {
        replay: Replay::new(caps, hart),
        entries: 0,
        refused: Refusals::default(),
    };
    let mut input = file::open(log).map_err(|why| file::unreadable(log, &why))?;
    let mut progress = Progress::beside_output(format!("{}: entry", shown(log)));
    let mut fragment = vec![0; FRAGMENT];
    loop {
        let length = file::read_more(log, &mut input, &mut fragment)?;
        if length == 0 {
            break;
        }
        let taken = run.take(&fragment[..length], output);
        taken.map_err(|why| refused(log, why))?;
        output.flush();
        match output.wrong() {
            None => progress.now(run.entries),
            // Nobody reads on, but the record is wanted.
            Some(ErrorKind::BrokenPipe) if save.is_some() => {}
            Some(_) => return Ok(Report::default()),
        }
    }
    drop(progress);
    run.end(caps, log, save)
}

/// A log, as far as it has come.
struct Run<'a> {
    replay: Replay<'a>,
    entries: u64,
    refused: Refusals,
}

impl Run<'_> {
    /// Takes more of the log, and prints the entries that it completes.
    fn take(&mut self, fragment: &[u8], output: &mut Output) -> Result<(), Refusal> {
        let Run {
            replay,
            entries,
            refused,
        } = self;
        replay.take(fragment, |made| {
            *entries += 1;
            if let Err(why) = made.came {
                refused.note(*entries, why);
            }
            output.item(&Replayed {
                place: *entries,
                made,
            });
        })
    }

    /// What is told at the end of the log, where the record is saved.
    fn end(&self, caps: &Caps, log: &OsStr, save: Option<&OsStr>) -> Outcome {
        let fresh = Hart::fresh(caps, 0).map_err(|why| refused(log, why))?;
        let whole = Whole {
            log,
            entries: self.entries,
            refused: &self.refused,
            waiting: self.replay.waiting().len() as u64,
            hart: &self.replay.hart,
            fresh: &fresh,
        };
        if let Err(why) = self.replay.end() {
            return Err(self.cut(log, why).with(whole.report(None)));
        }
        if let Some(save) = save {
            file::replace(save, self.replay.hart.as_bytes())?;
        }
        Ok(whole.report(save))
    }

    /// Why a log can't end here.
    fn cut(&self, log: &OsStr, why: Refusal) -> Stop {
        let (about, fact) = log::named(why);
        let (place, waiting) = (self.entries + 1, self.replay.waiting().len());
        let text =
            format!("{about}: {fact}: {waiting} of {ENTRY_BYTES} bytes of entry {place} are there");
        Stop::refused(log, why.number(), text)
    }
}

fn refused(log: &OsStr, why: Refusal) -> Stop {
    Stop::refused(log, why.number(), why.to_string())
}
