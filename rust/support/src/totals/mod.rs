//! `vhart totals`: how many bits the writes of a file lose, by reason, and those of all files of a
//! month.

mod count;
mod describe;
mod entries;
mod lines;
mod state;

use std::ffi::{OsStr, OsString};

use vhart::{Refusal, Totals};

use count::Count;
use describe::Run;
use entries::Entries;

use crate::arguments::{self, shown};
use crate::command::{Command, Does, Naming};
use crate::file;
use crate::log;
use crate::outcome::{Line, Outcome, Stop};
use crate::progress::Progress;
use crate::prose::{counted, not_given};
use crate::{record, settings};

pub const TOTALS: Command = Command {
    name: "totals",
    takes: "BOARD RECORD WRITES [--state FILE]\n       vhart totals --state FILE",
    about: "Count the bits that many writes lose, by reason, also over a month.",
    help: "\
BOARD is the settings file of the board, from `vhart settings write`. RECORD is the hart image
before the first write, 480 bytes: a monitor puts it into a file, or `vhart record write` makes one.
WRITES has the writes. With - as one of the three, standard input is read. None of them is changed.

WRITES is text or a log. In text a line is a write: REGISTER VALUE, as `vhart explain` takes them.
Empty lines are left out, and so is all from a # on. A log has entries of 24 bytes, each three words
of 64 bits, little-endian. A NUL byte in the first 65536 bytes tells that it is one. The words:
  0  ADDRESS  0      a read of the register
  1  ADDRESS  VALUE  a write
  2  NUMBER   0      an interrupt is injected
  3  0        0      mret
  4  0        0      sret

Each write is explained on the record as the entries before it left it, with time and seed 0. Then
it is made. The other entries of a log are made too, and not counted. What the library refuses, and
entries of a log that aren't as above, change nothing. They are counted apart, and the rest goes on.
But if a line of text can't be read, or a log ends in the middle of an entry, nothing is counted,
and the exit status is 1.

The reasons have the numbers of `vhart explain`. Shares are of all lost bits, and those of reasons
that aren't listed are 0. Lossless writes are those that lost no bit.

With --state the totals go on from those of FILE, or from 0 if there is no such file. At the end
FILE is replaced whole, if the exit status is 0. Otherwise it is as it was, and nothing of WRITES is
in it; but if standard output alone can't be written, FILE is already replaced. Count each file of
writes once. A FILE that isn't as this program writes it is refused, with status 1. So is a write by
which a total would pass 4294967295, as refusal 16: a new FILE begins a new month. --state FILE
alone prints its totals, or with - those on standard input, and changes nothing.

Example:
  vhart settings write board.vhr misa=rv64imacsu interrupts=ssi,msi,sti,mti,sei,mei highest=max
  vhart record write hart.img board.vhr
  printf 'mtvec 0x8000_2001\\nmstatus 0x1000 # MPP=2\\n' >writes.txt
  vhart totals board.vhr hart.img writes.txt --state month.txt
  vhart totals --state month.txt
",
    does: Does::Keeps(&STATE, totals),
};

const STATE: Naming = Naming {
    option: arguments::STATE,
    about: "begin with the totals of FILE, if it is there, and replace it by the new ones",
};

const NEEDED: [&str; 3] = ["BOARD", "RECORD", "WRITES"];

fn totals(arguments: &[OsString], state: Option<&OsStr>) -> Outcome {
    match (arguments, state) {
        ([], Some(state)) => show(state),
        ([board, record, writes], _) => count(board, record, writes, state),
        ([_, _, _, more, ..], _) => Err(Stop::Usage(format!(
            "{}: one file of writes is counted at a time",
            shown(more)
        ))),
        (given, _) => Err(Stop::Usage(not_given(&NEEDED[given.len()..]))),
    }
}

fn show(state: &OsStr) -> Outcome {
    let totals = state::load(state)?;
    let head = Line::head(state, &counted(totals.writes.into(), "write"));
    Ok(describe::report(head, &totals, None))
}

fn count(board: &OsString, record: &OsString, writes: &OsString, state: Option<&OsStr>) -> Outcome {
    file::check_standard(&[board, record, writes])?;
    state.map_or(Ok(()), file::check_writable)?;
    let settings = settings::load(board)?;
    let hart = record::load(record, settings.caps())?;
    let before = state.map(begin).transpose()?.flatten();
    let started = before.unwrap_or_default();

    let mut entries = Entries::open(writes)?;
    let form = entries.form;
    let mut count = Count::new(settings.caps(), hart, started);
    let mut progress = Progress::new(format!("{}: {}", shown(writes), form.noun()));
    while let Some(found) = entries.next()? {
        let taken = count.take(found.place, found.entry);
        taken.map_err(|why| full(writes, &form.place(found.place), why, state))?;
        progress.at(found.place);
    }
    drop(progress);

    let (totals, refused) = (count.totals, &count.refused);
    let more = counted((totals.writes - started.writes).into(), "write");
    let head = match state {
        Some(state) => {
            state::save(state, before, &totals)?;
            let text = format!("written, {more} of {} added", shown(writes));
            Line::head(state, &text)
        }
        None => Line::head(writes, &format!("counted, {more}")),
    };
    Ok(describe::report(head, &totals, Some(Run { refused, form })))
}

/// The totals of a state file that is to be replaced, if it is there.
fn begin(state: &OsStr) -> Result<Option<Totals>, Stop> {
    let before = state::load_if_there(state)?;
    file::check_replaceable(state)?;
    Ok(before)
}

/// A total would pass its limit: at which place, and what to do.
fn full(writes: &OsStr, place: &str, why: Refusal, state: Option<&OsStr>) -> Stop {
    let (about, fact) = log::named(why);
    let then = match state {
        Some(state) => format!("{} stays as it was", shown(state)),
        None => "these are too many writes for one month".into(),
    };
    let text = format!(
        "{place}: {about}: {fact}; nothing of this file is counted, and {then}; a new state file \
         begins a new month"
    );
    Stop::refused(writes, why.number(), text)
}
