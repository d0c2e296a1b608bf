//! What the monitor can't handle: it is printed with the record, and the machine powers off with a
//! status.

use core::sync::atomic::AtomicBool;
use core::sync::atomic::Ordering::Relaxed;

use vhart::{FaultWord, Refusal, Word, X};

use crate::counts::Entry;
use crate::monitor::Monitor;
use crate::virt::{self, say, Part};
use crate::{csrs, table};

pub enum Stop {
    /// A call was refused, and not for what the firmware did.
    Refused(Entry, Refusal),
    /// The settings file was refused.
    Settings(Refusal),
    /// The settings file is another board's: this is its misa.
    OtherBoard(u64),
    /// The monitor itself trapped.
    Trapped,
    /// Its code panicked.
    Panic,
}

impl Stop {
    /// The status that the machine ends with.
    pub fn status(&self) -> u32 {
        match self {
            Stop::Refused(..) => 2,
            Stop::Settings(_) | Stop::OtherBoard(_) => 3,
            Stop::Trapped => 4,
            Stop::Panic => 5,
        }
    }
}

pub fn say_why(why: &Stop) {
    use Part::{Hex, Text};
    let stopped = Text("[monitor] stopped: ");
    match why {
        Stop::Refused(entry, refusal) => say(&[
            stopped,
            Text(entry.name()),
            Text(" was refused with "),
            number(*refusal),
        ]),
        Stop::Settings(refusal) => say(&[
            stopped,
            Text("the settings file was refused with "),
            number(*refusal),
        ]),
        Stop::OtherBoard(misa) => say(&[
            stopped,
            Text("the settings file doesn't suit the board: its misa is 0x"),
            Hex(*misa),
        ]),
        Stop::Trapped => say(&[stopped, Text("the monitor itself trapped")]),
        Stop::Panic => say(&[stopped, Text("it panicked")]),
    }
}

/// If the monitor itself trapped, the registers in the record are its own.
pub fn stop(monitor: &Monitor, why: Stop) -> ! {
    static STOPPING: AtomicBool = AtomicBool::new(false);
    if STOPPING.load(Relaxed) {
        virt::power_off(why.status());
    }
    STOPPING.store(true, Relaxed);
    say_why(&why);
    say_board();
    say_record(monitor);
    table::print(&monitor.counts, &monitor.log);
    virt::power_off(why.status())
}

fn number(refusal: Refusal) -> Part<'static> {
    Part::Count(refusal.number().unwrap_or(0), 0)
}

fn say_board() {
    use vhart::Csr;
    for (name, csr) in [
        ("mcause", Csr::MCAUSE),
        ("mtval", Csr::MTVAL),
        ("mepc", Csr::MEPC),
        ("mstatus", Csr::MSTATUS),
    ] {
        say_word("the board's ", name, csrs::read(csr));
    }
}

fn say_record(monitor: &Monitor) {
    if let Err(fault) = monitor.hart.check(&monitor.caps) {
        if let FaultWord::Hart(word) = fault.word {
            say_word("not legal: ", word.name(), fault.value);
        }
    }
    for n in 1..32 {
        let (name, value) = (Part::Count(n, 0), Part::Hex(monitor.hart.x(X(n))));
        say(&[Part::Text("[monitor] x"), name, Part::Text(" 0x"), value]);
    }
    for word in Word::ALL {
        say_word("", word.name(), monitor.hart.get(word));
    }
}

fn say_word(whose: &str, name: &str, value: u64) {
    use Part::{Hex, Text};
    say(&[
        Text("[monitor] "),
        Text(whose),
        Text(name),
        Text(" 0x"),
        Hex(value),
    ]);
}
