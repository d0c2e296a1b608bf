//! The contract with both images parsed into structs, the step done there, and the whole record
//! stored back.
//!
//! What the contract is, others ask here: which images are legal, which refusals a call can give,
//! what it does.
mod access;
mod caps;
mod explain;
mod hart;
mod instruction;
mod replay;
mod settings;
mod tally;
mod trap;

pub use caps::{legal_caps, Caps};
pub use hart::legal_hart;
pub use replay::{walk, Logged, ENTRY_BYTES, WAIT_BYTES};
pub use settings::{head as settings_head, HEAD_BYTES, SETTINGS_BYTES};

use explain::Write;
use hart::Hart;

use crate::arguments::{instructions, Host, Instruction, TrapInfo};
use crate::image::{caps_image, hart_image, hart_image_mut, HartWords, CAPS_WORDS, HART_WORDS};
use crate::interface::Entry;
use crate::outcome::{
    done, effect, refused, Fault, Listing, Outcome, Refusal, Settings, Totals, LEGAL,
};

/// Its functions for C.
pub mod c {
    entries::define!(
        #[inline(never)]
        crate::whole
    );
}

/// The refusals that an entry can give.
pub const fn refusals(entry: Entry) -> &'static [Refusal] {
    use Refusal::*;
    match entry {
        Entry::Read | Entry::PlainRead => &[BadCaps, BadHart, NoSuchCsr, CsrAbsent, BadLine],
        Entry::Write | Entry::PlainWrite => &[BadCaps, BadHart, NoSuchCsr, CsrAbsent],
        Entry::Csrrw
        | Entry::Csrrs
        | Entry::Csrrc
        | Entry::Csrrwi
        | Entry::Csrrsi
        | Entry::Csrrci => &[
            BadCaps, BadHart, NoSuchCsr, CsrAbsent, BadOperand, NotMachine, BadLine,
        ],
        Entry::Pending => &[BadCaps, BadHart],
        Entry::Inject => &[BadCaps, BadHart, BadInterrupt],
        Entry::Trap => &[BadCaps, BadHart, NotException, BadTrap],
        Entry::Mret => &[BadCaps, BadHart, NotMachine],
        Entry::Sret => &[BadCaps, BadHart, NotMachine, NoSupervisor],
        Entry::Fresh => &[BadCaps, BadHart, BadStart],
    }
}

/// The two checks by their names, and the refusals that each can give.
pub const CHECKS: [(&str, &[Refusal]); 2] = [
    ("check_caps", &[Refusal::BadCaps]),
    ("check_hart", &[Refusal::BadCaps, Refusal::BadHart]),
];

/// The two entries for a settings file by their names, and the refusals that each can give.
pub const SETTINGS: [(&str, &[Refusal]); 2] = [
    (
        "settings_read",
        &[
            Refusal::BadLength,
            Refusal::BadMark,
            Refusal::UnknownVersion,
            Refusal::BadCaps,
        ],
    ),
    ("settings_write", &[Refusal::BadCaps, Refusal::BadLength]),
];

/// The refusals of explain.
pub const EXPLAIN: &[Refusal] = refusals(Entry::Write);

/// The refusals of tally.
pub const TALLY: &[Refusal] = &[
    Refusal::BadCaps,
    Refusal::BadHart,
    Refusal::NoSuchCsr,
    Refusal::CsrAbsent,
    Refusal::TotalFull,
];

/// The two entries for a call log by their names, and the refusals that each can give.
pub const LOGS: [(&str, &[Refusal]); 2] = [
    (
        "replay",
        &[Refusal::BadCaps, Refusal::BadHart, Refusal::ShortBuffer],
    ),
    (
        "replay_end",
        &[Refusal::BadCaps, Refusal::BadHart, Refusal::EntryWaits],
    ),
];

/// The refusals of an entry in a log, whose images are legal.
pub const LOGGED: &[Refusal] = &[
    Refusal::NoSuchCsr,
    Refusal::CsrAbsent,
    Refusal::NotMachine,
    Refusal::NoSupervisor,
    Refusal::BadInterrupt,
    Refusal::BadEntry,
];

/// Parses and tests the capabilities, and goes on with them.
#[inline(always)]
fn with_caps(caps: &[u8], then: impl FnOnce(&Caps) -> Result<Outcome, Refusal>) -> Outcome {
    let run = || {
        let mut caps = Caps::parse(caps_image(caps).ok_or(Refusal::BadCaps)?);
        if !caps.is_legal() {
            return Err(Refusal::BadCaps);
        }
        then(&caps)
    };
    run().unwrap_or_else(refused)
}

/// A step that only reads the record.
#[inline(always)]
fn ask(
    caps: &[u8],
    hart: &[u8],
    question: impl FnOnce(&Caps, &Hart) -> Result<u64, Refusal>,
) -> Outcome {
    with_caps(caps, |caps| {
        let mut record = Hart::parse(hart_image(hart).ok_or(Refusal::BadHart)?);
        record.check(caps)?;
        Ok(done(question(caps, &record)?, effect::NONE))
    })
}

/// A step that changes the record, which is stored if the step is done.
#[inline(always)]
fn change(
    caps: &[u8],
    hart: &mut [u8],
    step: impl FnOnce(&Caps, &mut Hart) -> Result<Outcome, Refusal>,
) -> Outcome {
    with_caps(caps, |caps| {
        let hart = hart_image_mut(hart).ok_or(Refusal::BadHart)?;
        let mut record = Hart::parse(hart);
        record.check(caps)?;
        let outcome = step(caps, &mut record)?;
        record.store(hart);
        Ok(outcome)
    })
}

/// A step that answers nothing.
#[inline(always)]
fn answerless(step: Result<(), Refusal>) -> Result<Outcome, Refusal> {
    step.map(|()| done(0, effect::NONE))
}

#[inline(always)]
pub fn read(caps: &[u8], hart: &[u8], address: u64, host: Host) -> Outcome {
    ask(caps, hart, |caps, hart| {
        access::check(caps, address)?;
        access::check_line(&host)?;
        Ok(access::read(caps, hart, &host, address))
    })
}

#[inline(always)]
pub fn write(caps: &[u8], hart: &mut [u8], address: u64, value: u64) -> Outcome {
    change(caps, hart, |caps, hart| {
        access::check(caps, address)?;
        Ok(done(0, access::write(caps, hart, address, value)))
    })
}

instructions!(|caps, hart, instruction, host| {
    change(caps, hart, |caps, hart| {
        instruction::emulate(&instruction, caps, hart, &host)
    })
});

/// The interrupts that this record has enabled, pending and not delegated; `None` where they are
/// held back.
pub fn ready(hart: &HartWords) -> Option<u64> {
    Hart::parse(&hart.map(u64::to_le_bytes)).ready()
}

#[inline(always)]
pub fn pending(caps: &[u8], hart: &[u8]) -> Outcome {
    ask(caps, hart, |_, hart| Ok(hart.pending()))
}

#[inline(always)]
pub fn inject(caps: &[u8], hart: &mut [u8], number: u64) -> Outcome {
    change(caps, hart, |caps, hart| {
        answerless(hart.inject(caps, number))
    })
}

#[inline(always)]
pub fn trap(caps: &[u8], hart: &mut [u8], trap: TrapInfo) -> Outcome {
    change(caps, hart, |caps, hart| answerless(hart.trap(caps, &trap)))
}

#[inline(always)]
pub fn mret(caps: &[u8], hart: &mut [u8]) -> Outcome {
    change(caps, hart, |_, hart| answerless(hart.mret()))
}

#[inline(always)]
pub fn sret(caps: &[u8], hart: &mut [u8]) -> Outcome {
    change(caps, hart, |caps, hart| answerless(hart.sret(caps)))
}

#[inline(always)]
pub fn fresh(caps: &[u8], hart: &mut [u8], pc: u64) -> Outcome {
    with_caps(caps, |caps| {
        let hart = hart_image_mut(hart).ok_or(Refusal::BadHart)?;
        if !caps.is_aligned(pc) {
            return Err(Refusal::BadStart);
        }
        Hart::fresh(caps, pc).store(hart);
        Ok(done(0, effect::NONE))
    })
}

/// The fault of an image, if a word of it isn't legal.
fn fault(refusal: Refusal, illegal: Option<(usize, u64)>) -> Fault {
    illegal.map_or(LEGAL, |(word, value)| Fault {
        refusal: refusal as u64,
        word: word as u64,
        value,
    })
}

#[inline(always)]
pub fn check_caps(caps: &[u8]) -> Fault {
    let illegal = match caps_image(caps) {
        Some(image) => Caps::parse(image).illegal_word(),
        None => Some((CAPS_WORDS, 0)),
    };
    fault(Refusal::BadCaps, illegal)
}

#[inline(always)]
pub fn check_hart(caps: &[u8], hart: &[u8]) -> Fault {
    let of_caps = check_caps(caps);
    let (LEGAL, Some(c)) = (of_caps, caps_image(caps)) else {
        return of_caps;
    };
    let illegal = match hart_image(hart) {
        Some(image) => Hart::parse(image).illegal_word(&Caps::parse(c)),
        None => Some((HART_WORDS, 0)),
    };
    fault(Refusal::BadHart, illegal)
}

#[inline(always)]
pub fn settings_read(file: &[u8]) -> Settings {
    let (refusal, words) = match settings::read(file) {
        Ok(words) => (0, words),
        Err(refusal) => (refusal as u64, [0; CAPS_WORDS]),
    };
    Settings { refusal, words }
}

#[inline(always)]
pub fn settings_write(caps: &[u8], file: &mut [u8]) -> Outcome {
    with_caps(caps, |_| answerless(settings::write(caps, file)))
}

/// The lost bits of a write, whatever the line.
pub fn explain(caps: &[u8], hart: &[u8], address: u64, value: u64, host: Host) -> Listing {
    let mut listing = explain::NOTHING;
    let outcome = ask(caps, hart, |caps, hart| {
        access::check(caps, address)?;
        let write = Write {
            hart,
            host,
            address,
            value,
        };
        listing = write.explain(caps);
        Ok(0)
    });
    Listing {
        refusal: outcome.refusal,
        ..listing
    }
}

/// Adds a write to the totals, by what explaining it gives.
pub fn tally(
    caps: &[u8],
    hart: &[u8],
    address: u64,
    value: u64,
    host: Host,
    totals: &mut Totals,
) -> Outcome {
    let listing = explain(caps, hart, address, value, host);
    match listing.refusal {
        0 => answerless(tally::add(totals, &listing)).unwrap_or_else(refused),
        refusal => Outcome {
            refusal,
            answer: 0,
            effect: effect::NONE,
        },
    }
}

/// Makes the calls of a log's fragment, each as the record is then.
pub fn replay(
    caps: &[u8],
    hart: &mut [u8],
    wait: &mut [u8],
    fragment: &[u8],
    out: &mut [u8],
) -> Outcome {
    change(caps, hart, |caps, hart| {
        walk(wait, fragment, out, |call| {
            make(caps, hart, call).unwrap_or_else(refused)
        })
    })
}

/// A call of a log on a legal record, which a refusal leaves.
fn make(caps: &Caps, hart: &mut Hart, call: Logged) -> Result<Outcome, Refusal> {
    match call {
        Logged::Read { address } => {
            access::check(caps, address)?;
            let read = access::read(caps, hart, &Host::default(), address);
            Ok(done(read, effect::NONE))
        }
        Logged::Write { address, value } => {
            access::check(caps, address)?;
            Ok(done(0, access::write(caps, hart, address, value)))
        }
        Logged::Inject { number } => answerless(hart.inject(caps, number)),
        Logged::Mret => answerless(hart.mret()),
        Logged::Sret => answerless(hart.sret(caps)),
    }
}

/// Says whether the log may end.
pub fn replay_end(caps: &[u8], hart: &[u8], wait: &[u8]) -> Outcome {
    ask(caps, hart, |_, _| replay::end(wait).map(|()| 0))
}
