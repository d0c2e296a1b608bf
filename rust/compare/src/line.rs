//! What the two show of the interrupt controller's line while it is up: rows of
//! docs/DIFFERENCES.md, made by asking both.
use library::LIBRARY;
use peers::csr;
use peers::image::hart;
use peers::interface::{args, Args, Entry};
use peers::outcome::effect;
use peers::rules::interrupts::{SEI, SSI};
use peers::rules::misa::S;
use Entry::{Csrrc, Csrrs, Read};

use crate::call::{Call, Made};

const UP: u64 = 1;
const OF_MIP: Args = args([csr::MIP, 0, 0, UP]);
const OF_SIP: Args = args([csr::SIP, 0, 0, UP]);
/// rd x6, rs1 x5.
const ON_MIP: Args = args([csr::MIP, 6, 5, 0, 0, UP]);

/// The call, the hart's letters, what mip and x5 hold, the entry and its numbers.
const CASES: [(&str, u64, u64, u64, Entry, Args); 7] = [
    ("a read of mip", S, 0, 0, Read, OF_MIP),
    ("a read of sip", S, 0, 0, Read, OF_SIP),
    ("a read of mip", S, SEI, 0, Read, OF_MIP),
    ("a read of mip, no S", 0, 0, 0, Read, OF_MIP),
    ("csrrs x6, mip, x5 with 0x2", S, 0, SSI, Csrrs, ON_MIP),
    ("csrrc x6, mip, x5 with 0x200", S, SEI, SEI, Csrrc, ON_MIP),
    ("csrrc x6, mip, x5 with 0x200", S, 0, SEI, Csrrc, ON_MIP),
];

/// A row for each: the call, mip before it, what comes of it in the library and in the original.
pub fn rows() -> impl Iterator<Item = String> {
    CASES
        .iter()
        .map(|&(what, letters, mip, x5, entry, numbers)| {
            let mut call = Call::on_fresh(letters, 0, entry, numbers);
            (call.hart[hart::MIP], call.hart[5]) = (mip, x5);
            let library = told(&call.by(&LIBRARY));
            let original = match call.by_original(&mut call.machine()) {
                Ok(made) => told(&made),
                Err(stopped) => format!("{stopped:?}"),
            };
            format!("| {what} | {mip:#x} | {library} | {original} |")
        })
}

/// The answer, and mip and the effect after it.
fn told(made: &Made) -> String {
    let effect = match made.outcome.effect {
        effect::NONE => "",
        effect::SET => ", set",
        _ => ", clear",
    };
    let (answer, mip) = (made.outcome.answer, made.hart[hart::MIP]);
    format!("answer {answer:#x}, mip {mip:#x}{effect}")
}
