//! Which CSR instructions the original's decoder takes, beside those that the library does: every
//! address, on harts of several kinds.
use std::collections::BTreeMap;
use std::fmt::{self, Display, Formatter};

use library::LIBRARY;
use peers::arguments::Instruction;
use peers::csr;
use peers::image::{caps, hart, HART_WORDS};
use peers::inputs::{legal_caps, Rng};
use peers::interface::{args, Entry};
use peers::rules::{envcfg, flags};

use crate::call::Call;

const INSTRUCTIONS: [(Entry, u32); 6] = [
    (Entry::Csrrw, 1),
    (Entry::Csrrs, 2),
    (Entry::Csrrc, 3),
    (Entry::Csrrwi, 5),
    (Entry::Csrrsi, 6),
    (Entry::Csrrci, 7),
];

const SYSTEM: u32 = 0x73;

/// x0 or the immediate 0, with which csrrs, csrrc, csrrsi and csrrci don't write; and another.
const FIELDS: [u64; 2] = [0, 6];

/// The addresses of PMP, which docs/RULES.md leaves out.
const PMP: std::ops::RangeInclusive<u64> = 0x3A0..=0x3EF;

#[derive(Clone, Copy, PartialEq, Eq, PartialOrd, Ord)]
pub enum Kind {
    /// The library ignores a write to a read-only CSR, and the decoder refuses the instruction.
    ReadOnly,
    /// The decoder knows stimecmp only where menvcfg enables Sstc.
    Stimecmp,
    /// The decoder knows PMP, which docs/RULES.md leaves out.
    LeftOut,
    /// None of these.
    Unlisted,
}

pub struct Dispatch {
    instructions: u64,
    kinds: BTreeMap<Kind, (u64, Call)>,
}

impl Dispatch {
    pub fn compare() -> Dispatch {
        let mut dispatch = Dispatch {
            instructions: 0,
            kinds: BTreeMap::new(),
        };
        for record in records() {
            let machine = record.machine();
            for address in 0..0x1000 {
                for (entry, func3) in INSTRUCTIONS {
                    for field in FIELDS {
                        let mut call = record;
                        call.entry = entry;
                        call.args = args([address, 5, field]);
                        let word = (address as u32) << 20
                            | (field as u32) << 15
                            | func3 << 12
                            | 5 << 7
                            | SYSTEM;
                        let is_done = call.by(&LIBRARY).outcome.refusal == 0;
                        dispatch.count(call, is_done, machine.decodes(word));
                    }
                }
            }
        }
        dispatch
    }

    fn count(&mut self, call: Call, is_done: bool, decodes: bool) {
        self.instructions += 1;
        if is_done != decodes {
            let (calls, _) = self.kinds.entry(kind(&call, is_done)).or_insert((0, call));
            *calls += 1;
        }
    }

    /// The verdict: what is wrong, if anything is.
    pub fn faults(&self) -> Option<String> {
        let is_wrong = self.kinds.contains_key(&Kind::Unlisted);
        is_wrong.then(|| "the decoder and the library differ where it isn't listed".into())
    }
}

/// Fresh records with and without S and Sstc, with Sstc enabled and not.
fn records() -> impl Iterator<Item = Call> {
    [
        (true, true, true),
        (true, true, false),
        (true, false, false),
        (false, false, false),
    ]
    .into_iter()
    .map(|(s, sstc, enabled)| {
        let mut caps = legal_caps(&mut Rng::new(0), s);
        caps[caps::FLAGS] = if sstc { flags::SSTC } else { 0 };
        let mut call = Call {
            caps,
            hart: [0; HART_WORDS],
            entry: Entry::Fresh,
            args: args([]),
        };
        call.hart = call.by(&LIBRARY).hart;
        call.hart[hart::MENVCFG] = if enabled { envcfg::STCE } else { 0 };
        call
    })
}

fn kind(call: &Call, is_done: bool) -> Kind {
    let [address, rd, field, ..] = call.args;
    let entry = call.entry;
    let writes = Instruction {
        entry,
        address,
        rd,
        field,
    }
    .writes();
    let is_enabled = call.hart[hart::MENVCFG] & envcfg::STCE != 0;
    match is_done {
        true if address >> 10 == 3 && writes => Kind::ReadOnly,
        true if address == csr::STIMECMP && !is_enabled => Kind::Stimecmp,
        false if PMP.contains(&address) => Kind::LeftOut,
        _ => Kind::Unlisted,
    }
}

impl Display for Kind {
    fn fmt(&self, f: &mut Formatter) -> fmt::Result {
        f.write_str(match self {
            Kind::ReadOnly => "listed: done, and the decoder refuses a write to a read-only CSR",
            Kind::Stimecmp => {
                "listed: done, and the decoder hides stimecmp until menvcfg enables Sstc"
            }
            Kind::LeftOut => "listed: refused, and the decoder knows PMP",
            Kind::Unlisted => "not listed: one of the two takes it, and the other doesn't",
        })
    }
}

impl Display for Dispatch {
    fn fmt(&self, f: &mut Formatter) -> fmt::Result {
        writeln!(
            f,
            "\n{} instructions put to the original's decoder",
            self.instructions
        )?;
        for (kind, (calls, first)) in &self.kinds {
            writeln!(
                f,
                "\n{kind}, in {calls} instructions, as\n  {} {:#x} {:#x} {:#x}",
                first.entry.name(),
                first.args[0],
                first.args[1],
                first.args[2]
            )?;
        }
        Ok(())
    }
}
