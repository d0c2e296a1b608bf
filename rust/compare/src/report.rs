//! What was compared, and what was found: calls by entry and register, differences by kind.
use std::collections::BTreeMap;
use std::fmt::{self, Display, Formatter};

use peers::csr;
use peers::image::hart;
use peers::interface::Entry;
use peers::rules::mode;

use crate::call::{Call, Made};
use crate::difference::{Kind, LISTED};
use crate::smallest::smallest;
use crate::walk::{Origin, Watch};

/// The entries that take a CSR, as the table's columns, or the others, as its rows.
fn entries(take_csr: bool) -> impl Iterator<Item = Entry> {
    Entry::FAST
        .into_iter()
        .filter(move |entry| entry.takes_csr() == take_csr)
}

/// So many calls of a kind are made small, and the smallest of them is shown.
const ATTEMPTS: u64 = 50;

/// Progress is shown so often.
const STEP: u64 = 1_000_000;

pub struct Report {
    wanted: u64,
    /// Whether the first difference that isn't listed ends it.
    stops: bool,
    calls: u64,
    /// Of these, those that aren't part of a sequence.
    single: u64,
    by_csr: BTreeMap<(&'static str, &'static str), u64>,
    by_mode: BTreeMap<(&'static str, u64), u64>,
    differences: BTreeMap<Kind, Found>,
}

struct Found {
    calls: u64,
    smallest: Call,
}

impl Report {
    pub fn new(wanted: u64, stops: bool) -> Report {
        Report {
            wanted,
            stops,
            calls: 0,
            single: 0,
            by_csr: BTreeMap::new(),
            by_mode: BTreeMap::new(),
            differences: BTreeMap::new(),
        }
    }

    fn is_listed_only(&self) -> bool {
        self.differences.keys().all(|kind| kind.is_listed())
    }

    /// The verdict: what is wrong, if anything is.
    pub fn faults(&self) -> Option<String> {
        if !self.is_listed_only() {
            return Some(format!(
                "differences that aren't listed, after {} calls",
                self.calls
            ));
        }
        let unreached: Vec<String> = self.unreached().collect();
        (!unreached.is_empty()).then(|| format!("never seen: {}", unreached.join(", ")))
    }

    /// What each run must reach: each entry with each register, the others in each mode that they
    /// are accepted in, and each listed difference.
    fn unreached(&self) -> impl Iterator<Item = String> + '_ {
        let csrs = entries(true).flat_map(|entry| names().map(move |name| (entry.name(), name)));
        let csrs = csrs.filter(|key| !self.by_csr.contains_key(key));
        let modes = entries(false)
            .flat_map(|entry| modes(entry).iter().map(move |&mode| (entry.name(), mode)));
        let modes = modes.filter(|key| !self.by_mode.contains_key(key));
        let listed = LISTED.iter().enumerate();
        let listed = listed.filter(|&(n, _)| !self.differences.contains_key(&Kind::Listed(n)));
        csrs.map(|(entry, name)| format!("{entry} {name}"))
            .chain(modes.map(|(entry, mode)| format!("{entry} in mode {mode}")))
            .chain(listed.map(|(_, listed)| listed.name()))
    }
}

/// The registers' names, each once.
fn names() -> impl Iterator<Item = &'static str> {
    let runs = csr::RUNS.iter().map(|run| *run.start());
    csr::SINGLE
        .iter()
        .copied()
        .chain(runs)
        .filter_map(csr::name)
}

/// The modes that an entry is accepted in. A fresh record is counted by the mode that it has.
fn modes(entry: Entry) -> &'static [u64] {
    match entry {
        Entry::Fresh | Entry::Mret | Entry::Sret => &[mode::M],
        _ => &[mode::U, mode::S, mode::M],
    }
}

impl Watch for Report {
    fn seen(&mut self, call: &Call, origin: Origin, made: &Made, kinds: &[Kind]) -> bool {
        self.calls += 1;
        self.single += u64::from(origin == Origin::Single);
        let entry = call.entry.name();
        match call.csr().and_then(csr::name) {
            Some(name) => *self.by_csr.entry((entry, name)).or_default() += 1,
            None => {
                let record = if call.entry == Entry::Fresh {
                    made.hart
                } else {
                    call.hart
                };
                *self.by_mode.entry((entry, record[hart::MODE])).or_default() += 1;
            }
        }
        for &kind in kinds {
            let found = self.differences.entry(kind).or_insert(Found {
                calls: 0,
                smallest: *call,
            });
            found.calls += 1;
            if found.calls <= ATTEMPTS {
                let smallest = smallest(*call, kind);
                if smallest.bits() < found.smallest.bits() {
                    found.smallest = smallest;
                }
            }
        }
        if self.calls.is_multiple_of(STEP) {
            eprintln!("{} of {} calls compared", self.calls, self.wanted);
        }
        self.calls < self.wanted && (!self.stops || self.is_listed_only())
    }
}

impl Display for Report {
    fn fmt(&self, f: &mut Formatter) -> fmt::Result {
        write!(f, "{:13}", "calls")?;
        for entry in entries(true) {
            write!(f, " {:>8}", entry.name())?;
        }
        for name in names() {
            write!(f, "\n{name:13}")?;
            for entry in entries(true) {
                let calls = self.by_csr.get(&(entry.name(), name));
                write!(f, " {:8}", calls.unwrap_or(&0))?;
            }
        }
        writeln!(
            f,
            "\n\n{:13} {:>8} {:>8} {:>8}",
            "calls in mode", "U", "S", "M"
        )?;
        for entry in entries(false) {
            write!(f, "{:13}", entry.name())?;
            for mode in [mode::U, mode::S, mode::M] {
                let calls = self.by_mode.get(&(entry.name(), mode));
                write!(f, " {:8}", calls.unwrap_or(&0))?;
            }
            writeln!(f)?;
        }
        let in_sequences = self.calls - self.single;
        writeln!(
            f,
            "\n{} calls compared, {} single and {in_sequences} in sequences from fresh records",
            self.calls, self.single
        )?;
        for (kind, found) in &self.differences {
            writeln!(
                f,
                "\n{kind} in {} calls, as\n  {}",
                found.calls, found.smallest
            )?;
        }
        Ok(())
    }
}
