//! What the original does with input that the library refuses: rows of docs/DIFFERENCES.md, made by
//! asking both.
use std::collections::BTreeMap;

use library::LIBRARY;
use original::arch::Csr;
use original::machine::Stopped;
use peers::image::{changed, hart};
use peers::interface::{args, Args, Entry};
use peers::rules::{misa, mode};

use crate::call::{word_name, Call};

/// The record before a call: fresh at 0x80000000, mtvec 0x80002001, x5 0x55, and these words.
type Words = &'static [(usize, u64)];

const IN_U: Words = &[(hart::MODE, mode::U)];
const IN_S: Words = &[(hart::MODE, mode::S)];
const IN_U_MPP_M: Words = &[(hart::MODE, mode::U), (hart::MSTATUS, 0xA_0000_1800)];
const MPP_2: Words = &[(hart::MSTATUS, 0xA_0000_1000)];
const MPP_S: Words = &[(hart::MSTATUS, 0x2_0000_0800)];
const SPP_S: Words = &[(hart::MSTATUS, 0x2_0000_0100)];
const FS_3: u64 = 0x8000_0002_0000_6000;

struct Case {
    what: &'static str,
    has_s: bool,
    words: Words,
    entry: Entry,
    args: Args,
}

const fn with_s(what: &'static str, words: Words, entry: Entry, args: Args) -> Case {
    Case {
        what,
        has_s: true,
        words,
        entry,
        args,
    }
}

const fn without_s(what: &'static str, words: Words, entry: Entry, args: Args) -> Case {
    Case {
        what,
        has_s: false,
        words,
        entry,
        args,
    }
}

const INJECT: Entry = Entry::Inject;
const TRAP: Entry = Entry::Trap;

const CASES: [Case; 21] = [
    with_s(
        "firmware trap, mcause 0x8000000000000007",
        &[],
        TRAP,
        args([1 << 63 | 7]),
    ),
    with_s("firmware trap, mepc 1", &[], TRAP, args([2, 0, 1])),
    with_s("firmware trap, mip 1", &[], TRAP, args([2, 0, 0, 1])),
    with_s("firmware trap from U, mstatus 0", IN_U, TRAP, args([2])),
    with_s(
        "firmware trap from U, MPP S",
        IN_U,
        TRAP,
        args([2, 0, 0, 0, 0xA_0000_0800]),
    ),
    without_s(
        "firmware trap from U with neither S nor F, FS 3",
        IN_U,
        TRAP,
        args([2, 0, 0, 0, FS_3]),
    ),
    with_s("inject 64", &[], INJECT, args([64])),
    with_s(
        "inject 2, which is no interrupt of the hart",
        &[],
        INJECT,
        args([2]),
    ),
    with_s(
        "inject 0x8000000000000007",
        &[],
        INJECT,
        args([1 << 63 | 7]),
    ),
    with_s("mret in S", IN_S, Entry::Mret, args([])),
    with_s("mret in U, MPP M", IN_U_MPP_M, Entry::Mret, args([])),
    with_s("sret in S", IN_S, Entry::Sret, args([])),
    without_s("sret without S", &[], Entry::Sret, args([])),
    with_s(
        "csrrw x6, mscratch, x5 in U",
        IN_U,
        Entry::Csrrw,
        args([0x340, 6, 5]),
    ),
    with_s(
        "csrrw x6, pmpcfg0, x5",
        &[],
        Entry::Csrrw,
        args([0x3A0, 6, 5]),
    ),
    with_s(
        "csrrw x6, tdata1, x5",
        &[],
        Entry::Csrrw,
        args([0x7A1, 6, 5]),
    ),
    with_s(
        "csrrw x6, mcontext, x5",
        &[],
        Entry::Csrrw,
        args([0x7A8, 6, 5]),
    ),
    with_s(
        "mret, MPP 2: not a legal record",
        MPP_2,
        Entry::Mret,
        args([]),
    ),
    without_s(
        "mret without S, MPP S: not a legal record",
        MPP_S,
        Entry::Mret,
        args([]),
    ),
    without_s(
        "sret without S, SPP S: not a legal record",
        SPP_S,
        Entry::Sret,
        args([]),
    ),
    without_s(
        "mret with neither S nor F, FS 3: not a legal record",
        &[(hart::MSTATUS, FS_3)],
        Entry::Mret,
        args([]),
    ),
];

/// The CSRs for which csr.rs has `todo!()`. Its decoder keeps instructions away from them.
const UNWRITTEN: [(u64, Csr); 8] = [
    (0x7A1, Csr::Tdata1),
    (0x7A2, Csr::Tdata2),
    (0x7A3, Csr::Tdata3),
    (0x7A8, Csr::Mcontext),
    (0x7B0, Csr::Dcsr),
    (0x7B1, Csr::Dpc),
    (0x7B2, Csr::Dscratch0),
    (0x7B3, Csr::Dscratch1),
];

/// A row for each: what it is, what the library gives, what the original does.
pub fn rows() -> impl Iterator<Item = String> {
    let cases = CASES.iter().map(|case| {
        let call = case.call();
        let refusal = call.by(&LIBRARY).outcome.refusal;
        format!("| {} | refusal {refusal} | {} |", case.what, told(&call))
    });
    let mut unwritten: BTreeMap<(u64, String), Vec<String>> = BTreeMap::new();
    for (address, csr) in UNWRITTEN {
        let mut call = CASES[0].call();
        (call.entry, call.args) = (Entry::Read, args([address]));
        let refusal = call.by(&LIBRARY).outcome.refusal;
        let told = why(call.machine().reads(csr));
        unwritten
            .entry((refusal, told))
            .or_default()
            .push(format!("{address:X}"));
    }
    let unwritten = unwritten.into_iter().map(|((refusal, told), addresses)| {
        format!(
            "| a read of {} past the decoder | refusal {refusal} | {told} |",
            addresses.join(", ")
        )
    });
    cases.chain(unwritten)
}

impl Case {
    fn call(&self) -> Call {
        let letters = if self.has_s { misa::S } else { 0 };
        let mut call = Call::on_fresh(letters, 0, self.entry, self.args);
        call.hart[hart::MTVEC] = 0x8000_2001;
        call.hart[5] = 0x55;
        for &(word, value) in self.words {
            call.hart[word] = value;
        }
        call
    }
}

/// What the original does: the words that it changes, or why it stops.
fn told(call: &Call) -> String {
    match call.by_original(&mut call.machine()) {
        Ok(made) => {
            let changed = changed(&call.hart, &made.hart);
            let changed = changed.map(|word| format!("{}={:#x}", word_name(word), made.hart[word]));
            let changed: Vec<String> = changed.collect();
            format!(
                "done: {}",
                if changed.is_empty() {
                    "no word changes".into()
                } else {
                    changed.join(" ")
                }
            )
        }
        Err(stopped) => why(Some(stopped)),
    }
}

fn why(stopped: Option<Stopped>) -> String {
    match stopped {
        None => "done".into(),
        Some(Stopped::NoCsr) => "its decoder knows no such CSR".into(),
        Some(Stopped::Panic(text)) => format!("stops: {}", text.lines().next().unwrap_or("")),
    }
}
