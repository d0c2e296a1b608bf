//! What mstatus makes of FS and VS on harts with and without the units: rows of
//! docs/DIFFERENCES.md, made by asking both.
use library::LIBRARY;
use peers::csr;
use peers::image::hart;
use peers::interface::{args, Entry};
use peers::rules::{flags, misa, mstatus};

use crate::call::Call;

const BOTH: u64 = mstatus::FS | mstatus::VS;

/// What the hart has, as letters and flags, and what mstatus takes.
const CASES: [(&str, u64, u64, u64); 7] = [
    ("neither S nor F", 0, 0, mstatus::FS),
    ("F, not S", misa::F, 0, mstatus::FS),
    ("neither S nor V", 0, 0, mstatus::VS),
    ("V, not S", misa::V, 0, mstatus::VS),
    ("Zfinx, neither S nor V", 0, flags::ZFINX, BOTH),
    ("S, neither F nor V", misa::S, 0, BOTH),
    ("S and Zfinx", misa::S, flags::ZFINX, BOTH),
];

/// A row for each: the hart, the value, what the library stores, what the original does.
pub fn rows() -> impl Iterator<Item = String> {
    CASES.iter().map(|&(has, letters, flags, value)| {
        let call = Call::on_fresh(letters, flags, Entry::Write, args([csr::MSTATUS, value]));
        let library = call.by(&LIBRARY).hart[hart::MSTATUS];
        let original = match call.by_original(&mut call.machine()) {
            Ok(made) => format!("{:#x}", made.hart[hart::MSTATUS]),
            Err(stopped) => format!("{stopped:?}"),
        };
        format!("| {has} | {value:#x} | {library:#x} | {original} |")
    })
}
