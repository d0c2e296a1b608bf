//! What a call reaches: the stored vectors have a call for each of these.
use peers::arguments::Instruction;
use peers::csr;
use peers::image::{caps, hart, HART_WORDS};
use peers::interface::Entry;
use peers::rules::{envcfg, flags, interrupts, misa, mstatus};

use crate::call::{Call, Made};

/// The entry, its register if it takes one, what is looked at, and what it is.
pub type Feature = (&'static str, &'static str, &'static str, u64);

/// All that a call reaches, by what the original makes of it.
pub fn features(call: &Call, made: &Made) -> Vec<Feature> {
    let entry = call.entry.name();
    let register = call.csr().and_then(csr::name).unwrap_or("");
    let mut features: Vec<Feature> = Vec::new();
    let mut add = |what, value| features.push((entry, register, what, value));
    add("mode", call.hart[hart::MODE]);
    add("S", call.caps[caps::MISA] & misa::S);
    add("effect", made.outcome.effect);
    let Some(address) = call.csr() else {
        add("branch", branch_of_step(call, made));
        if call.entry == Entry::Trap {
            let (old, given, new) = (call.hart[hart::MIP], call.args[3], made.hart[hart::MIP]);
            (0..64).for_each(|bit| {
                add(
                    "bit of mip",
                    packed(&[bit, old >> bit & 1, given >> bit & 1, new >> bit & 1]),
                )
            });
        }
        return features;
    };
    add("address", address);
    let is_changed = made.hart[hart::PC..] != call.hart[hart::PC..];
    add("whether a CSR changes", is_changed.into());
    if let Some(value) = written(call, made) {
        add("branch", branch_of_write(call, address, value));
        if let (Entry::Write, Some(word)) = (call.entry, stored_in(address)) {
            if word == hart::MSTATUS {
                add("units", units(call, value));
            }
            let stored = made.hart[word];
            (0..64).for_each(|bit| {
                add(
                    "bit",
                    bit << 2 | (value >> bit & 1) << 1 | stored >> bit & 1,
                )
            });
        }
    }
    if !matches!(call.entry, Entry::Read | Entry::Write) {
        let [_, rd, field, ..] = call.args;
        add("x0", u64::from(rd == 0) << 1 | u64::from(field == 0));
        add("rd is rs1", (rd == field).into());
    }
    features
}

/// What the call writes to its CSR, if it does.
fn written(call: &Call, made: &Made) -> Option<u64> {
    let [address, rd, field, ..] = call.args;
    let instruction = Instruction {
        entry: call.entry,
        address,
        rd,
        field,
    };
    match call.entry {
        Entry::Read => None,
        Entry::Write => Some(call.args[1]),
        _ if !instruction.writes() => None,
        _ if instruction.is_immediate() => Some(instruction.written(made.outcome.answer, field)),
        _ => Some(instruction.written(made.outcome.answer, call.hart[field as usize])),
    }
}

/// The word that a CSR is stored in, if it is.
fn stored_in(address: u64) -> Option<usize> {
    match address {
        csr::SSTATUS => Some(hart::MSTATUS),
        csr::SIE => Some(hart::MIE),
        csr::SIP => Some(hart::MIP),
        _ => {
            let name = csr::name(address)?;
            (0..HART_WORDS).find(|&word| hart::name(word) == Some(name))
        }
    }
}

/// The case of its register's rule that a write is.
fn branch_of_write(call: &Call, address: u64, value: u64) -> u64 {
    let (has, old) = (&call.caps, &call.hart);
    match address {
        csr::MSTATUS | csr::SSTATUS => {
            let is_dirty = |field| u64::from(value & field == field);
            let fields = [
                value >> mstatus::MPP_SHIFT & 3,
                is_dirty(mstatus::FS),
                is_dirty(mstatus::VS),
            ];
            packed(&[has[caps::FLAGS] & 1, fields[0], fields[1], fields[2]])
        }
        csr::MIE | csr::SIE | csr::MIDELEG | csr::SIP => has[caps::INTERRUPTS] & interrupts::LCOFI,
        csr::MIP => packed(&[
            old[hart::MENVCFG] >> 63,
            old[hart::MIP] >> 9 & 1,
            value >> 9 & 1,
            value >> 5 & 1,
        ]),
        csr::MTVEC => packed(&[old[hart::MTVEC] & 3, value & 3]),
        csr::STVEC => packed(&[old[hart::STVEC] & 3, value & 3]),
        csr::MEPC | csr::SEPC => {
            let beside = value.cmp(&has[caps::HIGHEST]) as i8 + 1;
            packed(&[has[caps::MISA] >> 2 & 1, beside as u64, value & 3])
        }
        csr::SATP => value >> 60,
        csr::MENVCFG | csr::SENVCFG => {
            packed(&[has[caps::FLAGS] >> 1, (value & envcfg::CBIE) >> 4])
        }
        _ => 0,
    }
}

/// Which units the hart has, and whether a write of mstatus has something in their fields.
fn units(call: &Call, value: u64) -> u64 {
    let letter = |letter| u64::from(call.caps[caps::MISA] & letter != 0);
    let has = |field| u64::from(value & field != 0);
    packed(&[
        letter(misa::S),
        letter(misa::F),
        letter(misa::V),
        call.caps[caps::FLAGS] & flags::ZFINX,
        has(mstatus::FS),
        has(mstatus::VS),
    ])
}

/// The case of pending, an injection, a trap or a return that a call is.
fn branch_of_step(call: &Call, made: &Made) -> u64 {
    let old = &call.hart;
    let status = |bit: u32| old[hart::MSTATUS] >> bit & 1;
    let (sie, mie, spie, mpie, spp, mprv) = (
        status(1),
        status(3),
        status(5),
        status(7),
        status(8),
        status(17),
    );
    let mpp = old[hart::MSTATUS] >> mstatus::MPP_SHIFT & 3;
    let vectored = old[hart::MTVEC] & 1;
    let is_wrapped = u64::from(made.hart[hart::PC] < old[hart::MTVEC] & !3);
    match call.entry {
        Entry::Pending => packed(&[
            old[hart::MODE],
            old[hart::WAITING],
            mie,
            made.outcome.answer,
        ]),
        Entry::Inject => packed(&[old[hart::MODE], mie, vectored, is_wrapped, call.args[0]]),
        Entry::Trap => packed(&[old[hart::MODE], mie, vectored]),
        Entry::Mret => packed(&[mpp, mprv, mpie, mie]),
        Entry::Sret => packed(&[spp, mprv, spie, sie]),
        Entry::Fresh => packed(&[call.caps[caps::MISA] >> 2 & 1, call.args[0] & 3]),
        _ => 0,
    }
}

/// Small numbers as one.
fn packed(fields: &[u64]) -> u64 {
    fields.iter().fold(0, |all, field| all << 8 | field)
}
