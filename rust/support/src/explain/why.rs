//! Why a bit is lost and what to do, in sentences. The reason is the library's, and so is what a
//! field takes and what the board lacks; the sentences are ours.

use vhart::{misa, Csr, Reason};

use super::boards;
use super::case::{bit_of, mask, Case, Stored};
use crate::fields::{self, Field};
use crate::prose::{capital, listed};
use crate::register;

/// The sentences for a lost bit.
pub fn sentence(case: &Case, stored: &Stored, bit: u8, reason: Reason) -> String {
    let field = fields::at(case.csr, bit.into());
    let name = field.as_ref().map_or("", |field| &field.name);
    match (reason, name, field.as_ref()) {
        (Reason::ReadOnly, ..) => read_only(case.csr),
        (Reason::NeverCopied, ..) => never_copied(case, name, bit),
        (Reason::OtherExtensions | Reason::Forced, "SD", _) => sd(case, stored),
        (Reason::OtherExtensions | Reason::Forced, "SXL", _) => sxl(case),
        (Reason::OtherExtensions, ..) => other_board(case, bit),
        (Reason::Reserved, _, Some(field)) => reserved(case, stored, field),
        (Reason::Forced, "UXL", _) => {
            "UXL always holds 2, since mode U has registers of 64 bits. Expect 2 there.".into()
        }
        (Reason::Forced, ..) if case.csr == Csr::MIDELEG => {
            "A hart with S always delegates SSI, STI and SEI to mode S. Expect 1 there.".into()
        }
        (Reason::Ignored, ..) => ignored(case),
        (Reason::Driven, ..) => {
            "STCE (bit 63 of menvcfg) is 1, so stimecmp drives STIP. Write stimecmp instead, or clear STCE first."
                .into()
        }
        _ => format!("{}.", capital(&reason.to_string())),
    }
}

fn read_only(csr: Csr) -> String {
    let rest = match csr {
        Csr::MISA
        | Csr::MVENDORID
        | Csr::MARCHID
        | Csr::MIMPID
        | Csr::MHARTID
        | Csr::MCONFIGPTR => {
            format!("it reads what the board's settings say. Drop the write, or write them anew with another {csr}=.")
        }
        Csr::CYCLE => "it reads mcycle. Write mcycle instead.".into(),
        Csr::INSTRET => "it reads minstret. Write minstret instead.".into(),
        Csr::TIME => "it reads the time that the monitor hands in. Drop the write.".into(),
        // An access to seed must write.
        Csr::SEED => {
            "it reads the seed that the monitor hands in. There is nothing to mend.".into()
        }
        _ if csr == Csr::SCONTEXT || register::is_numbered(csr) => {
            "it always reads 0. Do without it.".into()
        }
        _ => "it is read-only. Drop the write.".into(),
    };
    format!("A write to {csr} stores nothing: {rest}")
}

/// Why no hart takes a bit, and what to do instead. Bits that are alike have the same sentence.
fn never_copied(case: &Case, name: &str, bit: u8) -> String {
    let has_interrupt = case.caps.words().interrupts & bit_of(bit) != 0;
    let why = match (case.csr, name, bit) {
        (Csr::MIP, ..) if has_interrupt => {
            return "No write changes it: the monitor sets and clears it for the device that raises the interrupt. Use \
                    that device."
                .into()
        }
        (Csr::SIP, ..) => return only_ssip(case, bit),
        (Csr::MIP, "MSIP" | "MTIP" | "MEIP" | "LCOFIP", _) => {
            "it is the monitor's, and this board doesn't have the interrupt"
        }
        (Csr::MIE, "LCOFIE", _) => "the library never enables this interrupt",
        (Csr::MIDELEG, "MSI" | "MTI" | "MEI", _) => "the interrupts of mode M aren't delegated",
        (Csr::MEDELEG, _, 11) => "a call from mode M isn't delegated",
        (Csr::MEPC | Csr::SEPC, ..) => "instructions stand at even addresses",
        (Csr::MCOUNTINHIBIT, _, 1) => "the time can't be inhibited",
        (_, "UBE" | "SBE" | "MBE", _) => "memory is little-endian in every mode",
        (_, "XS", _) => "the library keeps the state of no unit but F and V",
        (_, "GVA" | "MPV", _) => "it is of the extension H, which no hart here has",
        (_, "ADUE", _) => "it is of the extension Svadu, which the library doesn't know",
        (_, name, _) if name.starts_with("HPM") => "mhpmcounter3 to mhpmcounter31 always read 0",
        _ => "the library knows no meaning of it",
    };
    format!("No hart takes it: {why}. Write 0 there.")
}

/// What sip doesn't take, mip may take.
fn only_ssip(case: &Case, bit: u8) -> String {
    let mip = Case {
        csr: Csr::MIP,
        ..*case
    };
    let lost = mip.lost(case.value);
    match lost.is_ok_and(|lost| mask(&lost) & bit_of(bit) == 0) {
        true => "A write to sip changes SSIP alone. Write mip for this bit, in mode M.".into(),
        false => "A write to sip changes SSIP alone. mip doesn't take this bit now either: ask about mip for why.".into(),
    }
}

/// SD is derived from two other fields.
fn sd(case: &Case, stored: &Stored) -> String {
    let fields = fields::of(case.csr);
    let holds = |name: &str| {
        let field = fields.iter().find(|field| field.name == name);
        match field.map(|field| (field.of(case.value), field.of(stored.word))) {
            Some((written, holds)) if written != holds => {
                format!("{holds} ({written} was written)")
            }
            Some((_, holds)) => holds.to_string(),
            None => "0".into(),
        }
    };
    format!(
        "SD follows FS and VS: it is 1 if one of them holds 3, and else 0. FS holds {}, and VS {}. To change SD, \
         change these.",
        holds("FS"),
        holds("VS")
    )
}

/// SXL is derived from what the board has.
fn sxl(case: &Case) -> String {
    let (has, holds) = match case.caps.words().misa & misa::S {
        0 => ("has no S", 0),
        _ => ("has S", 2),
    };
    format!("SXL holds 2 on a board with S, and 0 on one without. This board {has}. Expect {holds} there.")
}

fn other_board(case: &Case, bit: u8) -> String {
    let told = boards::tell(case.caps, |caps, hart| {
        let lost = hart.explain(caps, case.csr, case.value, case.host);
        lost.is_ok_and(|lost| mask(&lost) & bit_of(bit) == 0)
    });
    match told {
        Some(told) => format!("{}. {}", capital(&told.fact), told.advice),
        None => format!("{}.", capital(&Reason::OtherExtensions.to_string())),
    }
}

fn reserved(case: &Case, stored: &Stored, field: &Field) -> String {
    let name = &field.name;
    let (written, holds) = (field.of(case.value), field.of(stored.word));
    let then = match name.as_str() {
        "MODE" => format!("MODE stays {holds} and BASE alone is stored"),
        _ => format!("{holds} is stored"),
    };
    format!(
        "{written} is reserved in {name}, so {then}. {}",
        takes(case, field)
    )
}

/// Which values there are for a field, by what the library does with each.
fn takes(case: &Case, field: &Field) -> String {
    let name = &field.name;
    let taken = case.taken(field).into_iter();
    let taken: Vec<_> = taken.map(|value| field.value(value)).collect();
    match &taken[..] {
        [] => String::new(),
        [only] => format!("On this board {name} takes {only} alone."),
        _ => format!("Write {} to {name}.", listed(&taken, "or")),
    }
}

fn ignored(case: &Case) -> String {
    let csr = case.csr;
    let mut fields = fields::of(csr).into_iter();
    match fields.find(|field| field.name == "MODE") {
        Some(mode) => format!(
            "The whole write is ignored, since {csr} doesn't take MODE {}. {}",
            mode.of(case.value),
            takes(case, &mode)
        ),
        None => format!(
            "The whole write is ignored, since the value is above this board's highest, {:#x}. Write an address up \
             to that, or write the board's settings anew with a higher highest=.",
            case.caps.words().highest
        ),
    }
}

#[cfg(test)]
mod tests {
    use vhart::{mip, misa, Caps, CapsWords, Csr, Flags, Hart, Host, Reason, Word};

    use super::sentence;
    use crate::explain::case::{mask, Case};
    use crate::register;

    /// Boards of every kind, each with records that differ in what a write keeps.
    fn boards() -> impl Iterator<Item = (Caps, Hart)> {
        let letters = [misa::C, misa::F, misa::S, misa::V];
        let some = |set: u64, all: &[u64]| {
            let bits = all
                .iter()
                .enumerate()
                .filter(|(place, _)| set >> place & 1 == 1);
            bits.fold(0, |word, (_, bit)| word | bit)
        };
        let words = (0..16 * 32 * 2).step_by(7).map(move |n: u64| {
            let misa = misa::RV64 | misa::I | misa::U | some(n, &letters);
            let of_s = if misa & misa::S == 0 { 0 } else { 0x222 };
            CapsWords {
                misa,
                interrupts: if n >> 9 == 0 { of_s } else { of_s | mip::MTIP },
                highest: 0x7FFF_FFFF,
                flags: Flags::from_bits(n >> 4 & 31),
                ..CapsWords::default()
            }
        });
        let fresh = |words| {
            let caps = Caps::from(words);
            Hart::fresh(&caps, 0).ok().map(|hart| (caps, hart))
        };
        words.filter_map(fresh).flat_map(|(caps, fresh)| {
            let mut other = fresh.clone();
            other.set(Word::Mtvec, 0x8000_0001);
            if other.write(&caps, Csr::MENVCFG, u64::MAX).is_err() {
                other = fresh.clone();
            }
            [(caps.clone(), fresh), (caps, other)]
        })
    }

    const VALUES: [u64; 7] = [
        0,
        u64::MAX,
        0x5555 << 48 | 0x5555,
        0xAAAA << 48 | 0x2AAA,
        0x6000,
        0x1020,
        2,
    ];

    #[test]
    fn every_lost_bit_is_one_that_differs_and_has_sentences() {
        let mut reasons = 0;
        for (caps, hart) in boards() {
            for csr in register::all().filter(|csr| !register::is_numbered(*csr)) {
                for value in VALUES {
                    let host = Host {
                        time: 5,
                        seed: 7,
                        line: false,
                    };
                    let case = Case {
                        caps: &caps,
                        hart: &hart,
                        csr,
                        value,
                        host,
                    };
                    let Ok(stored) = case.stored() else { continue };
                    let outside = (value ^ stored.word) & !mask(&stored.lost);
                    assert!(
                        outside == 0 || [Csr::SSTATUS, Csr::SIE, Csr::SIP].contains(&csr),
                        "{csr}"
                    );
                    assert_eq!(
                        mask(&stored.lost) & !(value ^ stored.word),
                        0,
                        "{csr} {value:#x}"
                    );
                    for (bit, reason) in &stored.lost {
                        let text = sentence(&case, &stored, bit, reason);
                        let library = reason.to_string();
                        assert!(
                            !text.to_lowercase().contains(&library.to_lowercase()),
                            "{csr} {bit}: {text}"
                        );
                        assert!(text.ends_with('.') && !text.contains("  "), "{text}");
                        reasons |= 1 << reason.number();
                    }
                }
            }
        }
        assert_eq!(reasons, 0b1111_1110);
    }

    #[test]
    fn a_reason_that_is_not_known_is_told_as_the_binding_tells_it() {
        let caps = Caps::from(CapsWords {
            misa: misa::RV64 | misa::U,
            ..CapsWords::default()
        });
        let hart = Hart::fresh(&caps, 0).unwrap();
        let case = Case {
            caps: &caps,
            hart: &hart,
            csr: Csr::MIE,
            value: 1,
            host: Host::default(),
        };
        let text = sentence(&case, &case.stored().unwrap(), 255, Reason::Other(9));
        assert_eq!(text, "Unknown to this binding; the library is newer.");
    }
}
