//! The fields of the registers, by the manual's names, and what a word says in them.

use std::ops::Range;

use vhart::Csr;

use crate::settings::names;

/// The manual has no name for the bits of medeleg.
const EXCEPTION: &str = "exception ";

/// A field: its name, its lowest bit and its width.
#[derive(Clone, Debug, PartialEq)]
pub struct Field {
    pub name: String,
    pub low: u32,
    pub width: u32,
}

impl Field {
    pub fn mask(&self) -> u64 {
        u64::MAX >> (64 - self.width) << self.low
    }

    /// What a word holds in it.
    pub fn of(&self, word: u64) -> u64 {
        (word & self.mask()) >> self.low
    }

    /// The word with another value in it.
    pub fn with(&self, word: u64, value: u64) -> u64 {
        word & !self.mask() | value << self.low & self.mask()
    }

    /// Its name and, if there are several, its bits.
    pub fn place(&self) -> String {
        match (&self.name, self.low, self.width) {
            (name, _, 1) => name.clone(),
            (name, low, width) => format!("{name} {}:{low}", low + width - 1),
        }
    }

    /// A value of it and, if that has one, its name.
    pub fn value(&self, value: u64) -> String {
        let name = match (self.name.as_str(), self.width, value) {
            ("MPP", _, 0) => "U",
            ("MPP", _, 1) => "S",
            ("MPP", _, 3) => "M",
            ("CBIE", _, 0) => "traps",
            ("CBIE", _, 1) => "flushes",
            ("CBIE", _, 3) => "invalidates",
            ("MODE", 2, 0) => "direct",
            ("MODE", 2, 1) => "vectored",
            ("MODE", 4, 0) => "Bare",
            ("MODE", 4, 8) => "Sv39",
            _ => return value.to_string(),
        };
        format!("{value} ({name})")
    }
}

/// The field of a register that has this bit. Without fields, the register is one.
pub fn at(csr: Csr, bit: u32) -> Option<Field> {
    of(csr)
        .into_iter()
        .find(|field| bit.wrapping_sub(field.low) < field.width)
}

/// The fields of a register, lowest first.
pub fn of(csr: Csr) -> Vec<Field> {
    within(csr, u64::MAX)
}

/// Those of them that aren't 0 in a word.
fn within(csr: Csr, word: u64) -> Vec<Field> {
    let field = |name: &str, low: u32, width: u32| Field {
        name: name.into(),
        low,
        width,
    };
    let set = |bits: Range<u32>| bits.filter(|bit| word >> bit & 1 == 1);
    let numbered = |name: &str, bits: Range<u32>| -> Vec<_> {
        let fields = set(bits).map(|bit| field(&format!("{name}{bit}"), bit, 1));
        fields.collect()
    };
    let named = named(csr);
    let fields = named
        .iter()
        .map(|(name, low, width)| field(name, *low, *width));
    let mut fields: Vec<_> = fields.filter(|field| field.of(word) != 0).collect();
    match csr {
        Csr::MISA => {
            let letter = |bit: u32| char::from(b'A' + bit as u8).to_string();
            let letters = set(0..26).map(|bit| field(&letter(bit), bit, 1));
            fields.splice(0..0, letters);
        }
        Csr::MEDELEG => fields.extend(numbered(EXCEPTION, 0..64)),
        Csr::MCOUNTEREN | Csr::SCOUNTEREN | Csr::MCOUNTINHIBIT => {
            fields.extend(numbered("HPM", 3..32))
        }
        _ if named.is_empty() => fields.push(field(&csr.to_string(), 0, 64)),
        _ => {}
    }
    fields
}

#[rustfmt::skip]
fn named(csr: Csr) -> &'static [(&'static str, u32, u32)] {
    match csr {
        Csr::MSTATUS => &[
            ("SIE", 1, 1), ("MIE", 3, 1), ("SPIE", 5, 1), ("UBE", 6, 1), ("MPIE", 7, 1), ("SPP", 8, 1), ("VS", 9, 2),
            ("MPP", 11, 2), ("FS", 13, 2), ("XS", 15, 2), ("MPRV", 17, 1), ("SUM", 18, 1), ("MXR", 19, 1),
            ("TVM", 20, 1), ("TW", 21, 1), ("TSR", 22, 1), ("UXL", 32, 2), ("SXL", 34, 2), ("SBE", 36, 1),
            ("MBE", 37, 1), ("GVA", 38, 1), ("MPV", 39, 1), ("SD", 63, 1),
        ],
        Csr::SSTATUS => &[
            ("SIE", 1, 1), ("SPIE", 5, 1), ("UBE", 6, 1), ("SPP", 8, 1), ("VS", 9, 2), ("FS", 13, 2), ("XS", 15, 2),
            ("SUM", 18, 1), ("MXR", 19, 1), ("UXL", 32, 2), ("SD", 63, 1),
        ],
        Csr::MIE => &[
            ("SSIE", 1, 1), ("MSIE", 3, 1), ("STIE", 5, 1), ("MTIE", 7, 1), ("SEIE", 9, 1), ("MEIE", 11, 1),
            ("LCOFIE", 13, 1),
        ],
        Csr::SIE => &[("SSIE", 1, 1), ("STIE", 5, 1), ("SEIE", 9, 1)],
        Csr::MIP => &[
            ("SSIP", 1, 1), ("MSIP", 3, 1), ("STIP", 5, 1), ("MTIP", 7, 1), ("SEIP", 9, 1), ("MEIP", 11, 1),
            ("LCOFIP", 13, 1),
        ],
        Csr::SIP => &[("SSIP", 1, 1), ("STIP", 5, 1), ("SEIP", 9, 1)],
        Csr::MIDELEG => &[
            ("SSI", 1, 1), ("MSI", 3, 1), ("STI", 5, 1), ("MTI", 7, 1), ("SEI", 9, 1), ("MEI", 11, 1),
            ("LCOFI", 13, 1),
        ],
        Csr::MTVEC | Csr::STVEC => &[("MODE", 0, 2), ("BASE", 2, 62)],
        Csr::MCOUNTEREN | Csr::SCOUNTEREN => &[("CY", 0, 1), ("TM", 1, 1), ("IR", 2, 1)],
        Csr::MCOUNTINHIBIT => &[("CY", 0, 1), ("IR", 2, 1)],
        Csr::MENVCFG => &[
            ("FIOM", 0, 1), ("CBIE", 4, 2), ("CBCFE", 6, 1), ("CBZE", 7, 1), ("ADUE", 61, 1), ("PBMTE", 62, 1),
            ("STCE", 63, 1),
        ],
        Csr::SENVCFG => &[("FIOM", 0, 1), ("CBIE", 4, 2), ("CBCFE", 6, 1), ("CBZE", 7, 1)],
        Csr::SATP => &[("PPN", 0, 44), ("ASID", 44, 16), ("MODE", 60, 4)],
        Csr::MISA => &[("MXL", 62, 2)],
        _ => &[],
    }
}

/// The fields that aren't 0, with their values where they have more than one bit. Nothing is said
/// of a word that is one field.
pub fn in_words(csr: Csr, word: u64) -> String {
    if let (Csr::MISA, Some((names, 0))) = (csr, names::of_misa(word)) {
        return names.concat();
    }
    let fields = within(csr, word).into_iter();
    let fields = fields.filter(|field| field.width < 64);
    let fields = fields.map(|field| match (field.of(word), field.width) {
        (_, 1) => field.name,
        (value, ..=4) => format!("{}={value}", field.name),
        // Of an address: what the hart makes of it.
        (_, 62) => format!("{}={:#x}", field.name, word & field.mask()),
        (value, _) => format!("{}={value:#x}", field.name),
    });
    let words = fields.collect::<Vec<_>>().join(" ");
    match words.starts_with(EXCEPTION) {
        true => format!("exceptions {}", words.replace(EXCEPTION, "")),
        false => words,
    }
}

#[cfg(test)]
mod tests {
    use vhart::{menvcfg, mip, mstatus, Csr};

    use super::{at, in_words, of, Field};
    use crate::register;

    /// The mask of a field by its name.
    fn mask(csr: Csr, name: &str) -> u64 {
        let fields = of(csr);
        let field = fields.iter().find(|field| field.name == name);
        field.map_or(0, Field::mask)
    }

    #[test]
    fn fields_stand_where_the_binding_has_them() {
        for (name, bits) in [
            ("SIE", mstatus::SIE),
            ("MIE", mstatus::MIE),
            ("SPIE", mstatus::SPIE),
            ("MPIE", mstatus::MPIE),
            ("SPP", mstatus::SPP),
            ("VS", mstatus::VS),
            ("MPP", mstatus::MPP),
            ("FS", mstatus::FS),
            ("MPRV", mstatus::MPRV),
            ("SUM", mstatus::SUM),
            ("MXR", mstatus::MXR),
            ("TVM", mstatus::TVM),
            ("TW", mstatus::TW),
            ("TSR", mstatus::TSR),
            ("UXL", mstatus::UXL),
            ("SXL", mstatus::SXL),
            ("SD", mstatus::SD),
        ] {
            assert_eq!(mask(Csr::MSTATUS, name), bits, "{name}");
            let shown = mask(Csr::SSTATUS, name);
            assert!(shown == bits || shown == 0, "{name}");
        }
        for (name, bits) in [
            ("FIOM", menvcfg::FIOM),
            ("CBIE", menvcfg::CBIE),
            ("CBCFE", menvcfg::CBCFE),
            ("CBZE", menvcfg::CBZE),
            ("PBMTE", menvcfg::PBMTE),
            ("STCE", menvcfg::STCE),
        ] {
            assert_eq!(mask(Csr::MENVCFG, name), bits, "{name}");
        }
        for (name, bits) in [
            ("SSI", mip::SSIP),
            ("MSI", mip::MSIP),
            ("STI", mip::STIP),
            ("MTI", mip::MTIP),
            ("SEI", mip::SEIP),
            ("MEI", mip::MEIP),
            ("LCOFI", mip::LCOFIP),
        ] {
            assert_eq!(mask(Csr::MIDELEG, name), bits, "{name}");
            assert_eq!(mask(Csr::MIE, &format!("{name}E")), bits, "{name}");
            assert_eq!(mask(Csr::MIP, &format!("{name}P")), bits, "{name}");
        }
    }

    #[test]
    fn no_two_fields_have_a_bit() {
        for csr in register::all() {
            let fields = of(csr);
            assert!(
                fields
                    .windows(2)
                    .all(|two| two[0].low + two[0].width <= two[1].low),
                "{csr}"
            );
            assert!(
                fields.iter().all(|field| field.low + field.width <= 64),
                "{csr}"
            );
        }
        assert_eq!(
            at(Csr::MSTATUS, 12).map(|field| field.place()),
            Some("MPP 12:11".into())
        );
        assert_eq!(at(Csr::MSTATUS, 0), None);
        assert_eq!(
            at(Csr::MEPC, 1).map(|field| field.place()),
            Some("mepc 63:0".into())
        );
        assert_eq!(
            at(Csr::MEDELEG, 11).map(|field| field.name),
            Some("exception 11".into())
        );
        assert_eq!(
            at(Csr::MCOUNTEREN, 3).map(|field| field.name),
            Some("HPM3".into())
        );
        assert_eq!(
            at(Csr::MISA, 18).map(|field| field.place()),
            Some("S".into())
        );
    }

    #[test]
    fn a_word_is_told_by_its_fields() {
        for (csr, word, text) in [
            (Csr::MSTATUS, 0xA_0000_1808, "MIE MPP=3 UXL=2 SXL=2"),
            (Csr::MSTATUS, 1, ""),
            (Csr::MTVEC, 0x8000_2001, "MODE=1 BASE=0x80002000"),
            (
                Csr::SATP,
                9 << 60 | 1 << 44 | 0x8_0000,
                "PPN=0x80000 ASID=0x1 MODE=9",
            ),
            (Csr::MEPC, 0x8000_0000, ""),
            (Csr::MISA, 0x8000_0000_0014_1105, "rv64imacsu"),
            (Csr::MISA, 5, "A C"),
            (Csr::MEDELEG, 0x101, "exceptions 0 8"),
        ] {
            assert_eq!(in_words(csr, word), text, "{csr} {word:#x}");
        }
        let mpp = at(Csr::MSTATUS, 11).unwrap();
        assert_eq!((mpp.of(0x1800), mpp.with(0x1808, 1)), (3, 0x808));
        assert_eq!(
            [0, 1, 2, 3].map(|value| mpp.value(value)),
            ["0 (U)", "1 (S)", "2", "3 (M)"]
        );
    }
}
