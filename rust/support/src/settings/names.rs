//! The names of the bits that words have, by the binding's constants. Those that it lacks are the
//! manual's.

use vhart::{mip, misa, Flags};

/// Names, each with its bit.
pub type Names = [(&'static str, u64)];

/// misa's MXL (bits 63:62). A hart that the library knows has 2.
pub const WIDTHS: [(&str, u64); 3] = [("rv32", 1 << 62), ("rv64", misa::RV64), ("rv128", 3 << 62)];

/// misa's letters, in the order in which the manual writes them behind the width.
pub const LETTERS: [(&str, u64); 16] = [
    ("i", misa::I),
    ("e", 1 << 4),
    ("m", misa::M),
    ("a", misa::A),
    ("f", misa::F),
    ("d", misa::D),
    ("q", misa::Q),
    ("c", misa::C),
    ("b", misa::B),
    ("p", 1 << 15),
    ("v", misa::V),
    ("n", 1 << 13),
    ("h", 1 << 7),
    ("s", misa::S),
    ("u", misa::U),
    ("x", misa::X),
];

pub const INTERRUPTS: [(&str, u64); 7] = [
    ("ssi", mip::SSIP),
    ("msi", mip::MSIP),
    ("sti", mip::STIP),
    ("mti", mip::MTIP),
    ("sei", mip::SEIP),
    ("mei", mip::MEIP),
    ("lcofi", mip::LCOFIP),
];

/// Of `highest`: mepc and sepc take any address. So many digits would get mistyped.
pub const MAX: &str = "max";

pub const FLAGS: [(&str, u64); 5] = [
    ("zfinx", Flags::ZFINX.bits()),
    ("sstc", Flags::SSTC.bits()),
    ("zicbom", Flags::ZICBOM.bits()),
    ("zicboz", Flags::ZICBOZ.bits()),
    ("svpbmt", Flags::SVPBMT.bits()),
];

/// The bit of a name.
pub fn bit(names: &Names, name: &str) -> Option<u64> {
    names
        .iter()
        .find(|(known, _)| *known == name)
        .map(|(_, bit)| *bit)
}

/// All names, for a message.
pub fn list(names: &Names) -> String {
    let names: Vec<_> = names.iter().map(|(name, _)| *name).collect();
    names.join(" ")
}

/// The names of the bits, and the bits that have none.
pub fn of(names: &Names, bits: u64) -> (Vec<&'static str>, u64) {
    let named = names.iter().filter(|(_, bit)| bits & bit != 0);
    let rest = named.clone().fold(bits, |rest, (_, bit)| rest & !bit);
    (named.map(|(name, _)| *name).collect(), rest)
}

/// misa's width and letters, and the bits that are no letter's; nothing if no width is called that.
pub fn of_misa(word: u64) -> Option<(Vec<&'static str>, u64)> {
    let width = 3 << 62;
    let (name, _) = WIDTHS.iter().find(|(_, bits)| *bits == word & width)?;
    let (mut named, rest) = of(&LETTERS, word & !width);
    named.insert(0, name);
    Some((named, rest))
}

#[cfg(test)]
mod tests {
    use super::{bit, of, of_misa, FLAGS, INTERRUPTS, LETTERS};

    #[test]
    fn a_letter_is_the_bit_of_its_place_in_the_alphabet() {
        for (letter, bit) in LETTERS {
            assert_eq!(bit, 1 << (letter.as_bytes()[0] - b'a'), "{letter}");
        }
    }

    #[test]
    fn every_name_comes_back() {
        for names in [&INTERRUPTS[..], &FLAGS[..], &LETTERS[..]] {
            for (name, only) in names {
                assert_eq!(bit(names, name), Some(*only));
                assert_eq!(of(names, *only), (vec![*name], 0));
            }
            assert_eq!((bit(names, ""), of(names, 0)), (None, (vec![], 0)));
        }
        assert_eq!(of(&INTERRUPTS, 0x8B), (vec!["ssi", "msi", "mti"], 1));
    }

    #[test]
    fn misa_is_its_width_and_its_letters() {
        let named = |word| of_misa(word).map(|(names, rest)| (names.concat(), rest));
        assert_eq!(named(0x8000_0000_0014_1105), Some(("rv64imacsu".into(), 0)));
        assert_eq!(named(0x4000_0000_0000_0010), Some(("rv32e".into(), 0)));
        assert_eq!(named(0xC000_0000_0000_0140), Some(("rv128i".into(), 0x40)));
        assert_eq!(named(0x100), None);
    }
}
