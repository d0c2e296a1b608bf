//! A register as people name it: by the manual's name or by its address.

use std::collections::HashMap;
use std::sync::OnceLock;

use vhart::Csr;

use crate::near::nearest;
use crate::number::{self, Wrong};
use crate::prose::listed;

pub fn parse(text: &str) -> Result<Csr, String> {
    let name = text.to_ascii_lowercase();
    match number::parse(text) {
        Ok(address) => Ok(Csr(address)),
        Err(Wrong::TooGreat) => Err(Wrong::TooGreat.to_string()),
        Err(Wrong::NoNumber) => named().get(&name).copied().ok_or_else(|| unknown(&name)),
    }
}

/// The registers by name, looked up once: a file may name a million.
fn named() -> &'static HashMap<String, Csr> {
    static NAMED: OnceLock<HashMap<String, Csr>> = OnceLock::new();
    NAMED.get_or_init(|| all().map(|csr| (csr.to_string(), csr)).collect())
}

fn unknown(name: &str) -> String {
    let names = nearest(name, all().map(|csr| csr.to_string()));
    match names.is_empty() {
        false => format!("no such register; is it {}?", listed(&names, "or")),
        true => format!(
            "no such register; there are {}, or say its address, such as 0x300",
            list()
        ),
    }
}

/// The registers that the library knows by name.
pub fn all() -> impl Iterator<Item = Csr> {
    (0..0x1000).map(Csr).filter(|csr| is_named(*csr))
}

pub fn is_named(csr: Csr) -> bool {
    !csr.to_string().starts_with("0x")
}

/// Whether it is one of the performance monitor's, of which there are many of a kind.
pub fn is_numbered(csr: Csr) -> bool {
    csr.to_string().starts_with("mhpm")
}

/// Their names. Of those that are numbered the first and the last are told.
fn list() -> String {
    let names = all().filter(|csr| !is_numbered(*csr));
    let names: Vec<_> = names.map(|csr| csr.to_string()).collect();
    let [events, counters] =
        [Csr::MHPMEVENT3, Csr::MHPMCOUNTER3].map(|csr| format!("{csr} to {}", Csr(csr.0 + 28)));
    format!("{} {events} {counters}", names.join(" "))
}

#[cfg(test)]
mod tests {
    use vhart::Csr;

    use super::{all, list, parse};

    #[test]
    fn a_register_goes_by_name_and_by_address() {
        for text in [
            "mstatus",
            "MSTATUS",
            "MStatus",
            "0x300",
            "768",
            "0b11_0000_0000",
        ] {
            assert_eq!(parse(text), Ok(Csr::MSTATUS), "{text}");
        }
        for (text, csr) in [
            ("mhpmcounter3", Csr(0xB03)),
            ("mhpmcounter31", Csr(0xB1F)),
            ("mhpmevent3", Csr(0x323)),
            ("mhpmevent31", Csr(0x33F)),
            ("0x7a1", Csr(0x7A1)),
            ("0xffff_ffff_ffff_ffff", Csr(u64::MAX)),
        ] {
            assert_eq!(parse(text), Ok(csr), "{text}");
        }
        for csr in all() {
            assert_eq!(parse(&csr.to_string()), Ok(csr));
        }
        assert_eq!(all().count(), 39 + 2 * 29);
    }

    #[test]
    fn what_is_no_register_is_told_what_there_is() {
        assert_eq!(
            parse("mstaus"),
            Err("no such register; is it mstatus?".into())
        );
        assert_eq!(
            parse("mi"),
            Err("no such register; is it mie or mip?".into())
        );
        let told = parse("pmpaddr0").unwrap_err();
        assert!(
            told.starts_with("no such register; there are seed sstatus sie "),
            "{told}"
        );
        assert!(
            told.contains(
                " mconfigptr mhpmevent3 to mhpmevent31 mhpmcounter3 to mhpmcounter31, or"
            ),
            "{told}"
        );
        assert!(!list().contains("0x"));
        let great = "0x1_0000_0000_0000_0000";
        assert!(parse(great)
            .unwrap_err()
            .starts_with("the number doesn't fit"));
    }
}
