//! A line of text: a register and the value that is written to it, a comment, or nothing.

use vhart::Logged;

use crate::arguments::shown;
use crate::log::Entry;
use crate::prose::not_given;
use crate::{number, register};

/// The write of a line, if there is one, or what is wrong with it.
pub fn parse(line: &str) -> Result<Option<Entry>, String> {
    let line = line.split('#').next().unwrap_or_default();
    let mut words = line.split_whitespace();
    let (name, value) = match (words.next(), words.next(), words.next()) {
        (None, ..) => return Ok(None),
        (Some(name), Some(value), None) => (name, value),
        (Some(name), None, _) => return Err(wrong(name, &not_given(&["VALUE"]))),
        (_, _, Some(more)) => return Err(wrong(more, "behind VALUE there is a comment at most")),
    };
    let csr = register::parse(name).map_err(|why| wrong(name, &why))?;
    let value = number::parse_value(value).map_err(|why| wrong(value, &why))?;
    Ok(Some(Logged::Write { csr, value }.into()))
}

fn wrong(word: &str, why: &str) -> String {
    format!("{}: {why}", shown(word))
}

#[cfg(test)]
mod tests {
    use vhart::Csr;

    use super::{parse, Entry};

    #[test]
    fn a_line_is_a_write() {
        for line in [
            "mstatus 0x1000",
            "  MSTATUS\t4096  ",
            "0x300 0x10_00\r",
            "768 0b1_0000_0000_0000# MPP=2",
        ] {
            let write = Entry([1, Csr::MSTATUS.0, 0x1000]);
            assert_eq!(parse(line), Ok(Some(write)), "{line}");
        }
    }

    #[test]
    fn a_line_may_have_no_write() {
        for line in ["", " \t", "\r", "# mstatus 0x1000", "  #"] {
            assert_eq!(parse(line), Ok(None), "{line}");
        }
    }

    #[test]
    fn what_is_wrong_is_told() {
        for (line, why) in [
            ("mstatus", "mstatus: VALUE isn't given"),
            ("mstatus # 0x1000", "mstatus: VALUE isn't given"),
            ("mstaus 0", "mstaus: no such register; is it mstatus?"),
            (
                "mstatus 0x",
                "0x: VALUE is no number; a number is decimal, 0x.. or 0b..",
            ),
            ("mstatus 0 1", "1: behind VALUE there is a comment at most"),
            (
                "\u{1b}[1m 0 1 2",
                "1: behind VALUE there is a comment at most",
            ),
        ] {
            assert_eq!(parse(line), Err(why.into()));
        }
        let told = parse("\u{1b}\0 0").unwrap_err();
        assert!(
            told.starts_with("\\u{1b}\\u{0}: no such register"),
            "{told}"
        );
    }
}
