//! What the terminal shows: lines with a label, and what changed in a record, by register and
//! field.

use std::env;
use std::io::{self, IsTerminal, StdoutLock, Write};

use vhart::{Hart, Word};

/// The fields that the session moves: name, lowest bit, width. Other registers are shown whole.
#[rustfmt::skip]
fn fields(word: Word) -> &'static [(&'static str, u32, u32)] {
    match word {
        Word::Mstatus => &[("MIE", 3, 1), ("MPIE", 7, 1), ("MPP", 11, 2), ("UXL", 32, 2), ("SXL", 34, 2)],
        Word::Mie => &[("MTIE", 7, 1)],
        Word::Mip => &[("MTIP", 7, 1), ("SEIP", 9, 1)],
        Word::Mideleg => &[("SSI", 1, 1), ("STI", 5, 1), ("SEI", 9, 1)],
        Word::Medeleg => &[("fetch-misaligned", 0, 1), ("breakpoint", 3, 1), ("call-U", 8, 1), ("call-M", 11, 1),
            ("fetch-page", 12, 1), ("load-page", 13, 1), ("store-page", 15, 1)],
        Word::Mtvec => &[("BASE", 2, 62), ("MODE", 0, 2)],
        _ => &[("", 0, 64)],
    }
}

fn in_words(name: &str, value: u64) -> String {
    match (name, value) {
        ("mode" | "MPP", 0..=3) => ["U", "S", "2", "M"][value as usize].into(),
        ("MODE", 0..=1) => ["direct", "vectored"][value as usize].into(),
        ("UXL" | "SXL", 2) => "64".into(),
        ("BASE", _) => format!("{:#x}", value << 2),
        ("mcause", 0x8000_0000_0000_0000..) => format!("interrupt {}", value & !(1 << 63)),
        ("mcause", _) => format!("exception {value}"),
        ("pc" | "mepc" | "mtval", _) => format!("{value:#x}"),
        _ => value.to_string(),
    }
}

/// The widest line of prose.
const COLUMNS: usize = 100;

/// A colour of the terminal's.
#[derive(Clone, Copy)]
pub enum Colour {
    Plain,
    Bold,
    Cyan,
    Yellow,
    Red,
}

impl Colour {
    fn code(self) -> &'static str {
        match self {
            Colour::Plain => "0",
            Colour::Bold => "1",
            Colour::Cyan => "36",
            Colour::Yellow => "33",
            Colour::Red => "1;31",
        }
    }
}

pub struct Screen {
    out: StdoutLock<'static>,
    is_coloured: bool,
}

impl Screen {
    pub fn new() -> Screen {
        let out = io::stdout().lock();
        let no_color = env::var_os("NO_COLOR").unwrap_or_default();
        let is_coloured = out.is_terminal() && no_color.is_empty();
        Screen { out, is_coloured }
    }

    fn line(&mut self, colour: Colour, line: &str) -> io::Result<()> {
        match self.is_coloured {
            true => writeln!(self.out, "\x1b[{}m{line}\x1b[0m", colour.code()),
            false => writeln!(self.out, "{line}"),
        }
    }

    /// Text behind a label. What is too long for a line goes on below, behind as much space.
    pub fn text(&mut self, colour: Colour, label: &str, text: &str) -> io::Result<()> {
        let mut line = label.to_string();
        for word in text.split(' ') {
            if line.len() + word.len() > COLUMNS {
                self.line(colour, line.trim_end())?;
                line = " ".repeat(label.len());
            }
            line += word;
            line += " ";
        }
        self.line(colour, line.trim_end())
    }

    /// The fields that differ from the record before; where there is none, those that aren't 0.
    pub fn changes(&mut self, before: Option<&Hart>, after: &Hart) -> io::Result<()> {
        for word in Word::ALL {
            let (old, new) = (before.map_or(0, |hart| hart.get(word)), after.get(word));
            // Only jumps are shown of pc.
            if old == new || word == Word::Pc && before.is_some() && new == old.wrapping_add(4) {
                continue;
            }
            let mut line = format!("    {:<11}", word.name());
            for (name, low, width) in fields(word) {
                let field = |value: u64| value >> low & (u64::MAX >> (64 - width));
                if field(old) == field(new) {
                    continue;
                }
                let (label, kind) = match *name {
                    "" => (String::new(), word.name()),
                    name => (format!("{name}="), name),
                };
                line += &format!(" {label}{}", in_words(kind, field(new)));
                if before.is_some() && *width > 1 {
                    line += &format!(" (was {})", in_words(kind, field(old)));
                }
            }
            self.line(Colour::Yellow, &line)?;
        }
        Ok(())
    }
}
