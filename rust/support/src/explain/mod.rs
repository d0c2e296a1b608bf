//! `vhart explain`: which bits of a written value aren't stored, and why, as the library says.

mod boards;
mod case;
mod describe;
mod why;

use std::ffi::{OsStr, OsString};

use vhart::{Caps, Csr, Hart, Host, Refusal};

use case::Case;

use crate::arguments::shown;
use crate::command::{Command, Does};
use crate::file;
use crate::number;
use crate::outcome::{Outcome, Stop};
use crate::prose::not_given;
use crate::{record, register, settings};

pub const EXPLAIN: Command = Command {
    name: "explain",
    takes: "BOARD RECORD REGISTER VALUE [time=NUMBER] [seed=NUMBER]",
    about: "Say which bits of a value that is written to a register are lost, and why.",
    help: "\
BOARD is the settings file of the board, from `vhart settings write`. RECORD is the hart image
before the write, 480 bytes: a monitor puts it into a file, or `vhart record write` makes one. With
- as one of the two, standard input is read. Neither file is changed.

REGISTER is the register's name or its address, such as mstatus or 0x300. There are:
  seed sstatus sie stvec scounteren senvcfg sscratch sepc scause stval sip stimecmp satp mstatus
  misa medeleg mideleg mie mtvec mcounteren menvcfg mcountinhibit mscratch mepc mcause mtval mip
  scontext tselect mcycle minstret cycle time instret mvendorid marchid mimpid mhartid mconfigptr
  mhpmevent3 to mhpmevent31, mhpmcounter3 to mhpmcounter31

VALUE is the number that is written. For csrrs and csrrc that is what the register reads, with the
bits set or cleared; what mip and sip read counts without the interrupt controller's line. time= and
seed= are what the registers of these names read, and 0 if they aren't given. A number is decimal,
0x.. or 0b.., with _ between digits where you like.

A bit is lost if it isn't stored as it was written. Each is shown with its field, and below it why
it was lost and what to do. The reasons are numbered, and docs/WHY.md says more of each:
  1  a write to the register stores nothing
  2  no hart takes the bit from a value
  3  a board with other extensions or interrupts would store it
  4  the value of the field is reserved
  5  the field is derived or forced
  6  the whole write is ignored
  7  stimecmp drives the bit

Example:
  vhart settings write board.vhr misa=rv64imacsu interrupts=ssi,msi,sti,mti,sei,mei highest=max
  vhart record write hart.img board.vhr
  vhart explain board.vhr hart.img mstatus 0x1000
",
    does: Does::Runs(explain),
};

const NEEDED: [&str; 4] = ["BOARD", "RECORD", "REGISTER", "VALUE"];

fn explain(arguments: &[OsString]) -> Outcome {
    let [board, record, register, value, rest @ ..] = arguments else {
        return Err(Stop::Usage(not_given(&NEEDED[arguments.len()..])));
    };
    file::check_standard(&[board, record])?;
    let wrong = |argument: &OsStr, why: String| Stop::Usage(format!("{}: {why}", shown(argument)));
    let csr = register::parse(&register.to_string_lossy()).map_err(|why| wrong(register, why))?;
    let value = number::parse_value(&value.to_string_lossy()).map_err(|why| wrong(value, why))?;
    let host = host(rest).map_err(Stop::Usage)?;

    let settings = settings::load(board)?;
    let hart = record::load(record, settings.caps())?;
    let case = Case {
        caps: settings.caps(),
        hart: &hart,
        csr,
        value,
        host,
    };
    describe::report(&case).map_err(|why| refusal(&case, register, why))
}

/// What the host hands in.
fn host(arguments: &[OsString]) -> Result<Host, String> {
    let (mut time, mut seed) = (None, None);
    for argument in arguments {
        let wrong = |why: String| format!("{}: {why}", shown(argument));
        let text = argument.to_string_lossy().to_ascii_lowercase();
        let (given, text) = match text.split_once('=') {
            Some(("time", text)) => (&mut time, text),
            Some(("seed", text)) => (&mut seed, text),
            _ => return Err(wrong("behind VALUE there are time= and seed= alone".into())),
        };
        let number = number::parse(text).map_err(|why| wrong(why.to_string()))?;
        if given.replace(number).is_some() {
            return Err(wrong("is given twice".into()));
        }
    }
    Ok(Host {
        time: time.unwrap_or_default(),
        seed: seed.unwrap_or_default(),
        line: false,
    })
}

/// Why the library refuses a register, and what can be said of it here.
fn refusal(case: &Case, given: &OsStr, why: Refusal) -> Stop {
    let said = match why {
        Refusal::NoSuchCsr => in_hex(case.csr, &given.to_string_lossy()),
        Refusal::CsrAbsent => {
            let has_it = |caps: &Caps, hart: &Hart| hart.read(caps, case.csr, case.host).is_ok();
            boards::tell(case.caps, has_it).map(|told| told.fact)
        }
        _ => None,
    };
    let said = said.map(|said| format!("; {said}")).unwrap_or_default();
    Stop::Refused {
        what: ("register", given.into()),
        number: why.number(),
        text: format!("{why}{said}"),
        found: Box::default(),
    }
}

/// Addresses are mostly written in hex: what the decimal digits would be there.
fn in_hex(csr: Csr, given: &str) -> Option<String> {
    let other = Csr(u64::from_str_radix(given, 16).ok()?);
    let is_meant = other != csr && register::is_named(other);
    is_meant.then(|| format!("{given} is {:#x}; {other} is {:#x}", csr.0, other.0))
}

#[cfg(test)]
mod tests {
    use vhart::Csr;

    use super::{host, in_hex, EXPLAIN};
    use crate::register;

    #[test]
    fn the_help_names_every_register() {
        let help: Vec<_> = EXPLAIN.help.split([' ', ',', '\n']).collect();
        for csr in register::all().filter(|csr| !register::is_numbered(*csr)) {
            assert!(help.contains(&csr.to_string().as_str()), "{csr}");
        }
        for name in ["mhpmevent3", "mhpmevent31", "mhpmcounter3", "mhpmcounter31"] {
            assert!(help.contains(&name), "{name}");
        }
    }

    #[test]
    fn the_host_hands_in_time_and_seed() {
        let given = |line: &str| {
            let arguments: Vec<_> = line.split_whitespace().map(Into::into).collect();
            host(&arguments).map(|host| (host.time, host.seed))
        };
        assert_eq!(given(""), Ok((0, 0)));
        assert_eq!(given("SEED=0x10 time=5"), Ok((5, 16)));
        assert_eq!(given("time=1 time=1"), Err("time=1: is given twice".into()));
        assert!(given("time=x")
            .unwrap_err()
            .starts_with("time=x: no number"));
        for line in ["time", "line=1", "0x1"] {
            assert!(given(line)
                .unwrap_err()
                .ends_with("there are time= and seed= alone"));
        }
    }

    #[test]
    fn an_address_in_decimal_digits_is_told_in_hex() {
        assert_eq!(
            in_hex(Csr(300), "300"),
            Some("300 is 0x12c; mstatus is 0x300".into())
        );
        assert_eq!(in_hex(Csr(0x7A1), "0x7a1"), None);
        assert_eq!(in_hex(Csr(111), "111"), None);
    }
}
