//! The command's arguments.
use crate::caller::Callee;

pub const USAGE: &str = "\
usage: bench [--check] [--inputs N] [--ns] [--limits]
       bench --rows
       bench --calls ROW
       bench --count ROW NAME CALLEE

Checks that the library and the peers agree on random inputs, and then measures
each entry, the pending question by case, and the plain entries, which count
neither in the sum nor for the limits: the library's time as a multiple of each
peer's. Last come the library's explain and tally, as multiples of its write, and
its replay of a call log, as a multiple of the log's calls made one by one: of a
firmware that does the same few things over and over, and, for information, of
one that never does the same again.

  --check     checks only
  --inputs N  checks N inputs of each entry, one million if not given
  --ns        also shows the nanoseconds of a call
  --limits    fails if the library is slower than it may be
  --rows      shows the names of what is measured
  --calls     shows the calls of a row, each with its images and its outcome, in
              the format of the stored vectors
  --count     makes one round of a row's calls, for callgrind to count, and says
              how many: those of NAME (library, whole, table, original) if
              CALLEE is own, and if it is empty the loop alone; ROW may also be
              explain or tally, of the calls of write, and replay or one_by_one,
              of the calls of a log
  --help      shows this";

/// What the command is asked to do.
#[derive(Debug, PartialEq, Eq)]
pub enum Command {
    Help,
    Check {
        inputs: u64,
    },
    Measure {
        inputs: u64,
        ns: bool,
        limits: bool,
    },
    Rows,
    Calls {
        row: String,
    },
    Count {
        row: String,
        name: String,
        callee: Callee,
    },
}

impl Command {
    /// The command that these arguments make, or what is wrong with them.
    pub fn parse(args: impl IntoIterator<Item = String>) -> Result<Command, String> {
        let args: Vec<String> = args.into_iter().collect();
        let words: Vec<&str> = args.iter().map(String::as_str).collect();
        match words[..] {
            ["--rows"] => Ok(Command::Rows),
            ["--rows", ..] => Err("--rows takes nothing".into()),
            ["--calls", row] => Ok(Command::Calls { row: row.into() }),
            ["--calls", ..] => Err("--calls needs a row".into()),
            ["--count", row, name, callee @ ("own" | "empty")] => Ok(Command::Count {
                row: row.into(),
                name: name.into(),
                callee: match callee {
                    "own" => Callee::Own,
                    _ => Callee::Empty,
                },
            }),
            ["--count", ..] => Err("--count needs a row, a name, and own or empty".into()),
            _ => Command::check_or_measure(&words),
        }
    }

    fn check_or_measure(words: &[&str]) -> Result<Command, String> {
        let (mut check, mut ns, mut limits) = (false, false, false);
        let mut inputs = 1_000_000;
        let mut words = words.iter();
        while let Some(&word) = words.next() {
            match word {
                "--help" => return Ok(Command::Help),
                "--check" => check = true,
                "--ns" => ns = true,
                "--limits" => limits = true,
                "--inputs" => {
                    let number = words.next().ok_or("--inputs needs a number")?;
                    inputs = number
                        .parse()
                        .map_err(|_| format!("--inputs needs a number, not `{number}`"))?;
                }
                _ => return Err(format!("unknown argument `{word}`")),
            }
        }
        match check {
            false => Ok(Command::Measure { inputs, ns, limits }),
            true if ns || limits => Err("--check measures nothing to show or to limit".into()),
            true => Ok(Command::Check { inputs }),
        }
    }
}

#[cfg(test)]
mod tests {
    use super::{Callee, Command};

    fn parse(line: &str) -> Result<Command, String> {
        Command::parse(line.split_whitespace().map(String::from))
    }

    #[test]
    fn arguments_are_taken() {
        let measure = |inputs, ns, limits| Ok(Command::Measure { inputs, ns, limits });
        assert_eq!(parse(""), measure(1_000_000, false, false));
        assert_eq!(parse("--inputs 7"), measure(7, false, false));
        assert_eq!(parse("--limits --ns"), measure(1_000_000, true, true));
        assert_eq!(
            parse("--check --inputs 5"),
            Ok(Command::Check { inputs: 5 })
        );
        assert_eq!(parse("--ns --help"), Ok(Command::Help));
        assert_eq!(parse("--rows"), Ok(Command::Rows));
        let row = || String::from("read");
        assert_eq!(parse("--calls read"), Ok(Command::Calls { row: row() }));
        let (row, name, callee) = (row(), "whole".into(), Callee::Own);
        let count = Command::Count { row, name, callee };
        assert_eq!(parse("--count read whole own"), Ok(count));
    }

    #[test]
    fn other_arguments_are_refused() {
        for line in [
            "--quick",
            "check",
            "--inputs",
            "--inputs -1",
            "--inputs many",
            "--check --limits",
            "--ns --check",
            "--rows all",
            "--ns --rows",
            "--calls",
            "--calls read write",
            "--count read whole",
            "--count read whole twice",
            "--count read whole own --ns",
        ] {
            assert!(parse(line).is_err(), "{line}");
        }
    }
}
