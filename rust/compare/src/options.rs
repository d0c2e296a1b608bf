//! The command's arguments.

pub const USAGE: &str = "\
usage: compare [--calls N] [--seed S] [--first]
       compare --vectors | --listed | --units | --line | --refusals

Makes random accepted calls in the library and in the original, and compares
what they give and leave, but for the bits that docs/DIFFERENCES.md lists.

  --calls N  compares N calls, ten million if not given
  --seed S   draws other calls
  --first    stops at the first difference that isn't listed
  --vectors  writes the stored vectors instead
  --listed   writes the beginnings of the listed differences' rows instead
  --units    writes what the two make of FS and VS instead
  --line     writes what the two show of the interrupt controller's line instead
  --refusals writes what the original does where the library refuses instead
  --help     shows this";

/// What the command is asked to do.
#[derive(Debug, PartialEq, Eq)]
pub enum Command {
    Help,
    Compare { calls: u64, seed: u64, first: bool },
    Vectors,
    Listed,
    Units,
    Line,
    Refusals,
}

impl Command {
    /// The command that these arguments make, or what is wrong with them.
    pub fn parse(args: impl IntoIterator<Item = String>) -> Result<Command, String> {
        let (mut calls, mut seed, mut first) = (10_000_000, 1, false);
        let mut instead = None;
        let mut args = args.into_iter();
        while let Some(arg) = args.next() {
            match arg.as_str() {
                "--help" => return Ok(Command::Help),
                "--vectors" => instead = Some(Command::Vectors),
                "--listed" => instead = Some(Command::Listed),
                "--units" => instead = Some(Command::Units),
                "--line" => instead = Some(Command::Line),
                "--refusals" => instead = Some(Command::Refusals),
                "--first" => first = true,
                "--calls" => calls = number(&arg, args.next())?,
                "--seed" => seed = number(&arg, args.next())?,
                _ => return Err(format!("unknown argument `{arg}`")),
            }
        }
        Ok(instead.unwrap_or(Command::Compare { calls, seed, first }))
    }
}

fn number(option: &str, given: Option<String>) -> Result<u64, String> {
    let given = given.ok_or(format!("{option} needs a number"))?;
    given
        .parse()
        .map_err(|_| format!("{option} needs a number, not `{given}`"))
}

#[cfg(test)]
mod tests {
    use super::Command;

    fn parse(line: &str) -> Result<Command, String> {
        Command::parse(line.split_whitespace().map(String::from))
    }

    #[test]
    fn arguments_are_taken() {
        let compare = |calls, seed, first| Ok(Command::Compare { calls, seed, first });
        assert_eq!(parse(""), compare(10_000_000, 1, false));
        assert_eq!(parse("--calls 7 --first"), compare(7, 1, true));
        assert_eq!(parse("--seed 2"), compare(10_000_000, 2, false));
        assert_eq!(parse("--vectors"), Ok(Command::Vectors));
        assert_eq!(parse("--listed"), Ok(Command::Listed));
        assert_eq!(parse("--units"), Ok(Command::Units));
        assert_eq!(parse("--line"), Ok(Command::Line));
        assert_eq!(parse("--refusals"), Ok(Command::Refusals));
        assert_eq!(parse("--first --help"), Ok(Command::Help));
    }

    #[test]
    fn other_arguments_are_refused() {
        for line in ["--quick", "--calls", "--calls many", "--seed -1", "ten"] {
            assert!(parse(line).is_err(), "{line}");
        }
    }
}
