//! The commands: how one is found, what its help says, and what is wrong usage of any of them.

use std::ffi::{OsStr, OsString};

use crate::arguments::{shown, Request};
use crate::outcome::{Outcome, Stop};
use crate::screen::Output;

pub struct Command {
    pub name: &'static str,
    /// What it takes, as its usage shows it.
    pub takes: &'static str,
    /// What it does, in a line.
    pub about: &'static str,
    /// What its help says beyond that.
    pub help: &'static str,
    pub does: Does,
}

pub enum Does {
    /// It has commands of its own.
    Has(&'static [&'static Command]),
    Runs(fn(&[OsString]) -> Outcome),
    /// It has an option too, which names a file.
    Keeps(&'static Naming, fn(&[OsString], Option<&OsStr>) -> Outcome),
    /// The same, and it prints items while it runs.
    Prints(
        &'static Naming,
        fn(&[OsString], Option<&OsStr>, &mut Output) -> Outcome,
    ),
}

/// An option that names a file.
pub struct Naming {
    pub option: &'static str,
    /// What it does, in a line.
    pub about: &'static str,
}

/// A command that was asked for.
pub struct Asked<'a> {
    command: &'a Command,
    /// Its names from the first one on.
    pub path: String,
    /// The words behind them.
    words: &'a [OsString],
}

pub enum Answer {
    Text(String),
    Came(Outcome),
}

const OBJECT: &str =
    "  --json         print one JSON object on standard output, also if it is refused or goes wrong
";

const OBJECTS: &str =
    "  --json         print a JSON object for each entry, each in a line, and then one for the whole,
                 also if it is refused or goes wrong
";

const OPTIONS: &str = "  --help, -h     print this
  --version, -V  print the version

";

const FORMS: &str =
    " begins with its outcome (done, refused or error) and the command. A refusal has
a number and a text. Words of 64 bits are text too, such as \"0x1f\".

Exit status: 0 done; 1 refused by the library; 2 wrong usage, or a file or standard output that
can't be used.
Colours are for terminals alone, and NO_COLOR=1 turns them off.
";

impl Command {
    /// The command that the words name, as far as they do.
    pub fn find<'a>(&'a self, words: &'a [OsString]) -> Asked<'a> {
        let mut asked = Asked {
            command: self,
            path: self.name.into(),
            words,
        };
        while let (Does::Has(commands), Some((first, rest))) =
            (&asked.command.does, asked.words.split_first())
        {
            let Some(command) = commands.iter().find(|command| first == command.name) else {
                break;
            };
            asked.command = command;
            asked.path += " ";
            asked.path += command.name;
            asked.words = rest;
        }
        asked
    }

    fn help(&self, path: &str) -> String {
        let mut text = format!("{}\n\nUsage: {path} {}\n\n", self.about, self.takes);
        if let Does::Has(commands) = self.does {
            text += "Commands:\n";
            for command in commands {
                text += &format!("  {:<13}  {}\n", command.name, command.about);
            }
            text += &format!("\n{path} COMMAND --help says more of each.\n\n");
        }
        if !self.help.is_empty() {
            text += &format!("{}\n", self.help);
        }
        text += "Options:\n";
        if let Some(Naming { option, about }) = self.naming() {
            let option = format!("{option} FILE");
            text += &format!("  {option:<13}  {about}\n");
        }
        let (json, object) = match self.does {
            Does::Prints(..) => (OBJECTS, "What it prints last"),
            _ => (OBJECT, "What --json prints"),
        };
        text + json + OPTIONS + object + FORMS
    }

    /// The option by which it names a file, if it has one.
    fn naming(&self) -> Option<&'static Naming> {
        match self.does {
            Does::Keeps(naming, _) | Does::Prints(naming, _) => Some(naming),
            Does::Has(_) | Does::Runs(_) => None,
        }
    }

    /// The first option that it doesn't have.
    fn unknown<'a>(&self, request: &'a Request) -> Option<&'a OsStr> {
        let own = self.naming().map(|naming| naming.option);
        let mut named = request.named.iter().map(|(option, _)| *option);
        let other = named.find(|option| Some(*option) != own);
        request.unknown.as_deref().or(other.map(OsStr::new))
    }

    fn options(&self) -> String {
        let own = self.naming().map(|naming| format!("{}, ", naming.option));
        format!("{}--json, --help and --version", own.unwrap_or_default())
    }
}

/// The file that an option names, or what is wrong with it.
fn file<'a>(naming: &Naming, request: &'a Request) -> Result<Option<&'a OsStr>, String> {
    let option = naming.option;
    match &request.named[..] {
        [] => Ok(None),
        [(_, Some(file))] => Ok(Some(file)),
        [(_, None)] => Err(format!("{option}: FILE isn't given")),
        [_, _, ..] => Err(format!("{option}: is given twice")),
    }
}

impl Asked<'_> {
    pub fn answer(&self, request: &Request, output: &mut Output) -> Answer {
        let path = &self.path;
        if request.is_version {
            return Answer::Text(format!("vhart {}\n", env!("CARGO_PKG_VERSION")));
        }
        let unknown = self.command.unknown(request);
        let wrong = match (unknown, &self.command.does, self.words) {
            (Some(unknown), _, _) => format!(
                "{}: no such option; there are {}",
                shown(unknown),
                self.command.options()
            ),
            (_, Does::Has(commands), [first, ..]) => format!(
                "{}: no such command; {path} has: {}",
                shown(first),
                names(commands)
            ),
            _ if request.is_help => return Answer::Text(self.command.help(path)),
            (_, Does::Has(commands), []) => format!("{path} needs a command: {}", names(commands)),
            (_, Does::Runs(run), words) => return Answer::Came(run(words)),
            (_, Does::Keeps(naming, run), words) => match file(naming, request) {
                Ok(file) => return Answer::Came(run(words, file)),
                Err(wrong) => wrong,
            },
            (_, Does::Prints(naming, run), words) => match file(naming, request) {
                Ok(file) => return Answer::Came(run(words, file, output)),
                Err(wrong) => wrong,
            },
        };
        Answer::Came(Err(Stop::Usage(wrong)))
    }
}

fn names(commands: &[&Command]) -> String {
    let names: Vec<_> = commands.iter().map(|command| command.name).collect();
    names.join(", ")
}
