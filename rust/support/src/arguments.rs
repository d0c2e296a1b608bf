//! The arguments: the options that commands have, and the words that are left.

use std::ffi::{OsStr, OsString};
use std::os::unix::ffi::OsStrExt;

#[derive(Debug, Default, PartialEq)]
pub struct Request {
    /// The command, and what it takes.
    pub words: Vec<OsString>,
    pub is_json: bool,
    pub is_help: bool,
    pub is_version: bool,
    /// The options that name a file, each with what it names, if it names anything.
    pub named: Vec<(&'static str, Option<OsString>)>,
    /// The first option that there isn't.
    pub unknown: Option<OsString>,
}

/// The options that name a file. A command has one of them at most.
pub const STATE: &str = "--state";
pub const SAVE: &str = "--save";

/// Options may stand anywhere before `--`; a `-` alone is a word.
impl<I: Iterator<Item = OsString>> From<I> for Request {
    fn from(arguments: I) -> Request {
        let mut arguments = arguments.peekable();
        let mut request = Request::default();
        while let Some(argument) = arguments.next() {
            match argument.to_str() {
                Some("--") => request.words.extend(arguments.by_ref()),
                Some("--json") => request.is_json = true,
                Some("--help" | "-h") => request.is_help = true,
                Some("--version" | "-V") => request.is_version = true,
                _ => match naming(&argument) {
                    Some((option, None)) => {
                        let name = arguments.next_if(|next| !is_option(next));
                        request.named.push((option, name));
                    }
                    Some(named) => request.named.push(named),
                    None if is_option(&argument) => {
                        request.unknown.get_or_insert(argument);
                    }
                    None => request.words.push(argument),
                },
            }
        }
        // `vhart help settings` is `vhart settings --help`.
        if request.words.first().is_some_and(|word| word == "help") {
            request.words.remove(0);
            request.is_help = true;
        }
        request
    }
}

/// An option that names a file, and the name if it has it behind a `=`.
fn naming(argument: &OsStr) -> Option<(&'static str, Option<OsString>)> {
    [STATE, SAVE].into_iter().find_map(|option| {
        match argument.as_bytes().strip_prefix(option.as_bytes())? {
            b"" => Some((option, None)),
            [b'=', name @ ..] => Some((option, Some(OsStr::from_bytes(name).into()))),
            _ => None,
        }
    })
}

fn is_option(argument: &OsStr) -> bool {
    let bytes = argument.as_encoded_bytes();
    bytes.len() > 1 && bytes[0] == b'-'
}

/// An argument as messages show it: what isn't text is replaced, and what would move the cursor or
/// end the line is escaped.
pub fn shown(argument: impl AsRef<OsStr>) -> String {
    let mut shown = String::new();
    for c in argument.as_ref().to_string_lossy().chars() {
        match c.is_control() {
            true => shown.extend(c.escape_default()),
            false => shown.push(c),
        }
    }
    match shown.is_empty() {
        true => "''".into(),
        false => shown,
    }
}

#[cfg(test)]
mod tests {
    use std::ffi::OsString;
    use std::os::unix::ffi::OsStringExt;

    use super::{shown, Request, SAVE, STATE};

    fn request(line: &str) -> Request {
        Request::from(line.split_whitespace().map(OsString::from))
    }

    #[test]
    fn options_stand_anywhere_before_two_dashes() {
        for line in ["--json a b", "a --json b", "a b --json"] {
            let request = request(line);
            assert_eq!((request.words.len(), request.is_json), (2, true), "{line}");
        }
        let request = request("a -- --json -x --");
        assert_eq!(request.words, ["a", "--json", "-x", "--"]);
        assert!(!request.is_json && request.unknown.is_none());
    }

    #[test]
    fn a_file_is_named_behind_its_option_or_in_it() {
        let named = |line: &str| request(line).named;
        let file = |option, name: &str| (option, Some(OsString::from(name)));
        assert_eq!(named("a b"), []);
        for (option, lines) in [
            (STATE, ["--state x a", "a --state x", "--state=x a"]),
            (SAVE, ["--save x a", "a --save x", "--save=x a"]),
        ] {
            for line in lines {
                assert_eq!(request(line).words, ["a"], "{line}");
                assert_eq!(named(line), [file(option, "x")], "{line}");
            }
        }
        assert_eq!(named("a --state -"), [file(STATE, "-")]);
        assert_eq!(named("a --save="), [file(SAVE, "")]);
        assert_eq!(
            named("a --state x --save=y"),
            [file(STATE, "x"), file(SAVE, "y")]
        );
        for line in ["a --state", "a --state --json", "a --state -- b"] {
            assert_eq!(named(line), [(STATE, None)], "{line}");
        }
        assert_eq!(request("--stat --states x").unknown, Some("--stat".into()));
        let bytes = OsString::from_vec(b"--state=\xff".to_vec());
        let request = Request::from([bytes].into_iter());
        let name = OsString::from_vec(b"\xff".to_vec());
        assert_eq!(request.named, [(STATE, Some(name))]);
    }

    #[test]
    fn help_is_an_option_and_a_first_word() {
        assert_eq!(request("help a b"), request("a b --help"));
        assert_eq!(request("a -h"), request("a --help"));
        assert!(!request("a help").is_help);
    }

    #[test]
    fn what_is_no_option_is_kept() {
        let request = request("a --jsn -q -");
        assert_eq!(request.unknown, Some("--jsn".into()));
        assert_eq!(request.words, ["a", "-"]);
    }

    #[test]
    fn arguments_need_not_be_text() {
        let bytes = OsString::from_vec(b"-\xff".to_vec());
        let request = Request::from([bytes.clone()].into_iter());
        assert_eq!(request.unknown, Some(bytes.clone()));
        assert_eq!(shown(&bytes), "-\u{fffd}");
        assert_eq!(shown("a\x1b[1m\nb c"), "a\\u{1b}[1m\\nb c");
        assert_eq!(shown(""), "''");
    }
}
