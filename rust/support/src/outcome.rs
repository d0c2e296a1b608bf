//! What a command comes to: a report, or why it stopped. Each is told to people and as JSON.

use std::ffi::{OsStr, OsString};

use crate::arguments::shown;
use crate::json::Json;
use crate::prose::{wrapped, COLUMNS};

pub type Outcome = Result<Report, Stop>;

/// What a command has to say.
#[derive(Debug, Default, PartialEq)]
pub struct Report {
    pub lines: Vec<Line>,
    /// The same, behind the keys that every object has.
    pub fields: Vec<(&'static str, Json)>,
}

/// A line, which begins with what it is about.
#[derive(Debug, PartialEq)]
pub struct Line {
    pub about: String,
    pub text: String,
}

impl Line {
    /// A file, and what came of it.
    pub fn head(name: &OsStr, came: &str) -> Line {
        Line {
            about: shown(name),
            text: format!(": {came}"),
        }
    }

    /// A text behind a label, below which other labels can stand.
    pub fn new(about: &str, text: &str) -> Line {
        let text = format!("  {text}");
        Line {
            about: format!("{about:<10}"),
            text: text.trim_end().into(),
        }
    }

    /// A number, and behind it what it says in words.
    pub fn number(about: &str, number: u64, words: &str) -> Vec<Line> {
        Line::columns(about, &format!("{number:#x}"), words)
    }

    /// A count and its share, below which others can stand, and words.
    pub fn count(about: &str, count: u64, share: &str, words: &str) -> Vec<Line> {
        Line::columns(about, &format!("{count:>11}{share:>7}"), words)
    }

    /// A label and two texts. The second goes on in further lines, below where it begins.
    pub fn columns(about: &str, first: &str, words: &str) -> Vec<Line> {
        let before = format!("{first:<18}  ");
        let width = COLUMNS - 12 - before.len();
        let mut lines = Vec::new();
        for (place, words) in wrapped(words, width).into_iter().enumerate() {
            lines.push(match place {
                0 => Line::new(about, &(before.clone() + &words)),
                _ => Line::new("", &(" ".repeat(before.len()) + &words)),
            });
        }
        lines
    }

    /// Prose below a label, in as many lines as it takes.
    pub fn prose(text: &str) -> Vec<Line> {
        let lines = wrapped(text, COLUMNS - 12);
        lines.iter().map(|text| Line::new("", text)).collect()
    }
}

/// Why a command wasn't done.
#[derive(Debug, PartialEq)]
pub enum Stop {
    /// The library refuses what a file or the words say.
    Refused {
        /// What is refused, by its key in an object.
        what: (&'static str, OsString),
        /// None for a refusal of the binding's own.
        number: Option<u64>,
        text: String,
        /// What can be told of it all the same.
        found: Box<Report>,
    },
    /// The arguments are wrong.
    Usage(String),
    /// A file can't be read or written.
    File(String),
}

impl Stop {
    pub fn refused(file: &OsStr, number: Option<u64>, text: String) -> Stop {
        Stop::Refused {
            what: ("file", file.into()),
            number,
            text,
            found: Box::default(),
        }
    }

    /// With what can be told of what is refused.
    pub fn with(mut self, report: Report) -> Stop {
        if let Stop::Refused { found, .. } = &mut self {
            **found = report;
        }
        self
    }

    pub fn status(&self) -> u8 {
        match self {
            Stop::Refused { .. } => 1,
            Stop::Usage(_) | Stop::File(_) => 2,
        }
    }

    pub fn fields(&self) -> Vec<(&'static str, Json)> {
        match self {
            Stop::Refused {
                what: (key, name),
                number,
                text,
                found,
            } => {
                let refusal = Json::Object(vec![
                    ("number", number.map_or(Json::Null, Json::Number)),
                    ("text", Json::Text(text.clone())),
                ]);
                let mut fields = vec![(*key, Json::name(name)), ("refusal", refusal)];
                fields.extend(found.fields.iter().cloned());
                fields
            }
            Stop::Usage(text) | Stop::File(text) => vec![("error", Json::Text(text.clone()))],
        }
    }
}

/// Which of the three it is, as every object says first.
pub fn kind(outcome: &Outcome) -> &'static str {
    match outcome {
        Ok(_) => "done",
        Err(Stop::Refused { .. }) => "refused",
        Err(Stop::Usage(_) | Stop::File(_)) => "error",
    }
}
