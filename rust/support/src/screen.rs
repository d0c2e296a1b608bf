//! What is printed: results on standard output, why there is none on standard error, coloured on a
//! terminal. What can't be printed never panics.

use std::env;
use std::io::{self, BufWriter, IsTerminal, StdoutLock, Write};

use crate::arguments::shown;
use crate::json::Json;
use crate::outcome::{kind, Line, Outcome, Stop};

/// So many bytes are printed at once, if there are as many.
const BUFFERED: usize = 0x10000;

/// Prints what a command came to, behind what it has printed, and gives the status of it.
pub fn show(outcome: &Outcome, command: &str, mut output: Output) -> u8 {
    let status = match outcome {
        Ok(_) => 0,
        Err(stop) => {
            tell(stop, command);
            stop.status()
        }
    };
    match outcome {
        _ if output.is_json => output.print(&format!("{}\n", object(outcome, command))),
        Ok(report) => output.lines(&report.lines),
        Err(Stop::Refused { found, .. }) => output.lines(&found.lines),
        Err(_) => {}
    }
    output.end().unwrap_or(status)
}

/// Prints a text that was asked for, such as help.
pub fn show_text(text: &str, mut output: Output) -> u8 {
    output.print(text);
    output.end().unwrap_or(0)
}

/// What a command prints while it runs, one after the other.
pub trait Item {
    fn line(&self) -> Line;
    fn json(&self) -> Json;
}

/// Standard output. Behind what can't be written, nothing is.
pub struct Output {
    out: BufWriter<StdoutLock<'static>>,
    is_json: bool,
    is_coloured: bool,
    wrong: Option<io::Error>,
}

impl Output {
    pub fn new(is_json: bool) -> Output {
        Output {
            is_coloured: is_coloured(&io::stdout()),
            out: BufWriter::with_capacity(BUFFERED, io::stdout().lock()),
            is_json,
            wrong: None,
        }
    }

    /// Prints an item, or keeps it to be printed with those behind it.
    pub fn item(&mut self, item: &impl Item) {
        match self.is_json {
            true => self.print(&format!("{}\n", item.json())),
            false => self.lines(&[item.line()]),
        }
    }

    /// Prints what was kept.
    pub fn flush(&mut self) {
        if self.wrong.is_none() {
            self.wrong = self.out.flush().err();
        }
    }

    /// Why nothing is printed any more.
    pub fn wrong(&self) -> Option<io::ErrorKind> {
        self.wrong.as_ref().map(io::Error::kind)
    }

    fn lines(&mut self, lines: &[Line]) {
        for Line { about, text } in lines {
            self.print(&match self.is_coloured {
                true => format!("\x1b[1m{about}\x1b[0m{text}\n"),
                false => format!("{about}{text}\n"),
            });
        }
    }

    fn print(&mut self, text: &str) {
        if self.wrong.is_none() {
            self.wrong = self.out.write_all(text.as_bytes()).err();
        }
    }

    /// The status where printing failed. A reader that has seen enough, as `head` has, is no
    /// failure.
    fn end(mut self) -> Option<u8> {
        self.flush();
        // What is left isn't tried again.
        let (_, _) = self.out.into_parts();
        let why = self.wrong?;
        if why.kind() == io::ErrorKind::BrokenPipe {
            return None;
        }
        let _ = writeln!(io::stderr(), "error: standard output: {why}");
        Some(2)
    }
}

fn object(outcome: &Outcome, command: &str) -> Json {
    let fields = match outcome {
        Ok(report) => report.fields.clone(),
        Err(stop) => stop.fields(),
    };
    let first = [("outcome", kind(outcome)), ("command", command)];
    let first = first.map(|(key, text)| (key, Json::Text(text.into())));
    Json::Object(first.into_iter().chain(fields).collect())
}

/// Why there is no result, the same with and without JSON.
fn tell(stop: &Stop, command: &str) {
    let (label, text, hint) = match stop {
        Stop::Refused { what, text, .. } => {
            ("refused", format!("{}: {text}", shown(&what.1)), None)
        }
        Stop::Usage(text) => ("error", text.clone(), Some(format!("{command} --help"))),
        Stop::File(text) => ("error", text.clone(), None),
    };
    let mut text = match is_coloured(&io::stderr()) {
        true => format!("\x1b[1;31m{label}:\x1b[0m {text}\n"),
        false => format!("{label}: {text}\n"),
    };
    if let Some(hint) = hint {
        text += &format!("try: {hint}\n");
    }
    // There is nowhere else to tell it.
    let _ = io::stderr().write_all(text.as_bytes());
}

fn is_coloured(stream: &impl IsTerminal) -> bool {
    let no_color = env::var_os("NO_COLOR").unwrap_or_default();
    let term = env::var_os("TERM").unwrap_or_default();
    stream.is_terminal() && no_color.is_empty() && term != "dumb"
}
