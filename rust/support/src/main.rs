//! The program `vhart`: does the command that its arguments name, tells what came of it, and ends
//! with the status for that: 0 done, 1 refused, 2 wrong usage, or a file that can't be used.

#![forbid(unsafe_code)]

mod arguments;
mod command;
mod explain;
mod fields;
mod file;
mod json;
mod log;
mod near;
mod number;
mod outcome;
mod progress;
mod prose;
mod reason;
mod record;
mod register;
mod replay;
mod screen;
mod settings;
mod totals;

use std::env;
use std::process::ExitCode;

use arguments::Request;
use command::{Command, Does};
use screen::Output;

const VHART: Command = Command {
    name: "vhart",
    takes: "COMMAND ..",
    about: "Work with the files of a monitor that is built on libvhart.a.",
    help: "",
    does: Does::Has(&[
        &settings::SETTINGS,
        &record::RECORD,
        &explain::EXPLAIN,
        &totals::TOTALS,
        &replay::REPLAY,
    ]),
};

fn main() -> ExitCode {
    let request = Request::from(env::args_os().skip(1));
    let asked = VHART.find(&request.words);
    let mut output = Output::new(request.is_json);
    let told = match asked.answer(&request, &mut output) {
        command::Answer::Text(text) => screen::show_text(&text, output),
        command::Answer::Came(outcome) => screen::show(&outcome, &asked.path, output),
    };
    ExitCode::from(told)
}
