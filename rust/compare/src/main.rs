//! Compares the library with the original: the same calls on the same records, all but for the
//! listed bits.
mod call;
mod difference;
mod dispatch;
mod features;
mod line;
mod options;
mod refusals;
mod report;
mod smallest;
mod units;
mod vectors;
mod walk;

use std::env;
use std::panic;
use std::process::ExitCode;

use difference::LISTED;
use dispatch::Dispatch;
use options::{Command, USAGE};
use peers::inputs::Rng;
use report::Report;

fn main() -> ExitCode {
    // the original's panics are caught and told
    panic::set_hook(Box::new(|_| {}));
    let args = env::args_os().skip(1);
    let args = args.map(|arg| arg.to_string_lossy().into_owned());
    match Command::parse(args) {
        Ok(Command::Help) => println!("{USAGE}"),
        Ok(Command::Listed) => LISTED.iter().for_each(|listed| println!("{listed}")),
        Ok(Command::Units) => units::rows().for_each(|row| println!("{row}")),
        Ok(Command::Line) => line::rows().for_each(|row| println!("{row}")),
        Ok(Command::Refusals) => refusals::rows().for_each(|row| println!("{row}")),
        Ok(Command::Vectors) => return vectors(),
        Ok(Command::Compare { calls, seed, first }) => return compare(calls, seed, first),
        Err(why) => {
            eprintln!("error: {why}\n\n{USAGE}");
            return ExitCode::from(2);
        }
    }
    ExitCode::SUCCESS
}

fn vectors() -> ExitCode {
    match vectors::text() {
        Ok(text) => {
            print!("{text}");
            ExitCode::SUCCESS
        }
        Err(why) => {
            eprintln!("error: {why}");
            ExitCode::FAILURE
        }
    }
}

fn compare(calls: u64, seed: u64, first: bool) -> ExitCode {
    let mut report = Report::new(calls, first);
    walk::walk(&mut Rng::new(seed), &mut report);
    let dispatch = Dispatch::compare();
    print!("{report}{dispatch}");
    let faults = report.faults().or_else(|| dispatch.faults());
    match faults {
        None => {
            println!("\nno difference but the listed ones");
            ExitCode::SUCCESS
        }
        Some(why) => {
            eprintln!("error: {why}");
            ExitCode::FAILURE
        }
    }
}
