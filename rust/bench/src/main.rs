//! Compares the library with the peers written by hand: that they agree, and what a call costs
//! beside them and the original.
mod caller;
mod direct;
mod empty;
mod explaining;
mod linked;
mod measurement;
mod options;
mod pool;
mod replaying;
mod subject;
mod table;

use std::env;
use std::io::{self, Write};
use std::process::ExitCode;
use std::thread;

use caller::Callee;
use empty::EMPTY;
use library::LIBRARY;
use measurement::{Competitor, Measurement};
use options::{Command, USAGE};
use peers::agreement::Reached;
use peers::inputs::Rng;
use peers::interface::{Entry, Interface, TABLE, WHOLE};
use peers::outcome::Refusal;
use peers::{calls, files, logs, lost, totals, whole};
use pool::Pool;
use replaying::{Replaying, Routines, Way};
use subject::Subject;
use table::{Row, Table};

const ALL: [Interface; 3] = [LIBRARY, WHOLE, TABLE];

/// Every row is measured in each sweep, so that a slow second of the machine spoils none.
const SWEEPS: usize = 10;
/// The rounds of a row in a sweep.
const ROUNDS: usize = 100;

fn main() -> ExitCode {
    let args = env::args_os().skip(1);
    let args = args.map(|arg| arg.to_string_lossy().into_owned());
    let done = match Command::parse(args) {
        Ok(Command::Help) => {
            println!("{USAGE}");
            Ok(())
        }
        Ok(Command::Check { inputs }) => check(inputs),
        Ok(Command::Measure { inputs, ns, limits }) => {
            check(inputs).and_then(|()| measure(ns, limits))
        }
        Ok(Command::Rows) => show(&subject::names()),
        Ok(Command::Calls { row }) => {
            subject::find(&row).and_then(|row| show(&Pool::new(row).calls(row.entry)))
        }
        Ok(Command::Count { row, name, callee }) => match Way::find(&row) {
            Some(way) => count_log(way, &name, callee),
            None => subject::find(&row).and_then(|row| count(row, &name, callee)),
        },
        Err(why) => {
            eprintln!("error: {why}\n\n{USAGE}");
            return ExitCode::from(2);
        }
    };
    match done {
        Ok(()) => ExitCode::SUCCESS,
        Err(why) => {
            eprintln!("error: {why}");
            ExitCode::FAILURE
        }
    }
}

/// Checks that all agree on so many inputs of each entry, and that these reach every refusal, every
/// reason of a lost bit, the limit of every total, and every refusal of an entry in a call log. The
/// two checks are asked of the images of all of them, and the two entries for a settings file share
/// their inputs, as do the two for a call log.
fn check(inputs: u64) -> Result<(), String> {
    let mut checks = <[Reached; 2]>::default();
    for entry in Entry::ALL {
        let rng = &mut Rng::new(entry as u64);
        let reached = calls::check(&ALL, entry, rng, inputs, &mut checks);
        let reached = reached.map_err(|d| d.to_string())?;
        tell(entry.name(), &reached, whole::refusals(entry))?;
    }
    let rng = &mut Rng::new(Entry::ALL.len() as u64);
    let settings = files::check(&ALL, rng, inputs).map_err(|d| d.to_string())?;
    let mut others = whole::CHECKS
        .into_iter()
        .chain(whole::SETTINGS)
        .zip(checks.into_iter().chain(settings));
    others.try_for_each(|((name, refusals), reached)| tell(name, &reached, refusals))?;
    let rng = &mut Rng::new(Entry::ALL.len() as u64 + 1);
    let (reached, reasons) = lost::check(&ALL, rng, inputs).map_err(|d| d.to_string())?;
    tell("explain", &reached, whole::EXPLAIN)?;
    eprintln!("  {reasons}");
    if !reasons.is_complete() {
        return Err("explain didn't give each of its reasons; there may be too few inputs".into());
    }
    let rng = &mut Rng::new(Entry::ALL.len() as u64 + 2);
    let (reached, full) = totals::check(&ALL, rng, inputs).map_err(|d| d.to_string())?;
    tell("tally", &reached, whole::TALLY)?;
    eprintln!("  {full}");
    if !full.is_complete() {
        return Err("tally wasn't refused by each total; there may be too few inputs".into());
    }
    let rng = &mut Rng::new(Entry::ALL.len() as u64 + 3);
    let (reached, logged) = logs::check(&ALL, rng, inputs).map_err(|d| d.to_string())?;
    let mut logs = whole::LOGS.into_iter().zip(reached);
    logs.try_for_each(|((name, refusals), reached)| tell(name, &reached, refusals))?;
    eprintln!("  entries of the logs: {logged}");
    if !logged.is_complete(whole::LOGGED) {
        return Err("not each refusal of an entry was put out; there may be too few inputs".into());
    }
    Ok(())
}

fn tell(name: &str, reached: &Reached, refusals: &[Refusal]) -> Result<(), String> {
    eprintln!("all agree on {name}: {reached}");
    if !reached.is_complete(refusals) {
        return Err(format!(
            "{name} didn't give each of its refusals and no other; there may be too few inputs"
        ));
    }
    Ok(())
}

/// Measures every row, shows the table, and holds it to the limits if asked to.
fn measure(ns: bool, limits: bool) -> Result<(), String> {
    // a thread's stack begins a page, while where main's begins depends on the environment
    let (columns, [entries, cases, plain, explaining], replay) = thread::spawn(rows)
        .join()
        .expect("the measuring thread goes through");
    let table = Table::new(columns, entries, cases, plain, explaining, replay, ns);
    print!("{table}");
    let excesses = table.excesses();
    if limits && !excesses.is_empty() {
        let excesses = excesses.join("\n  ");
        return Err(format!("the library is too slow\n  {excesses}"));
    }
    Ok(())
}

fn measurements(subjects: impl IntoIterator<Item = Subject>) -> Vec<Measurement> {
    let subjects = subjects.into_iter();
    subjects
        .map(|subject| Measurement::new(&ALL, subject))
        .collect()
}

/// The columns' names, the entries' rows, those of the pending question by case, those of the plain
/// entries, and those of explain and tally, which are the library's alone, as are those of replay.
fn rows() -> (Vec<&'static str>, [Vec<Row>; 4], [Row; 2]) {
    let mut rng = Rng::new(0);
    let mut logs = [Routines::Stocked, Routines::Drawn]
        .map(|routines| Replaying::new(routines, replaying::TIMED));
    let mut groups = [
        measurements(subject::entries()),
        measurements(subject::PENDING),
        measurements(subject::plain()),
        Vec::from(subject::explaining().map(|subject| Measurement::new(&[LIBRARY], subject))),
    ];
    for sweep in 1..=SWEEPS {
        eprintln!("measuring, sweep {sweep} of {SWEEPS}");
        for measurement in groups.iter_mut().flatten() {
            for _ in 0..ROUNDS {
                measurement.round(&mut rng);
            }
        }
        for log in &mut logs {
            log.round(&LIBRARY);
        }
    }
    let columns = groups[0][0].competitors.iter().map(|one| one.name);
    let row = |measurement: &Measurement| Row {
        name: measurement.name,
        ns: measurement
            .competitors
            .iter()
            .map(Competitor::nanoseconds)
            .collect(),
    };
    let rows = |group: &Vec<Measurement>| group.iter().map(row).collect();
    (
        columns.collect(),
        groups.each_ref().map(rows),
        logs.each_ref().map(Replaying::row),
    )
}

/// Makes one round of a row's calls, for callgrind to count, and says how many they are.
fn count(row: Subject, name: &str, callee: Callee) -> Result<(), String> {
    let calls = Measurement::new(&ALL, row).single(&mut Rng::new(0), name, callee);
    println!("{}", calls.ok_or(format!("--count knows no `{name}`"))?);
    Ok(())
}

/// Makes the calls of a log once, for callgrind to count, and says how many they are.
fn count_log(way: Way, name: &str, callee: Callee) -> Result<(), String> {
    let of = match callee {
        Callee::Own => ALL.into_iter().find(|one| one.name == name),
        Callee::Empty => Some(EMPTY),
    };
    let of = of.ok_or(format!("--count knows no `{name}` that replays a log"))?;
    Replaying::new(Routines::Stocked, replaying::COUNTED).single(&of, way);
    println!("{}", replaying::COUNTED);
    Ok(())
}

/// Prints a text that another program may stop reading before its end.
fn show(text: &str) -> Result<(), String> {
    io::stdout()
        .write_all(text.as_bytes())
        .map_err(|why| why.to_string())
}
