//! Plays a firmware's session on a small monitor, and tells it. The status is 0 if all goes as the
//! story says.

mod decode;
mod monitor;
mod show;
mod story;

use std::error::Error;
use std::io;
use std::process::ExitCode;

use vhart::{Word, X};

use decode::decode;
use monitor::{Deed, Monitor, Tally};
use show::{Colour, Screen};
use story::{Event, END, FIRST, INTRODUCTION, LAST, SCENES, START};

fn main() -> ExitCode {
    match play(&mut Screen::new()) {
        Err(why) if !is_reader_gone(why.as_ref()) => {
            eprintln!("error: {why}");
            ExitCode::FAILURE
        }
        _ => ExitCode::SUCCESS,
    }
}

/// Whether whoever reads the output has seen enough, as `head` has.
fn is_reader_gone(why: &(dyn Error + 'static)) -> bool {
    why.downcast_ref::<io::Error>()
        .is_some_and(|why| why.kind() == io::ErrorKind::BrokenPipe)
}

fn play(screen: &mut Screen) -> Result<(), Box<dyn Error>> {
    let caps = story::board();
    caps.check()?;
    let mut monitor = Monitor::start(caps, START)?;
    screen.text(Colour::Plain, "", INTRODUCTION)?;
    screen.text(Colour::Plain, "", "")?;
    screen.text(Colour::Bold, " 1  ", FIRST)?;
    screen.changes(None, &monitor.hart)?;
    for (number, (told, pc, event, leaves)) in (2..).zip(&SCENES) {
        screen.text(Colour::Bold, &format!("{number:2}  "), told)?;
        screen.text(Colour::Cyan, &format!("    {pc:#x}  "), &in_words(event))?;
        // What the firmware did by itself since then, as the entry of a trap saves it.
        monitor.hart.set(Word::Pc, *pc);
        if let Event::Runs(_, x5) = event {
            monitor.hart.set_x(X(5), *x5);
        }
        let before = monitor.hart.clone();
        let outcome = match event {
            Event::Runs(word, _) => monitor.on_illegal(*word),
            Event::Timer(is_due) => monitor.on_timer(*is_due),
            Event::Strays(word, value) => {
                monitor.hart.set(*word, *value);
                Ok(())
            }
        };
        for deed in monitor.deeds.drain(..) {
            match deed {
                Deed::Did(deed) => screen.text(Colour::Plain, "    monitor     ", &deed)?,
                Deed::Refused(why) => screen.text(Colour::Red, "    REFUSED     ", &why)?,
            }
        }
        screen.changes(Some(&before), &monitor.hart)?;

        let mut expected = before;
        leaves
            .iter()
            .for_each(|(word, value)| expected.set(*word, *value));
        let end = (number > SCENES.len()).then_some(END);
        if monitor.hart != expected || outcome.err() != end || !monitor.seip_agrees() {
            return Err(format!("scene {number} went otherwise than its heading says").into());
        }
    }
    screen.text(Colour::Plain, "", "")?;
    screen.text(Colour::Bold, "", &summary(&monitor.tally))?;
    screen.text(Colour::Bold, "", LAST)?;
    Ok(())
}

fn summary(tally: &Tally) -> String {
    format!(
        "Summary: {} instructions; {} calls done, {} refused; {} trap and {} interrupt to the firmware.",
        tally.instructions, tally.done, tally.refused, tally.traps, tally.interrupts
    )
}

fn in_words(event: &Event) -> String {
    match event {
        Event::Runs(word, x5) => match decode(*word) {
            Some(instruction) if *x5 == 0 => format!("{instruction}"),
            Some(instruction) => format!("{instruction}  (x5={x5:#x})"),
            None => format!("{word:#x}"),
        },
        Event::Timer(true) => "the timer's interrupt".into(),
        Event::Timer(false) => "a store to mtimecmp".into(),
        Event::Strays(..) => "a stray store into the record".into(),
    }
}
