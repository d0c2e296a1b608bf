//! How far long work is: one line of standard error, written over, and on a terminal alone.

use std::io::{self, IsTerminal, Write};
use std::time::{Duration, Instant};

/// So often the line is written anew, and work that is done sooner has none.
const EVERY: Duration = Duration::from_millis(500);

/// The clock is looked at once in so many steps, since a step takes less time than that.
const STEPS: u64 = 1 << 10;

pub struct Progress {
    about: String,
    /// When the line was written last, or the work began. None if there is no terminal.
    last: Option<Instant>,
    /// How many columns are to be cleared.
    width: usize,
}

impl Progress {
    pub fn new(about: String) -> Progress {
        Progress {
            about,
            last: io::stderr().is_terminal().then(Instant::now),
            width: 0,
        }
    }

    /// The same for work that prints as it goes: on a terminal that shows how far it is.
    pub fn beside_output(about: String) -> Progress {
        let mut progress = Progress::new(about);
        progress.last = progress.last.filter(|_| !io::stdout().is_terminal());
        progress
    }

    /// A step, of which there may be many in no time.
    pub fn at(&mut self, step: u64) {
        if step % STEPS == 0 {
            self.now(step);
        }
    }

    /// A step that takes longer than a look at the clock.
    pub fn now(&mut self, step: u64) {
        if self.last.is_some_and(|last| last.elapsed() >= EVERY) {
            let line = format!("{} {step}", self.about);
            self.width = line.chars().count();
            self.last = Some(Instant::now());
            write(&format!("\r{line}"));
        }
    }
}

/// What is told next begins in an empty line.
impl Drop for Progress {
    fn drop(&mut self) {
        if self.width > 0 {
            write(&format!("\r{}\r", " ".repeat(self.width)));
        }
    }
}

/// Work goes on also if nobody can be told how far it is.
fn write(text: &str) {
    let _ = io::stderr().write_all(text.as_bytes());
}
