//! The lines of stored vectors, in the format that the head of crates/vectors/stdin says.
use core::fmt::{self, Display, Formatter};

use crate::image::{changed, HartWords};
use crate::interface::{Args, Entry};
use crate::outcome::Outcome;

/// A name and its numbers.
pub struct Line<'a>(pub &'a str, pub &'a [u64]);

impl Display for Line<'_> {
    fn fmt(&self, f: &mut Formatter) -> fmt::Result {
        f.write_str(self.0)?;
        self.1
            .iter()
            .try_for_each(|number| write!(f, " {number:x}"))
    }
}

/// A call, what it gives, and the words that it leaves changed.
pub struct Vector<'a> {
    pub entry: Entry,
    pub args: &'a Args,
    pub outcome: &'a Outcome,
    pub before: &'a HartWords,
    pub after: &'a HartWords,
}

impl Display for Vector<'_> {
    fn fmt(&self, f: &mut Formatter) -> fmt::Result {
        let numbers = &self.args[..self.entry.arity()];
        let given = [self.outcome.answer, self.outcome.effect];
        write!(f, "{}", Line(self.entry.name(), numbers))?;
        write!(f, "{}", Line(" =", &given))?;
        changed(self.before, self.after)
            .try_for_each(|word| write!(f, "{}", Line("", &[word as u64, self.after[word]])))
    }
}
