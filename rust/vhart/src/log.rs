//! A call log: its entries, what they give, and what waits of an entry that isn't whole yet.

use core::array;
use core::fmt;
use core::iter::Take;
use core::slice::ChunksExact;

use crate::answer::{Answer, Effect, Refusal};
use crate::image::{load, store};
use crate::numbers::Csr;

/// The bytes of an entry of a call log.
pub const ENTRY_BYTES: usize = 24;

/// The bytes that are put out for an entry.
pub const RESULT_BYTES: usize = 24;

/// The bytes of a [`Wait`].
pub const WAIT_BYTES: usize = 24;

/// A call that a log can hold: those of [`Hart`](crate::Hart) with these names. What the host hands
/// in isn't logged, so a read finds `Host::default()`.
///
/// ```
/// use vhart::{Csr, Logged};
///
/// let entry = Logged::Write { csr: Csr::MSCRATCH, value: 0x1234 }.to_bytes();
/// let words: Vec<u64> = entry
///     .chunks(8)
///     .map(|word| u64::from_le_bytes(word.try_into().expect("8 bytes")))
///     .collect();
/// assert_eq!(words, [1, 0x340, 0x1234]);
/// ```
#[derive(Clone, Copy, Debug, PartialEq, Eq, Hash)]
#[non_exhaustive]
pub enum Logged {
    /// [`read`](crate::Hart::read).
    Read {
        /// The register.
        csr: Csr,
    },
    /// [`write`](crate::Hart::write).
    Write {
        /// The register.
        csr: Csr,
        /// What is written to it.
        value: u64,
    },
    /// [`inject`](crate::Hart::inject).
    Inject {
        /// The interrupt.
        number: u64,
    },
    /// [`mret`](crate::Hart::mret).
    Mret,
    /// [`sret`](crate::Hart::sret).
    Sret,
}

impl Logged {
    /// Its entry in a log.
    #[must_use]
    pub fn to_bytes(self) -> [u8; ENTRY_BYTES] {
        let words = match self {
            Logged::Read { csr } => [0, csr.0, 0],
            Logged::Write { csr, value } => [1, csr.0, value],
            Logged::Inject { number } => [2, number, 0],
            Logged::Mret => [3, 0, 0],
            Logged::Sret => [4, 0, 0],
        };
        let mut bytes = [0; ENTRY_BYTES];
        for (n, word) in words.into_iter().enumerate() {
            store(&mut bytes, n, word);
        }
        bytes
    }
}

/// What waits of a log between two fragments: the bytes of an entry that isn't whole yet. It is
/// kept beside the record, from [`Wait::new`] at the log's start on.
///
/// Both can be stored, and the log taken up again where it stopped:
///
/// ```
/// use vhart::{misa, Caps, CapsWords, Csr, Hart, Logged, Refusal, Wait, Word};
///
/// let misa = misa::RV64 | misa::I | misa::U;
/// let caps = Caps::from(CapsWords { misa, interrupts: 0x888, ..CapsWords::default() });
/// let mut hart = Hart::fresh(&caps, 0x8000_0000)?;
/// let mut wait = Wait::new();
/// let entry = Logged::Write { csr: Csr::MSCRATCH, value: 5 }.to_bytes();
/// assert_eq!(hart.replay(&caps, &mut wait, &entry[..20], &mut [])?, 0);
/// let stored = (*hart.as_bytes(), *wait.as_bytes());
///
/// let (mut hart, mut wait) = (Hart::from_bytes(stored.0), Wait::from_bytes(stored.1));
/// let mut out = [0; vhart::RESULT_BYTES];
/// assert_eq!(hart.replay(&caps, &mut wait, &entry[20..], &mut out)?, 1);
/// assert_eq!((hart.get(Word::Mscratch), wait), (5, Wait::new()));
/// # Ok::<(), Refusal>(())
/// ```
#[derive(Clone, Default, PartialEq, Eq, Hash)]
#[repr(transparent)]
pub struct Wait {
    bytes: [u8; WAIT_BYTES],
}

impl Wait {
    /// At the start of a log nothing waits.
    #[must_use]
    pub const fn new() -> Wait {
        Wait {
            bytes: [0; WAIT_BYTES],
        }
    }

    /// The state of these bytes, whatever they are: a first byte above 23 is refused by the calls.
    #[must_use]
    pub const fn from_bytes(bytes: [u8; WAIT_BYTES]) -> Wait {
        Wait { bytes }
    }

    /// Its bytes: how many wait, these, and zeros behind them.
    #[must_use]
    pub const fn as_bytes(&self) -> &[u8; WAIT_BYTES] {
        &self.bytes
    }

    pub(crate) fn as_mut_bytes(&mut self) -> &mut [u8; WAIT_BYTES] {
        &mut self.bytes
    }
}

impl fmt::Debug for Wait {
    fn fmt(&self, f: &mut fmt::Formatter<'_>) -> fmt::Result {
        write!(f, "Wait({:02x?})", self.bytes)
    }
}

/// What the entries of a fragment gave, in their order, read from what
/// [`Hart::replay`](crate::Hart::replay) put out: each an [`Answer`], with 0 where nothing is read,
/// or its refusal.
#[derive(Clone, Debug)]
pub struct Results<'a> {
    all: Take<ChunksExact<'a, u8>>,
}

impl<'a> Results<'a> {
    /// Those of so many entries, which is what the call gave.
    #[must_use]
    pub fn new(out: &'a [u8], entries: usize) -> Results<'a> {
        Results {
            all: out.chunks_exact(RESULT_BYTES).take(entries),
        }
    }
}

impl Iterator for Results<'_> {
    type Item = Result<Answer, Refusal>;

    fn next(&mut self) -> Option<Result<Answer, Refusal>> {
        let result = self.all.next()?;
        let [value, effect, refusal] = array::from_fn(|word| load(result, word));
        Some(match refusal {
            0 => Ok(Answer {
                value,
                effect: Effect::from_number(effect),
            }),
            number => Err(Refusal::from_number(number)),
        })
    }

    fn size_hint(&self) -> (usize, Option<usize>) {
        self.all.size_hint()
    }
}

impl ExactSizeIterator for Results<'_> {}

#[cfg(test)]
mod tests {
    extern crate std;
    use std::format;
    use std::vec::Vec;

    use super::{Answer, Csr, Effect, Logged, Refusal, Results, Wait};

    /// `VHART_KIND_READ = 0` is the first word of a `Read`.
    #[test]
    fn kinds_are_those_of_the_header() {
        let csr = Csr(0);
        let all = [
            Logged::Read { csr },
            Logged::Write { csr, value: 0 },
            Logged::Inject { number: 0 },
            Logged::Mret,
            Logged::Sret,
        ];
        let ours = all.iter().map(|call| {
            let shown = format!("{call:?}").to_uppercase();
            let name = shown.split(' ').next().unwrap_or_default();
            format!("VHART_KIND_{name} = {}", call.to_bytes()[0])
        });
        let header = include_str!("../../../include/vhart.h");
        let from_first = header
            .lines()
            .skip_while(|line| *line != "enum vhart_kind {");
        let lines = from_first.skip(1).take_while(|line| !line.starts_with('}'));
        let theirs = lines.map(|line| line.trim().trim_end_matches(','));
        assert!(ours.eq(theirs));
    }

    #[test]
    fn results_are_read_one_by_one() {
        let words = [7, 1, 0, 0, 0, 3, 0, 9, 0].map(u64::to_le_bytes);
        let out = words.as_flattened();
        let answer = |value, effect| Ok(Answer { value, effect });
        let expected = [
            answer(7, Effect::SetSeip),
            Err(Refusal::NoSuchCsr),
            answer(0, Effect::Other(9)),
        ];
        for entries in 0..=3 {
            let results = Results::new(out, entries);
            assert_eq!(results.len(), entries);
            assert_eq!(results.collect::<Vec<_>>(), expected[..entries]);
        }
        // no more than stand there
        assert_eq!(Results::new(&out[1..], usize::MAX).len(), 2);
    }

    #[test]
    fn waiting_bytes_are_shown_in_hex() {
        let shown = format!("{:?}", Wait::from_bytes([0xA5; 24]));
        assert!(shown.starts_with("Wait([a5, a5, "), "{shown}");
        assert_eq!(Wait::new(), Wait::default());
    }
}
