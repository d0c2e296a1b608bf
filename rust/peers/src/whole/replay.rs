//! A call log: the call that an entry is, and the walk over the entries as their bytes arrive.
use core::array;

use crate::image::{store, words};
use crate::outcome::{done, effect, refused, Outcome, Refusal};

/// The bytes of an entry, and of what is put out for one.
pub const ENTRY_BYTES: usize = 24;
/// How many bytes wait, and room for all but one of an entry's.
pub const WAIT_BYTES: usize = 24;

/// A call that a log can hold. Its time, seed and line are 0.
#[derive(Clone, Copy)]
pub enum Logged {
    Read { address: u64 },
    Write { address: u64, value: u64 },
    Inject { number: u64 },
    Mret,
    Sret,
}

impl Logged {
    /// The call that an entry of these words is.
    pub const fn of(words: [u64; 3]) -> Result<Logged, Refusal> {
        match words {
            [0, address, 0] => Ok(Logged::Read { address }),
            [1, address, value] => Ok(Logged::Write { address, value }),
            [2, number, 0] => Ok(Logged::Inject { number }),
            [3, 0, 0] => Ok(Logged::Mret),
            [4, 0, 0] => Ok(Logged::Sret),
            _ => Err(Refusal::BadEntry),
        }
    }

    /// The words of its entry.
    pub const fn words(self) -> [u64; 3] {
        match self {
            Logged::Read { address } => [0, address, 0],
            Logged::Write { address, value } => [1, address, value],
            Logged::Inject { number } => [2, number, 0],
            Logged::Mret => [3, 0, 0],
            Logged::Sret => [4, 0, 0],
        }
    }
}

/// The bytes that wait in those that are lent.
fn waiting(wait: &[u8]) -> Result<&[u8], Refusal> {
    let lent: &[u8; WAIT_BYTES] = wait.try_into().map_err(|_| Refusal::BadHart)?;
    let [count, bytes @ ..] = lent;
    bytes.get(..usize::from(*count)).ok_or(Refusal::BadHart)
}

/// Makes each call that the waiting bytes and the fragment complete, and lets the rest wait. It
/// refuses before the first call or not at all.
pub fn walk(
    wait: &mut [u8],
    fragment: &[u8],
    out: &mut [u8],
    mut make: impl FnMut(Logged) -> Outcome,
) -> Result<Outcome, Refusal> {
    let held = waiting(wait)?;
    let entries = (held.len() + fragment.len()) / ENTRY_BYTES;
    if out.len() / ENTRY_BYTES < entries {
        return Err(Refusal::ShortBuffer);
    }
    let mut log = held.iter().chain(fragment).copied();
    for result in out.chunks_exact_mut(ENTRY_BYTES).take(entries) {
        let entry: [u8; ENTRY_BYTES] = array::from_fn(|_| log.next().unwrap_or_default());
        let made = Logged::of(words(&entry)).map_or_else(refused, &mut make);
        store(result, &[made.answer, made.effect, made.refusal]);
    }
    let mut left = [0; WAIT_BYTES];
    for byte in log {
        left[0] += 1;
        left[usize::from(left[0])] = byte;
    }
    wait.copy_from_slice(&left);
    Ok(done(entries as u64, effect::NONE))
}

/// Whether the log may end here.
pub fn end(wait: &[u8]) -> Result<(), Refusal> {
    match waiting(wait)? {
        [] => Ok(()),
        _ => Err(Refusal::EntryWaits),
    }
}
