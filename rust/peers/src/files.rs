//! Random settings files, good and damaged, that implementations read and write: the words that
//! reading gives, and the outcomes and bytes of writing.
use core::fmt::{self, Formatter};

use crate::agreement::{self, write_changes, Bits, Disagreement, Question, Reached};
use crate::image::{store, CAPS_BYTES};
use crate::inputs::{damage, legal_caps, length, Rng, CAPS_ROOM};
use crate::interface::Interface;
use crate::outcome::{Outcome, Settings};
use crate::whole::{self, HEAD_BYTES, SETTINGS_BYTES};

/// The longest file that is lent. Behind it are bytes that no call may touch.
const MOST: usize = 100;
const ROOM: usize = MOST + 12;

/// Calls them all on so many inputs, to the first that they don't agree on. Gives what reading
/// reached, and what writing did.
pub fn check<'a, const N: usize>(
    interfaces: &'a [Interface; N],
    rng: &mut Rng,
    inputs: u64,
) -> Result<[Reached; 2], Disagreement<'a, Files, N>> {
    let mut reached = <[Reached; 2]>::default();
    agreement::check(interfaces, Files, rng, inputs, |_, given| {
        reached[0].add(given.read.refusal);
        reached[1].add(given.written.refusal);
    })?;
    Ok(reached)
}

pub struct Files;

#[derive(Debug, PartialEq, Eq)]
pub struct Given {
    read: Settings,
    written: Outcome,
}

impl Question for Files {
    type Input = Input;
    type Given = Given;

    fn name(&self) -> &'static str {
        "a settings file"
    }

    fn input(&self, rng: &mut Rng) -> Input {
        Input::any(rng)
    }

    fn ask(&self, of: &Interface, input: &mut Input) -> Given {
        let (caps, file, buffer) = (&input.caps, &input.file, &mut input.buffer);
        let (caps, buffer) = (caps.as_ptr(), buffer.as_mut_ptr());
        // SAFETY: no length is above its buffer's
        unsafe {
            Given {
                read: (of.files.read)(file.as_ptr(), input.file_len),
                written: (of.files.write)(caps, input.caps_len, buffer, input.buffer_len),
            }
        }
    }
}

/// A file to read, capabilities to write and a buffer for their file, each with the length that is
/// lent.
#[derive(Clone, PartialEq, Eq)]
pub struct Input {
    file: [u8; ROOM],
    file_len: usize,
    caps: [u8; CAPS_ROOM],
    caps_len: usize,
    buffer: [u8; ROOM],
    buffer_len: usize,
}

impl Input {
    /// An input that both entries accept or refuse with any of their numbers. What is wrong is
    /// drawn each for itself: where two things are, it shows which is tested first.
    fn any(rng: &mut Rng) -> Input {
        let s = !rng.once_in(4);
        let mut words = legal_caps(rng, s);
        if rng.once_in(2) {
            damage(rng, &mut words, 0);
        }
        let mut caps = [0xA5; CAPS_ROOM];
        store(&mut caps, &words);
        let mut file = [0xA5; ROOM];
        let (head, image) = file.split_at_mut(HEAD_BYTES);
        head.copy_from_slice(&whole::settings_head(version(rng)));
        store(image, &words);
        match rng.below(16) {
            0 | 1 => head[rng.below(HEAD_BYTES as u64) as usize] ^= 1 << rng.below(8),
            2 => file.fill_with(|| rng.bits() as u8),
            _ => {}
        }
        Input {
            file,
            file_len: length(rng, SETTINGS_BYTES, MOST),
            caps,
            caps_len: length(rng, CAPS_BYTES, CAPS_ROOM),
            buffer: file.map(|byte| !byte), // so that a byte that isn't written shows
            buffer_len: length(rng, SETTINGS_BYTES, MOST),
        }
    }
}

/// Mostly the version that is known.
fn version(rng: &mut Rng) -> u16 {
    match rng.below(8) {
        0 => rng.pick([0, 2, 0x100, 0x101]),
        1 => rng.bits() as u16,
        _ => 1,
    }
}

impl Bits for Input {
    const BITS: usize = 8 * (2 * ROOM + CAPS_ROOM);

    fn clear(&mut self, bit: usize) {
        let bytes = self.file.iter_mut().chain(&mut self.buffer);
        if let Some(byte) = bytes.chain(&mut self.caps).nth(bit / 8) {
            *byte &= !(1 << (bit % 8));
        }
    }

    fn write_changes(&self, f: &mut Formatter, after: &Input) -> fmt::Result {
        write_changes(f, "file byte", &self.file, &after.file)?;
        write_changes(f, "capability byte", &self.caps, &after.caps)?;
        write_changes(f, "buffer byte", &self.buffer, &after.buffer)
    }

    fn write_lengths(&self, f: &mut Formatter) -> fmt::Result {
        let (file, caps, buffer) = (self.file_len, self.caps_len, self.buffer_len);
        write!(f, "  with {file} file bytes, {caps} capability bytes")?;
        writeln!(f, " and {buffer} buffer bytes lent")
    }
}
