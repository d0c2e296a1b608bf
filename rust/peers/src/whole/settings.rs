//! The settings file: a mark, a version, a zero byte, and the capability image behind them.
use super::Caps;
use crate::image::{caps_image, CapsWords, CAPS_BYTES};
use crate::outcome::Refusal;

const MARK: [u8; 3] = *b"VHR";
/// The only one that is known.
const VERSION: u16 = 1;

/// What stands before the image.
pub const HEAD_BYTES: usize = 6;
pub const SETTINGS_BYTES: usize = HEAD_BYTES + CAPS_BYTES;

/// What stands before the image in a file of this version.
pub fn head(version: u16) -> [u8; HEAD_BYTES] {
    let ([v, h, r], [low, high]) = (MARK, version.to_le_bytes());
    [v, h, r, low, high, 0]
}

/// The words of the image that a file holds.
pub fn read(file: &[u8]) -> Result<CapsWords, Refusal> {
    let (&[v, h, r, low, high, zero], image) = file
        .split_first_chunk::<HEAD_BYTES>()
        .ok_or(Refusal::BadLength)?;
    if [v, h, r] != MARK || zero != 0 {
        return Err(Refusal::BadMark);
    }
    if u16::from_le_bytes([low, high]) != VERSION {
        return Err(Refusal::UnknownVersion);
    }
    let mut caps = Caps::parse(caps_image(image).ok_or(Refusal::BadLength)?);
    if !caps.is_legal() {
        return Err(Refusal::BadCaps);
    }
    Ok(caps.words())
}

/// Writes the file that holds an image, which is legal.
pub fn write(image: &[u8], file: &mut [u8]) -> Result<(), Refusal> {
    if file.len() != SETTINGS_BYTES {
        return Err(Refusal::BadLength);
    }
    let (start, rest) = file.split_at_mut(HEAD_BYTES);
    start.copy_from_slice(&head(VERSION));
    rest.copy_from_slice(image);
    Ok(())
}
