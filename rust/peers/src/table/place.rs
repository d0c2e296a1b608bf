//! A word of the record, tested once to be one: loads and stores then need no test.
use crate::image::{HartImage, HART_WORDS};

#[derive(Clone, Copy)]
pub struct Place(u8);

impl Place {
    /// Of a constant it costs nothing.
    #[inline(always)]
    pub const fn new(at: usize) -> Place {
        assert!(at < HART_WORDS);
        Place(at as u8)
    }

    #[inline(always)]
    pub fn word(self, h: &HartImage) -> u64 {
        // SAFETY: it has been tested
        u64::from_le_bytes(unsafe { *h.get_unchecked(self.0 as usize) })
    }

    #[inline(always)]
    pub fn put(self, h: &mut HartImage, v: u64) {
        // SAFETY: it has been tested
        unsafe { *h.get_unchecked_mut(self.0 as usize) = v.to_le_bytes() }
    }
}
