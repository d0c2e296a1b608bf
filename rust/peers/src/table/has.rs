//! What the capabilities give the hart, read where it lies.
use super::word;
use crate::image::{caps, CapsImage};
use crate::rules::{flags, misa};

#[inline(always)]
pub fn has_c(c: &CapsImage) -> bool {
    word(c, caps::MISA) & misa::C != 0
}

#[inline(always)]
pub fn has_f(c: &CapsImage) -> bool {
    word(c, caps::MISA) & misa::F != 0
}

#[inline(always)]
pub fn has_s(c: &CapsImage) -> bool {
    word(c, caps::MISA) & misa::S != 0
}

#[inline(always)]
pub fn has_v(c: &CapsImage) -> bool {
    word(c, caps::MISA) & misa::V != 0
}

#[inline(always)]
pub fn has_zfinx(c: &CapsImage) -> bool {
    word(c, caps::FLAGS) & flags::ZFINX != 0
}

#[inline(always)]
pub fn has_sstc(c: &CapsImage) -> bool {
    word(c, caps::FLAGS) & flags::SSTC != 0
}
