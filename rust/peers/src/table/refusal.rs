//! Which refusal it is, where a fault has been found. An accepted call never comes here.
use super::has::{has_s, has_sstc};
use super::legality::{faults, is_caps};
use super::word;
use crate::csr;
use crate::image::{hart, CapsImage, HartImage};
use crate::outcome::{refused, Outcome, Refusal};
use crate::rules::mode;

/// Of lengths that aren't both right; there is no capability image where its own isn't.
#[cold]
#[inline(never)]
pub fn of_lengths(c: Option<&CapsImage>) -> Outcome {
    refused(if c.is_some_and(is_caps) {
        Refusal::BadHart
    } else {
        Refusal::BadCaps
    })
}

/// Of the images, or the other one where these are legal.
#[cold]
#[inline(never)]
pub fn of_images(c: &CapsImage, h: &HartImage, other: Refusal) -> Outcome {
    refused(if !is_caps(c) {
        Refusal::BadCaps
    } else if by_s!(c, faults(c, h)) != 0 {
        Refusal::BadHart
    } else {
        other
    })
}

/// Of the address, or the other one where the hart has its CSR.
fn of_address(c: &CapsImage, address: u64, other: Refusal) -> Refusal {
    if !csr::is_known(address) {
        Refusal::NoSuchCsr
    } else if !csr::is_present(address, has_s(c), has_sstc(c)) {
        Refusal::CsrAbsent
    } else {
        other
    }
}

/// Of a read or a write. Where all else is right, it is the line of a read.
#[cold]
#[inline(never)]
pub fn of_access(c: &CapsImage, h: &HartImage, address: u64) -> Outcome {
    of_images(c, h, of_address(c, address, Refusal::BadLine))
}

#[cold]
#[inline(never)]
pub fn of_instruction(c: &CapsImage, h: &HartImage, address: u64, rd: u64, field: u64) -> Outcome {
    let other = if rd > 31 || field > 31 {
        Refusal::BadOperand
    } else if word(h, hart::MODE) != mode::M {
        Refusal::NotMachine
    } else {
        Refusal::BadLine
    };
    of_images(c, h, of_address(c, address, other))
}

#[cold]
#[inline(never)]
pub fn of_sret(c: &CapsImage, h: &HartImage) -> Outcome {
    let other = if word(h, hart::MODE) != mode::M {
        Refusal::NotMachine
    } else {
        Refusal::NoSupervisor
    };
    of_images(c, h, other)
}
