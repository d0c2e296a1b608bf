//! The contract for speed: words tested where they lie in the images, only changed ones stored, a
//! CSR by its row of a table.

/// Calls the function's copy for harts with S or that for those without, which have fewer words to
/// look into.
macro_rules! by_s {
    ($caps:ident, $($function:ident)::+($($arg:expr),*)) => {
        if $crate::table::has::has_s($caps) {
            $($function)::+::<true>($($arg),*)
        } else {
            $($function)::+::<false>($($arg),*)
        }
    };
}

mod access;
mod by_row;
mod has;
mod legality;
mod place;
mod refusal;
mod rows;
mod trap;

use crate::arguments::{instructions, Host, Instruction, TrapInfo};
use crate::image::{
    caps_image, hart, hart_image, hart_image_mut, CapsImage, HartImage, HART_WORDS,
};
use crate::outcome::{done, effect, refused, Fault, Outcome, Refusal, LEGAL};
use crate::rules::{self, interrupts, mode};
use crate::whole::{self, Logged};

/// A settings file is read and written once, a write is explained to people, and a log ends once:
/// there speed doesn't count.
pub use crate::whole::{explain, replay_end, settings_read, settings_write, tally};

/// Its functions for C.
pub mod c {
    entries::define!(
        #[inline(never)]
        crate::table
    );
}

#[inline(always)]
fn word<const N: usize>(image: &[[u8; 8]; N], at: usize) -> u64 {
    u64::from_le_bytes(image[at])
}

#[inline(always)]
fn put(h: &mut HartImage, at: usize, v: u64) {
    h[at] = v.to_le_bytes();
}

/// The upper bit of each field of two bits, where no two of these touch.
const fn upper(fields: u64) -> u64 {
    fields & fields << 1
}

/// The lower bit of each field of two bits, where no two of these touch.
const fn lower(fields: u64) -> u64 {
    fields & fields >> 1
}

/// A step that only reads the record.
#[inline(always)]
fn ask(
    caps: &[u8],
    hart: &[u8],
    question: impl FnOnce(&CapsImage, &HartImage) -> Outcome,
) -> Outcome {
    match (caps_image(caps), hart_image(hart)) {
        (Some(c), Some(h)) => question(c, h),
        (c, _) => refusal::of_lengths(c),
    }
}

/// A step that changes the record.
#[inline(always)]
fn change(
    caps: &[u8],
    hart: &mut [u8],
    step: impl FnOnce(&CapsImage, &mut HartImage) -> Outcome,
) -> Outcome {
    match (caps_image(caps), hart_image_mut(hart)) {
        (Some(c), Some(h)) => step(c, h),
        (c, _) => refusal::of_lengths(c),
    }
}

#[inline(always)]
pub fn read(caps: &[u8], hart: &[u8], address: u64, host: Host) -> Outcome {
    ask(caps, hart, |c, h| {
        by_s!(c, access::read(c, h, &host, address))
    })
}

#[inline(always)]
pub fn write(caps: &[u8], hart: &mut [u8], address: u64, value: u64) -> Outcome {
    change(caps, hart, |c, h| {
        by_s!(c, access::write(c, h, address, value))
    })
}

instructions!(|caps, hart, instruction, host| {
    change(caps, hart, |c, h| {
        by_s!(c, access::emulate(c, h, &host, &instruction))
    })
});

#[inline(always)]
pub fn pending(caps: &[u8], hart: &[u8]) -> Outcome {
    ask(caps, hart, trap::pending)
}

#[inline(always)]
pub fn inject(caps: &[u8], hart: &mut [u8], number: u64) -> Outcome {
    change(caps, hart, |c, h| trap::inject(c, h, number))
}

#[inline(always)]
pub fn trap(caps: &[u8], hart: &mut [u8], trap: TrapInfo) -> Outcome {
    change(caps, hart, |c, h| trap::trap(c, h, &trap))
}

#[inline(always)]
pub fn mret(caps: &[u8], hart: &mut [u8]) -> Outcome {
    change(caps, hart, trap::mret)
}

#[inline(always)]
pub fn sret(caps: &[u8], hart: &mut [u8]) -> Outcome {
    change(caps, hart, trap::sret)
}

#[inline(always)]
pub fn fresh(caps: &[u8], hart: &mut [u8], pc: u64) -> Outcome {
    change(caps, hart, |c, h| by_s!(c, fresh_in(c, h, pc)))
}

/// Where something is wrong, speed doesn't count, and the plain contract says what.
#[inline(always)]
pub fn check_caps(caps: &[u8]) -> Fault {
    match caps_image(caps) {
        Some(c) if legality::is_caps(c) => LEGAL,
        _ => whole::check_caps(caps),
    }
}

#[inline(always)]
pub fn check_hart(caps: &[u8], hart: &[u8]) -> Fault {
    match (caps_image(caps), hart_image(hart)) {
        (Some(c), Some(h)) if by_s!(c, legality::faults(c, h)) == 0 => LEGAL,
        _ => whole::check_hart(caps, hart),
    }
}

/// A log's calls one by one, by the functions for C: a second copy of what they do would change how
/// the first is compiled.
pub fn replay(
    caps: &[u8],
    hart: &mut [u8],
    wait: &mut [u8],
    fragment: &[u8],
    out: &mut [u8],
) -> Outcome {
    let (c, c_len, h, h_len) = (caps.as_ptr(), caps.len(), hart.as_mut_ptr(), hart.len());
    // SAFETY: both are lent with their lengths
    if unsafe { c::vhart_check_hart(c, c_len, h, h_len) } != LEGAL {
        return whole::replay(caps, hart, wait, fragment, out);
    }
    // SAFETY: likewise
    let make = |call| unsafe {
        match call {
            Logged::Read { address } => c::vhart_read(c, c_len, h, h_len, address, 0, 0, 0),
            Logged::Write { address, value } => c::vhart_write(c, c_len, h, h_len, address, value),
            Logged::Inject { number } => c::vhart_inject(c, c_len, h, h_len, number),
            Logged::Mret => c::vhart_mret(c, c_len, h, h_len),
            Logged::Sret => c::vhart_sret(c, c_len, h, h_len),
        }
    };
    whole::walk(wait, fragment, out, make).unwrap_or_else(refused)
}

#[inline(always)]
fn fresh_in<const S: bool>(c: &CapsImage, h: &mut HartImage, pc: u64) -> Outcome {
    if !legality::is_caps(c) {
        return refused(Refusal::BadCaps);
    }
    if pc & legality::alignment(c) != 0 {
        return refused(Refusal::BadStart);
    }
    *h = [[0; 8]; HART_WORDS];
    put(h, hart::PC, pc);
    put(h, hart::MODE, mode::M);
    // FS and VS have no say in 0
    put(
        h,
        hart::MSTATUS,
        rules::legalize_mstatus(S, false, false, 0),
    );
    let mideleg = if S { interrupts::SUPERVISOR } else { 0 };
    put(h, hart::MIDELEG, mideleg);
    done(0, effect::NONE)
}
