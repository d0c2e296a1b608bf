//! The virtual hart of a RISC-V monitor: a safe binding to the proved library `libvhart.a`.
//!
//! A firmware that runs without machine rights traps on each CSR access, trap and return. The
//! monitor answers it here, on a record of the hart ([`Hart`]) under what the hart has ([`Caps`]).
//! Every call comes back: it is done, or it is refused with a [`Refusal`] and has changed nothing.
//! The guide (docs/GUIDE.md) tells which call goes where in a trap handler, and what to do with
//! each refusal.
//!
//! ```
//! use vhart::{misa, Caps, CapsWords, Csr, Flags, Hart, Host, Rd, Refusal, Rs1, Word, X};
//!
//! let caps = Caps::from(CapsWords {
//!     misa: misa::RV64 | misa::A | misa::C | misa::I | misa::M | misa::S | misa::U,
//!     interrupts: 0xAAA,
//!     highest: u64::MAX,
//!     flags: Flags::SSTC,
//!     ..CapsWords::default()
//! });
//! caps.check()?;
//! let mut hart = Hart::fresh(&caps, 0x8000_0000)?;
//!
//! // csrrw x0, mstatus, x5: MPP 2 is no mode, so MPP becomes U.
//! hart.set_x(X(5), 0x1000);
//! let answer = hart.csrrw(&caps, Csr::MSTATUS, Rd(0), Rs1(5), Host::default())?;
//! assert_eq!(answer.value, 0xA_0000_0000);
//! assert_eq!(hart.get(Word::Mstatus), 0xA_0000_0000);
//!
//! // csrrs x6, tdata1, x0: there is no such CSR, and the record is as it was.
//! let before = hart.clone();
//! let refused = hart.csrrs(&caps, Csr(0x7A1), Rd(6), Rs1(0), Host::default());
//! assert_eq!(refused, Err(Refusal::NoSuchCsr));
//! assert_eq!(hart, before);
//! # Ok::<(), Refusal>(())
//! ```
//!
//! [`Caps`] and [`Hart`] own their images, and align them to 8. A monitor that keeps images in
//! memory of its own uses them there: as [`Caps`] and [`Hart`] by [`Caps::view`] and
//! [`Hart::view_mut`], or as slices of any length by the functions of [`slices`], which are the
//! same calls with plain numbers.
//!
//! What a board's hart has can be kept in a settings file. [`Settings`] makes such a file of a
//! [`Caps`], and reads it back at boot.
//!
//! A second engine reads and writes CSRs by a table, more slowly: [`Hart::plain_read`] and
//! [`Hart::plain_write`] always give what [`Hart::read`] and [`Hart::write`] give, and are there to
//! check these by.
//!
//! Where firmware writes one value and reads another, [`Hart::explain`] says which bits are lost,
//! and for each of them why. [`Hart::tally`] adds up what many writes lose, in [`Totals`].
//!
//! A log of calls can be replayed as it arrives, in fragments of any length: [`Hart::replay`] makes
//! each call that a fragment completes, and the rest waits in a [`Wait`].
//!
//! # The archive
//!
//! The build script links `libvhart.a` from the folder that the variable `VHART_LIB_DIR` names, or
//! else from the one of the repository that is for the target: `target/staticlib`, for riscv64imac
//! `target/riscv64`, for riscv64gc `target/riscv64/lp64d`. `cargo check`, `cargo doc` and editors
//! don't need it.
//!
//! # The feature `aligned`
//!
//! For riscv64 it links the archive `aligned` instead, which takes about a third of the
//! instructions: `target/riscv64/aligned`, for riscv64gc `target/riscv64/aligned/lp64d`. That
//! archive needs both images at multiples of 8. [`Caps`] and [`Hart`] always are, and with the
//! feature the functions of [`slices`] refuse other images with [`Refusal::NotAligned`], on every
//! target. A settings file, its buffer and the image written to it may stand anywhere, and so may
//! all that [`slices::replay`] takes. Where `VHART_LIB_DIR` names an archive `aligned`, the feature
//! must be on.

#![no_std]
#![deny(missing_docs)]
#![deny(unsafe_code)]

mod answer;
mod bits;
mod calls;
mod fault;
#[allow(unsafe_code)]
mod ffi;
mod host;
mod image;
mod log;
mod lost;
mod numbers;
mod settings;
mod totals;

pub use answer::{Answer, Effect, Refusal};
pub use bits::{menvcfg, mip, misa, mstatus};
#[doc(inline)]
pub use entries::TrapInfo;
pub use fault::{Fault, FaultWord, Image};
pub use host::Host;
pub use image::{BytesError, Caps, CapsWord, CapsWords, Hart, Word, CAPS_BYTES, HART_BYTES};
pub use log::{Logged, Results, Wait, ENTRY_BYTES, RESULT_BYTES, WAIT_BYTES};
pub use lost::{Lost, Reason};
pub use numbers::{Csr, Flags, Imm, Mode, Rd, Rs1, X};
pub use settings::{Settings, SETTINGS_BYTES};
pub use totals::Totals;

/// The calls on images that the caller lends as slices, of any length and with any content, and on
/// plain numbers.
///
/// A capability image that isn't [`CAPS_BYTES`] long is refused with [`Refusal::BadCaps`], a hart
/// image that isn't [`HART_BYTES`] long with [`Refusal::BadHart`]. A refused call has changed no
/// byte. With the feature `aligned` an image that doesn't stand at a multiple of 8 is refused with
/// [`Refusal::NotAligned`], but not by `settings_read`, `settings_write` and `replay`, which take
/// any address.
///
/// ```
/// use vhart::{slices, Caps, Refusal, CAPS_BYTES, HART_BYTES};
///
/// #[repr(align(8))]
/// struct Bytes<const N: usize>([u8; N]);
///
/// let caps = Bytes([0; CAPS_BYTES]);
/// let mut hart = Bytes([0xA5; HART_BYTES]);
/// assert_eq!(slices::mret(&caps.0[..CAPS_BYTES - 1], &mut hart.0), Err(Refusal::BadCaps));
/// assert_eq!(hart.0, [0xA5; HART_BYTES]);
///
/// let fault = slices::check_caps(&caps.0[..CAPS_BYTES - 1]).unwrap_err();
/// assert_eq!(fault.to_string(), "refusal 1: the capability image has 71 bytes, but must have 72");
/// ```
pub mod slices {
    pub use crate::ffi::{
        check_caps, check_hart, csrrc, csrrci, csrrs, csrrsi, csrrw, csrrwi, explain, fresh,
        inject, mret, pending, plain_read, plain_write, read, replay, replay_end, settings_read,
        settings_write, sret, tally, trap, write,
    };
}

// The Rust of the guide and of the README is compiled and run with the other examples.
#[cfg(doctest)]
#[doc = include_str!("../../../docs/GUIDE.md")]
struct Guide;
#[cfg(doctest)]
#[doc = include_str!("../../../README.md")]
struct Readme;
