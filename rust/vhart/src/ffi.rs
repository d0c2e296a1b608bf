//! The C entries, as the list has them (rust/entries), each as a safe function on slices; and the
//! views of slices as images. The only code that is unsafe.
//!
//! Each call is safe for the same reason. A slice hands over a pointer that isn't null and is valid
//! for its length. The library touches those bytes alone, whatever they and the numbers are. `&`
//! and `&mut` keep other uses away while it runs: `&` where the entry takes the image as `const`,
//! `&mut` where it doesn't. The archive `aligned` touches whole words, at multiples of 8 from an
//! image's start: so with the feature `aligned` an image that doesn't start at one isn't handed on.
//! The two entries for a settings file touch bytes in every archive, and take any address, and so
//! does the one that replays a log. Totals are handed over as a `&mut` of the entry's layout.

// Each cast to a stricter alignment comes with a test of it.
#![allow(clippy::cast_ptr_alignment)]

use core::mem::{align_of, offset_of, size_of};
use core::ptr;

use entries::{Outcome, TrapInfo};

use crate::answer::{Answer, Effect, Refusal};
use crate::fault::{Fault, Image};
use crate::host::Host;
use crate::image::{BytesError, Caps, Hart, CAPS_BYTES, HART_BYTES};
use crate::lost::Lost;
use crate::totals::Totals;

entries::declare!();

// Whether the bytes stand at a multiple of 8, which is what a record's type needs.
fn is_aligned(image: &[u8]) -> bool {
    image.as_ptr().cast::<Hart>().is_aligned()
}

// Whether the archive that is linked may be handed these images; else the first that it may not.
fn lend(caps: &[u8], hart: &[u8]) -> Result<(), Image> {
    match cfg!(feature = "aligned") {
        true if !is_aligned(caps) => Err(Image::Caps),
        true if !is_aligned(hart) => Err(Image::Hart),
        _ => Ok(()),
    }
}

// What Rust gives of a call that was done.
trait Given {
    fn given(outcome: Outcome) -> Self;
}

impl Given for () {
    fn given(_: Outcome) {}
}

impl Given for u64 {
    fn given(outcome: Outcome) -> u64 {
        outcome.answer
    }
}

// Of a number that counts what stands in a buffer.
impl Given for usize {
    fn given(outcome: Outcome) -> usize {
        usize::try_from(outcome.answer).unwrap_or(usize::MAX)
    }
}

impl Given for Option<u64> {
    fn given(outcome: Outcome) -> Option<u64> {
        (outcome.answer != 0).then_some(outcome.answer)
    }
}

impl Given for Effect {
    fn given(outcome: Outcome) -> Effect {
        Effect::from_number(outcome.effect)
    }
}

impl Given for Answer {
    fn given(outcome: Outcome) -> Answer {
        Answer {
            value: outcome.answer,
            effect: Effect::from_number(outcome.effect),
        }
    }
}

// Which of these an entry gives: an effect only where one can come, a value where one is read.
macro_rules! given {
    (read) => { u64 };
    (write) => { Effect };
    (pending) => { Option<u64> };
    (inject) => { () };
    (trap) => { () };
    (mret) => { () };
    (sret) => { () };
    (fresh) => { () };
    (plain_read) => { u64 };
    (plain_write) => { Effect };
    ($instruction:ident) => { Answer };
}

macro_rules! slice {
    (const) => {
        &[u8]
    };
    (mut) => {
        &mut [u8]
    };
}

macro_rules! on_slices {
    ($(#[$doc:meta] $access:tt $name:ident $variant:ident $entry:ident(
        $($arg:ident),* $(; $given:ident: $record:ident { $($field:ident),* })?
    );)*) => {$(
        #[$doc]
        #[doc = concat!("See [`Hart::", stringify!($name), "`](crate::Hart::", stringify!($name), ").")]
        ///
        /// # Errors
        ///
        /// As there; and with the feature `aligned` [`NotAligned`](Refusal::NotAligned) first.
        pub fn $name(
            caps: &[u8],
            hart: slice!($access)
            $(, $arg: u64)*
            $(, $given: $record)?
        ) -> Result<given!($name), Refusal> {
            lend(caps, hart).map_err(|_| Refusal::NotAligned)?;
            let hart_len = hart.len();
            let hart: *$access [u8] = hart;
            // SAFETY: as the head says.
            let outcome = unsafe {
                $entry(caps.as_ptr(), caps.len(), hart.cast(), hart_len $(, $arg)* $($(, u64::from($given.$field))*)?)
            };
            done(outcome)
        }
    )*};
}

entries::list!([on_slices]);

fn done<T: Given>(outcome: Outcome) -> Result<T, Refusal> {
    match outcome.refusal {
        0 => Ok(Given::given(outcome)),
        number => Err(Refusal::from_number(number)),
    }
}

/// Says whether the capability image is legal, and else what is at fault. See
/// [`Caps::check`](crate::Caps::check).
///
/// # Errors
///
/// As there; a wrong length too, and with the feature `aligned` where the image stands.
pub fn check_caps(caps: &[u8]) -> Result<(), Fault> {
    lend(caps, caps).map_err(Fault::not_aligned)?;
    // SAFETY: as the head says.
    let found = unsafe { vhart_check_caps(caps.as_ptr(), caps.len()) };
    Fault::from_found(found, caps.len(), 0)
}

/// Says whether both images are legal, and else what is at fault. See
/// [`Hart::check`](crate::Hart::check).
///
/// # Errors
///
/// As there; a wrong length too, and with the feature `aligned` where an image stands.
pub fn check_hart(caps: &[u8], hart: &[u8]) -> Result<(), Fault> {
    lend(caps, hart).map_err(Fault::not_aligned)?;
    // SAFETY: as the head says.
    let found = unsafe { vhart_check_hart(caps.as_ptr(), caps.len(), hart.as_ptr(), hart.len()) };
    Fault::from_found(found, caps.len(), hart.len())
}

/// Says which bits of the value a write wouldn't store, and why. See
/// [`Hart::explain`](crate::Hart::explain).
///
/// # Errors
///
/// As there; and with the feature `aligned` [`NotAligned`](Refusal::NotAligned) first.
pub fn explain(
    caps: &[u8],
    hart: &[u8],
    address: u64,
    value: u64,
    host: Host,
) -> Result<Lost, Refusal> {
    lend(caps, hart).map_err(|_| Refusal::NotAligned)?;
    // SAFETY: as the head says.
    let listing = unsafe {
        vhart_explain(
            caps.as_ptr(),
            caps.len(),
            hart.as_ptr(),
            hart.len(),
            address,
            value,
            host.time,
            host.seed,
        )
    };
    match listing.refusal {
        0 => Ok(Lost::from_listing(&listing)),
        number => Err(Refusal::from_number(number)),
    }
}

/// Adds a write to the totals. See [`Hart::tally`](crate::Hart::tally).
///
/// # Errors
///
/// As there; and with the feature `aligned` [`NotAligned`](Refusal::NotAligned) first.
pub fn tally(
    caps: &[u8],
    hart: &[u8],
    address: u64,
    value: u64,
    host: Host,
    totals: &mut Totals,
) -> Result<(), Refusal> {
    lend(caps, hart).map_err(|_| Refusal::NotAligned)?;
    // SAFETY: as the head says.
    let outcome = unsafe {
        vhart_tally(
            caps.as_ptr(),
            caps.len(),
            hart.as_ptr(),
            hart.len(),
            address,
            value,
            host.time,
            host.seed,
            ptr::from_mut(totals).cast(),
        )
    };
    done(outcome)
}

// What the cast of the totals rests on: the binding's are laid out as the entry's.
const _: () = assert!(
    size_of::<Totals>() == size_of::<entries::Totals>()
        && align_of::<Totals>() == align_of::<entries::Totals>()
        && offset_of!(Totals, lost) == offset_of!(entries::Totals, lost)
        && offset_of!(Totals, writes) == offset_of!(entries::Totals, writes)
        && offset_of!(Totals, lossless) == offset_of!(entries::Totals, lossless)
);

/// Reads a settings file: the nine words of the capability image that it holds, in the image's
/// order. See [`Settings::read`](crate::Settings::read).
///
/// ```
/// # use vhart::{misa, slices, Caps, CapsWord, CapsWords, Refusal, SETTINGS_BYTES};
/// # let mut words = CapsWords { mhartid: 3, ..CapsWords::default() };
/// # (words.misa, words.interrupts) = (misa::RV64 | misa::I | misa::U, 0x888);
/// # let caps = Caps::from(words);
/// let mut file = [0; SETTINGS_BYTES];
/// slices::settings_write(caps.as_bytes(), &mut file)?;
/// let words = slices::settings_read(&file)?;
/// assert_eq!(words[CapsWord::Mhartid as usize], 3);
/// assert_eq!(CapsWords::from(words), caps.words());
/// # Ok::<(), Refusal>(())
/// ```
///
/// # Errors
///
/// As there. The file may stand at any address, with the feature `aligned` too.
pub fn settings_read(file: &[u8]) -> Result<[u64; 9], Refusal> {
    // SAFETY: as the head says.
    let settings = unsafe { vhart_settings_read(file.as_ptr(), file.len()) };
    match settings.refusal {
        0 => Ok(settings.words),
        number => Err(Refusal::from_number(number)),
    }
}

/// Writes the settings file of a capability image into a buffer, each byte of it. See
/// [`Settings::of`](crate::Settings::of).
///
/// # Errors
///
/// [`BadCaps`](Refusal::BadCaps), then [`BadLength`](Refusal::BadLength) for a buffer that isn't
/// [`SETTINGS_BYTES`](crate::SETTINGS_BYTES) long. The image and the buffer may stand at any
/// address, with the feature `aligned` too.
pub fn settings_write(caps: &[u8], file: &mut [u8]) -> Result<(), Refusal> {
    // SAFETY: as the head says.
    let outcome =
        unsafe { vhart_settings_write(caps.as_ptr(), caps.len(), file.as_mut_ptr(), file.len()) };
    done(outcome)
}

/// Replays a fragment of a call log. See [`Hart::replay`](crate::Hart::replay).
///
/// ```
/// # use vhart::{misa, slices, Caps, CapsWords, Refusal, HART_BYTES, WAIT_BYTES};
/// # let mut words = CapsWords::default();
/// # (words.misa, words.interrupts) = (misa::RV64 | misa::I | misa::U, 0x888);
/// # let caps = Caps::from(words);
/// # let mut hart = *vhart::Hart::fresh(&caps, 0x8000_0000)?.as_bytes();
/// let mut wait = [0; WAIT_BYTES];
/// let came = slices::replay(caps.as_bytes(), &mut hart, &mut wait, &[1, 2, 3], &mut []);
/// assert_eq!(came, Ok(0));
/// assert_eq!(wait[..5], [3, 1, 2, 3, 0]);
/// # Ok::<(), Refusal>(())
/// ```
///
/// # Errors
///
/// As there, and [`BadHart`](Refusal::BadHart) for waiting bytes that aren't
/// [`WAIT_BYTES`](crate::WAIT_BYTES) long. All may stand at any address, with the feature `aligned`
/// too.
pub fn replay(
    caps: &[u8],
    hart: &mut [u8],
    wait: &mut [u8],
    fragment: &[u8],
    out: &mut [u8],
) -> Result<usize, Refusal> {
    // SAFETY: as the head says.
    let outcome = unsafe {
        vhart_replay(
            caps.as_ptr(),
            caps.len(),
            hart.as_mut_ptr(),
            hart.len(),
            wait.as_mut_ptr(),
            wait.len(),
            fragment.as_ptr(),
            fragment.len(),
            out.as_mut_ptr(),
            out.len(),
        )
    };
    done(outcome)
}

/// Says whether a call log may end. See [`Hart::replay_end`](crate::Hart::replay_end).
///
/// # Errors
///
/// As there, and [`BadHart`](Refusal::BadHart) for waiting bytes that aren't
/// [`WAIT_BYTES`](crate::WAIT_BYTES) long; and with the feature `aligned`
/// [`NotAligned`](Refusal::NotAligned) first.
pub fn replay_end(caps: &[u8], hart: &[u8], wait: &[u8]) -> Result<(), Refusal> {
    lend(caps, hart).map_err(|_| Refusal::NotAligned)?;
    // SAFETY: as the head says.
    let outcome = unsafe {
        vhart_replay_end(
            caps.as_ptr(),
            caps.len(),
            hart.as_ptr(),
            hart.len(),
            wait.as_ptr(),
            wait.len(),
        )
    };
    done(outcome)
}

// What the views rest on: an image's type has its bytes, no more, and needs the alignment tested.
const _: () = assert!(size_of::<Caps>() == CAPS_BYTES && align_of::<Caps>() == 8);
const _: () = assert!(size_of::<Hart>() == HART_BYTES && align_of::<Hart>() == 8);

fn viewable(bytes: &[u8], needed: usize) -> Result<(), BytesError> {
    match bytes.len() {
        is if is != needed => Err(BytesError::Length { is, needed }),
        _ if !is_aligned(bytes) => Err(BytesError::Alignment),
        _ => Ok(()),
    }
}

pub(crate) fn view_caps(bytes: &[u8]) -> Result<&Caps, BytesError> {
    viewable(bytes, CAPS_BYTES)?;
    // SAFETY: Caps is these bytes and no more, any bytes make one, and they are aligned for it. The
    // borrow is that of the bytes.
    Ok(unsafe { &*bytes.as_ptr().cast::<Caps>() })
}

pub(crate) fn view_hart(bytes: &[u8]) -> Result<&Hart, BytesError> {
    viewable(bytes, HART_BYTES)?;
    // SAFETY: as above.
    Ok(unsafe { &*bytes.as_ptr().cast::<Hart>() })
}

pub(crate) fn view_hart_mut(bytes: &mut [u8]) -> Result<&mut Hart, BytesError> {
    viewable(bytes, HART_BYTES)?;
    // SAFETY: as above; and whatever is stored in a Hart is bytes again.
    Ok(unsafe { &mut *bytes.as_mut_ptr().cast::<Hart>() })
}
