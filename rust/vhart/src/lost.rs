//! The bits of a written value that aren't stored, each with its reason.

use core::array;
use core::fmt;
use core::iter::{Copied, Take};
use core::slice;

use entries::Listing;

/// A register has so many bits.
const BITS: usize = 64;

/// The bits in which a value and what a write stores of it differ, from
/// [`Hart::explain`](crate::Hart::explain): each by its number, with its reason, lowest bit first.
///
/// ```
/// use vhart::{misa, Caps, CapsWords, Csr, Hart, Host, Reason, Refusal};
///
/// let misa = misa::RV64 | misa::I | misa::S | misa::U;
/// let caps = Caps::from(CapsWords { misa, interrupts: 0xAAA, ..CapsWords::default() });
/// let hart = Hart::fresh(&caps, 0x8000_0000)?;
///
/// // MPP 2 is no mode, UXL is always 2, and SXL is 2 since this hart has S
/// let lost = hart.explain(&caps, Csr::MSTATUS, 0x1000, Host::default())?;
/// let expected = [(12, Reason::Reserved), (33, Reason::Forced), (35, Reason::OtherExtensions)];
/// assert!(lost.iter().eq(expected));
/// for (bit, reason) in lost {
///     println!("bit {bit}: {reason}");
/// }
/// assert_eq!(format!("{lost:?}"), "{12: Reserved, 33: Forced, 35: OtherExtensions}");
/// # Ok::<(), Refusal>(())
/// ```
#[derive(Clone, Copy, PartialEq, Eq, Hash)]
pub struct Lost {
    /// Those behind the last are as the library gives them, which is zeros.
    all: [(u8, Reason); BITS],
    count: usize,
}

impl Lost {
    /// No listing makes this panic: one that counts more bits than there are is cut off, and its
    /// numbers are taken as they are.
    pub(crate) fn from_listing(listing: &Listing) -> Lost {
        let reason = |number: u8| match Reason::from_number(number.into()) {
            Some(reason) => reason,
            None => Reason::Other(number),
        };
        Lost {
            all: array::from_fn(|n| (listing.bits[n], reason(listing.reasons[n]))),
            count: usize::try_from(listing.count).map_or(BITS, |count| count.min(BITS)),
        }
    }

    /// How many bits are lost.
    #[must_use]
    pub const fn len(&self) -> usize {
        self.count
    }

    /// Whether none is.
    #[must_use]
    pub const fn is_empty(&self) -> bool {
        self.count == 0
    }

    /// Each lost bit with its reason, lowest bit first.
    pub fn iter(&self) -> Copied<slice::Iter<'_, (u8, Reason)>> {
        self.all[..self.count].iter().copied()
    }
}

impl<'a> IntoIterator for &'a Lost {
    type Item = (u8, Reason);
    type IntoIter = Copied<slice::Iter<'a, (u8, Reason)>>;

    fn into_iter(self) -> Self::IntoIter {
        self.iter()
    }
}

impl IntoIterator for Lost {
    type Item = (u8, Reason);
    type IntoIter = Take<array::IntoIter<(u8, Reason), BITS>>;

    fn into_iter(self) -> Self::IntoIter {
        self.all.into_iter().take(self.count)
    }
}

impl fmt::Debug for Lost {
    fn fmt(&self, f: &mut fmt::Formatter<'_>) -> fmt::Result {
        f.debug_map().entries(self).finish()
    }
}

/// Why a bit was lost. Where several reasons hold, the one with the lowest number is given. The
/// text is for people; docs/RULES.md, "Lost bits", has the rules:
///
/// ```
/// assert_eq!(
///     vhart::Reason::Driven.to_string(),
///     "STIP is driven by stimecmp, and not by writes, while STCE (menvcfg bit 63) is 1"
/// );
/// ```
#[derive(Clone, Copy, Debug, PartialEq, Eq, PartialOrd, Ord, Hash)]
#[non_exhaustive]
pub enum Reason {
    /// 1: no write to the register stores anything. It is read-only, or reads 0.
    ReadOnly,
    /// 2: no hart takes this bit of this register from a value.
    NeverCopied,
    /// 3: a hart with other extensions or other interrupts would store the value's bit.
    OtherExtensions,
    /// 4: the bit is in a field whose written value is reserved: MPP of mstatus, CBIE of menvcfg
    /// and senvcfg, the mode of mtvec and stvec.
    Reserved,
    /// 5: the bit is in a field that is derived or forced: UXL, SXL and SD of mstatus, UXL and SD
    /// of sstatus, bits 1, 5 and 9 of mideleg.
    Forced,
    /// 6: the whole write is ignored: for mepc and sepc the value is above `highest`, and for satp
    /// its mode is neither Bare nor Sv39.
    Ignored,
    /// 7: the bit is STIP of mip, and STCE of menvcfg is 1.
    Driven,
    /// A number that a newer library gives and this binding doesn't know.
    Other(u8),
}

impl Reason {
    /// The reason of this number in the header's table, if this binding knows one.
    #[must_use]
    pub const fn from_number(number: u64) -> Option<Reason> {
        match number {
            1 => Some(Reason::ReadOnly),
            2 => Some(Reason::NeverCopied),
            3 => Some(Reason::OtherExtensions),
            4 => Some(Reason::Reserved),
            5 => Some(Reason::Forced),
            6 => Some(Reason::Ignored),
            7 => Some(Reason::Driven),
            _ => None,
        }
    }

    /// The number of this reason in the header's table.
    #[must_use]
    pub const fn number(self) -> u64 {
        match self {
            Reason::ReadOnly => 1,
            Reason::NeverCopied => 2,
            Reason::OtherExtensions => 3,
            Reason::Reserved => 4,
            Reason::Forced => 5,
            Reason::Ignored => 6,
            Reason::Driven => 7,
            Reason::Other(number) => number as u64,
        }
    }
}

impl fmt::Display for Reason {
    fn fmt(&self, f: &mut fmt::Formatter<'_>) -> fmt::Result {
        f.write_str(match self {
            Reason::ReadOnly => "no write to this register stores anything: it is read-only, or reads 0",
            Reason::NeverCopied => "no hart takes this bit of this register from a written value",
            Reason::OtherExtensions => "a hart with other extensions or interrupts would store it: this one lacks what keeps the bit, or has what changes it",
            Reason::Reserved => "the value that was written to its field is reserved",
            Reason::Forced => "its field is forced or derived, whatever is written to it",
            Reason::Ignored => "the whole write is ignored: the address is above `highest`, or the mode of satp is neither Bare nor Sv39",
            Reason::Driven => "STIP is driven by stimecmp, and not by writes, while STCE (menvcfg bit 63) is 1",
            Reason::Other(_) => "unknown to this binding; the library is newer",
        })
    }
}

#[cfg(test)]
mod tests {
    extern crate std;
    use std::format;
    use std::vec::Vec;

    use super::{Listing, Lost, Reason};

    fn listing(count: u64, bits: &[u8], reasons: &[u8]) -> Listing {
        let mut listing = Listing {
            refusal: 0,
            count,
            bits: [0; 64],
            reasons: [0; 64],
        };
        listing.bits[..bits.len()].copy_from_slice(bits);
        listing.reasons[..reasons.len()].copy_from_slice(reasons);
        listing
    }

    #[test]
    fn every_number_is_kept() {
        for number in 1..=7 {
            assert_eq!(
                Reason::from_number(number).map(Reason::number),
                Some(number)
            );
        }
        for number in [0, 8, 256 + 1, u64::MAX] {
            assert_eq!(Reason::from_number(number), None);
        }
    }

    /// `VHART_REASON_READ_ONLY = 1` is `ReadOnly`.
    #[test]
    fn reasons_are_those_of_the_header() {
        let header = include_str!("../../../include/vhart.h");
        let from_first = header
            .lines()
            .skip_while(|line| *line != "enum vhart_reason {");
        let lines = from_first.skip(1).take_while(|line| !line.starts_with('}'));
        let mut last = 0;
        for line in lines {
            last += 1;
            let reason = Reason::from_number(last).expect("the header has no more");
            let ours = format!("{reason:?} = {last}").to_uppercase();
            let theirs = line
                .trim_start_matches("    VHART_REASON_")
                .replace('_', "");
            let theirs = theirs.split([',', '/']).next().map(str::trim_end);
            assert_eq!(theirs, Some(ours.as_str()));
        }
        assert_eq!(last, 7);
    }

    #[test]
    fn reasons_are_in_the_order_of_their_numbers() {
        let known: Vec<Reason> = (1..=7).filter_map(Reason::from_number).collect();
        assert!(known.windows(2).all(|two| two[0] < two[1]));
        assert!(known.iter().all(|reason| *reason < Reason::Other(8)));
    }

    #[test]
    fn each_bit_is_given_with_its_reason() {
        let lost = Lost::from_listing(&listing(2, &[33, 35], &[5, 3]));
        let expected = [(33, Reason::Forced), (35, Reason::OtherExtensions)];
        assert_eq!((lost.len(), lost.is_empty()), (2, false));
        assert_eq!((lost.iter().len(), lost.into_iter().len()), (2, 2));
        assert!(
            lost.iter().eq(expected)
                && (&lost).into_iter().eq(expected)
                && lost.into_iter().eq(expected)
        );
        assert_eq!(format!("{lost:?}"), "{33: Forced, 35: OtherExtensions}");
        assert_ne!(lost, Lost::from_listing(&listing(1, &[33], &[5])));
        let none = Lost::from_listing(&listing(0, &[], &[]));
        assert!(none.is_empty() && none.iter().next().is_none());
    }

    #[test]
    fn what_the_library_never_gives_is_told_too() {
        for count in [65, u64::MAX] {
            assert_eq!(Lost::from_listing(&listing(count, &[], &[])).len(), 64);
        }
        let lost = Lost::from_listing(&listing(3, &[255, 3, 3], &[0, 8, 255]));
        let expected = [
            (255, Reason::Other(0)),
            (3, Reason::Other(8)),
            (3, Reason::Other(255)),
        ];
        assert!(lost.iter().eq(expected));
        assert_eq!(Reason::Other(8).number(), 8);
    }
}
