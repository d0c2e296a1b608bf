//! What a call gives: an answer with its effect, or the reason of its refusal.

use core::error::Error;
use core::fmt;

/// What a CSR instruction that was done gives.
#[derive(Clone, Copy, PartialEq, Eq, Hash)]
#[must_use = "its effect is to be done before the hart runs on"]
pub struct Answer {
    /// The value read.
    pub value: u64,
    /// What the host is asked to do.
    pub effect: Effect,
}

impl fmt::Debug for Answer {
    fn fmt(&self, f: &mut fmt::Formatter<'_>) -> fmt::Result {
        f.debug_struct("Answer")
            .field("value", &format_args!("{:#x}", self.value))
            .field("effect", &self.effect)
            .finish()
    }
}

/// What the host is asked to do to bit 9 (SEIP) of the physical mip, before the hart runs on.
#[derive(Clone, Copy, PartialEq, Eq, Hash)]
#[must_use = "it is to be done before the hart runs on"]
#[non_exhaustive]
pub enum Effect {
    /// Nothing.
    None,
    /// Set it.
    SetSeip,
    /// Clear it.
    ClearSeip,
    /// An effect that a newer library asks for and this binding doesn't know.
    Other(u64),
}

impl Effect {
    pub(crate) const fn from_number(number: u64) -> Effect {
        match number {
            0 => Effect::None,
            1 => Effect::SetSeip,
            2 => Effect::ClearSeip,
            _ => Effect::Other(number),
        }
    }
}

impl fmt::Debug for Effect {
    fn fmt(&self, f: &mut fmt::Formatter<'_>) -> fmt::Result {
        match self {
            Effect::None => f.write_str("None"),
            Effect::SetSeip => f.write_str("SetSeip"),
            Effect::ClearSeip => f.write_str("ClearSeip"),
            Effect::Other(number) => write!(f, "Other({number:#x})"),
        }
    }
}

/// Why a call was refused. A refused call has changed nothing.
///
/// The lowest number that applies is given, but for a settings file, which is tested in an order of
/// its own: see [`Settings::read`](crate::Settings::read). The text says what was wrong:
///
/// ```
/// assert_eq!(
///     vhart::Refusal::NoSuchCsr.to_string(),
///     "refusal 3: no CSR has this address; give the firmware an illegal-instruction trap"
/// );
/// ```
#[derive(Clone, Copy, PartialEq, Eq, Hash)]
#[non_exhaustive]
pub enum Refusal {
    /// 1: the capability image isn't 72 bytes long, or isn't legal.
    /// [`Caps::check`](crate::Caps::check) says which word is at fault, and of a settings file
    /// [`Settings::fault`](crate::Settings::fault).
    BadCaps,
    /// 2: the hart image isn't 480 bytes long, or isn't legal.
    /// [`Hart::check`](crate::Hart::check) says which word is at fault. Of a call log also: the
    /// waiting bytes aren't 24, or the first of them is above 23.
    BadHart,
    /// 3: no CSR has this address.
    NoSuchCsr,
    /// 4: this hart lacks the CSR: it needs S, or is stimecmp and needs Sstc.
    CsrAbsent,
    /// 5: a general register's number or an immediate is above 31.
    BadOperand,
    /// 6: a CSR instruction, mret or sret in another mode than M.
    NotMachine,
    /// 7: sret without S.
    NoSupervisor,
    /// 8: no interrupt of this hart has this number.
    BadInterrupt,
    /// 9: a firmware trap whose mcause is an interrupt's.
    NotException,
    /// 10: the trap record is otherwise bad.
    BadTrap,
    /// 11: the start pc isn't aligned.
    BadStart,
    /// 12: the settings file has fewer than 6 bytes, or another length than its version has; or
    /// the buffer for a file isn't [`SETTINGS_BYTES`](crate::SETTINGS_BYTES) long.
    BadLength,
    /// 13: the file doesn't start with V, H, R, or its sixth byte isn't 0.
    BadMark,
    /// 14: the settings file's version isn't known: it isn't 1.
    UnknownVersion,
    /// 15: the line of the interrupt controller is neither 0 nor 1. No call of this binding gives
    /// it, since [`Host::line`](crate::Host::line) is a bool.
    BadLine,
    /// 16: one of the nine totals would pass `u32::MAX`. Only [`Hart::tally`](crate::Hart::tally)
    /// gives it, which has then changed none of them.
    TotalFull,
    /// 17: an entry of a call log is of no known kind, or a word of it that isn't used isn't 0.
    /// Only [`Results`](crate::Results) give it, of an entry.
    BadEntry,
    /// 18: the call log ends in the middle of an entry. Only
    /// [`Hart::replay_end`](crate::Hart::replay_end) gives it.
    EntryWaits,
    /// 23: the buffer is too short for what the completed entries give. Only
    /// [`Hart::replay`](crate::Hart::replay) gives it.
    ShortBuffer,
    /// An image doesn't stand at a multiple of 8. Only the functions of [`slices`](crate::slices)
    /// give it, and only with the feature `aligned`. The library wasn't called.
    NotAligned,
    /// A number that a newer library gives and this binding doesn't know.
    Other(u64),
}

impl Refusal {
    pub(crate) const fn from_number(number: u64) -> Refusal {
        match number {
            1 => Refusal::BadCaps,
            2 => Refusal::BadHart,
            3 => Refusal::NoSuchCsr,
            4 => Refusal::CsrAbsent,
            5 => Refusal::BadOperand,
            6 => Refusal::NotMachine,
            7 => Refusal::NoSupervisor,
            8 => Refusal::BadInterrupt,
            9 => Refusal::NotException,
            10 => Refusal::BadTrap,
            11 => Refusal::BadStart,
            12 => Refusal::BadLength,
            13 => Refusal::BadMark,
            14 => Refusal::UnknownVersion,
            15 => Refusal::BadLine,
            16 => Refusal::TotalFull,
            17 => Refusal::BadEntry,
            18 => Refusal::EntryWaits,
            23 => Refusal::ShortBuffer,
            _ => Refusal::Other(number),
        }
    }

    /// The number of this refusal in the header's table. `NotAligned` has none: it is the
    /// binding's own.
    #[must_use]
    pub const fn number(self) -> Option<u64> {
        match self {
            Refusal::BadCaps => Some(1),
            Refusal::BadHart => Some(2),
            Refusal::NoSuchCsr => Some(3),
            Refusal::CsrAbsent => Some(4),
            Refusal::BadOperand => Some(5),
            Refusal::NotMachine => Some(6),
            Refusal::NoSupervisor => Some(7),
            Refusal::BadInterrupt => Some(8),
            Refusal::NotException => Some(9),
            Refusal::BadTrap => Some(10),
            Refusal::BadStart => Some(11),
            Refusal::BadLength => Some(12),
            Refusal::BadMark => Some(13),
            Refusal::UnknownVersion => Some(14),
            Refusal::BadLine => Some(15),
            Refusal::TotalFull => Some(16),
            Refusal::BadEntry => Some(17),
            Refusal::EntryWaits => Some(18),
            Refusal::ShortBuffer => Some(23),
            Refusal::NotAligned => None,
            Refusal::Other(number) => Some(number),
        }
    }

    /// Its name in this enum, and what was wrong.
    const fn words(self) -> (&'static str, &'static str) {
        match self {
            Refusal::BadCaps => ("BadCaps", "capability image not 72 bytes or not legal; `Caps::check` says which word"),
            Refusal::BadHart => ("BadHart", "hart image not 480 bytes or not legal; stop this hart, `Hart::check` says which word"),
            Refusal::NoSuchCsr => ("NoSuchCsr", "no CSR has this address; give the firmware an illegal-instruction trap"),
            Refusal::CsrAbsent => ("CsrAbsent", "this hart lacks the CSR, for want of S or Sstc; give the firmware an illegal-instruction trap"),
            Refusal::BadOperand => ("BadOperand", "register number or immediate above 31; check how the instruction was decoded"),
            Refusal::NotMachine => ("NotMachine", "CSR instruction, mret or sret outside mode M; hand the hart's trap on to the firmware"),
            Refusal::NoSupervisor => ("NoSupervisor", "sret without S; give the firmware an illegal-instruction trap"),
            Refusal::BadInterrupt => ("BadInterrupt", "no interrupt of this hart; inject what `pending` answers"),
            Refusal::NotException => ("NotException", "mcause has bit 63, an interrupt's; use `inject` for interrupts"),
            Refusal::BadTrap => ("BadTrap", "trap record bad: mepc not aligned, mip outside interrupts, or from S or U an mstatus that isn't legal or whose MPP isn't the mode"),
            Refusal::BadStart => ("BadStart", "start pc not aligned; it must be a multiple of 2 with C, of 4 without"),
            Refusal::BadLength => ("BadLength", "settings file, or the buffer for one, not 78 bytes"),
            Refusal::BadMark => ("BadMark", "not a settings file: it must start with VHR, and its sixth byte must be 0"),
            Refusal::UnknownVersion => ("UnknownVersion", "settings file of an unknown version; this library knows version 1 alone"),
            Refusal::BadLine => ("BadLine", "line of the interrupt controller neither 0 nor 1"),
            Refusal::TotalFull => ("TotalFull", "a total would pass 4294967295; store the totals, set them to 0, and call again"),
            Refusal::BadEntry => ("BadEntry", "entry of a call log of no known kind, or with an unused word that isn't 0"),
            Refusal::EntryWaits => ("EntryWaits", "call log that ends in the middle of an entry; its last bytes are missing"),
            Refusal::ShortBuffer => ("ShortBuffer", "buffer shorter than 24 bytes for each completed entry; hand in a longer one, or a shorter fragment"),
            Refusal::NotAligned => ("NotAligned", "image not at a multiple of 8, which the feature `aligned` needs"),
            Refusal::Other(_) => ("Other", "unknown to this binding; the library is newer"),
        }
    }
}

impl fmt::Display for Refusal {
    fn fmt(&self, f: &mut fmt::Formatter<'_>) -> fmt::Result {
        let (_, text) = self.words();
        match self.number() {
            Some(number) => write!(f, "refusal {number}: {text}"),
            None => write!(f, "refused by the binding: {text}"),
        }
    }
}

impl fmt::Debug for Refusal {
    fn fmt(&self, f: &mut fmt::Formatter<'_>) -> fmt::Result {
        let (name, _) = self.words();
        match self {
            Refusal::Other(number) => write!(f, "{name}({number:#x})"),
            _ => f.write_str(name),
        }
    }
}

impl Error for Refusal {}

#[cfg(test)]
mod tests {
    extern crate std;
    use std::format;
    use std::string::{String, ToString};
    use std::vec::Vec;

    use super::{Answer, Effect, Refusal};

    #[test]
    fn every_number_is_kept() {
        for number in 1..100 {
            assert_eq!(Refusal::from_number(number).number(), Some(number));
        }
    }

    /// `VHART_BAD_CAPS = 1` is `BadCaps`.
    #[test]
    fn refusals_are_those_of_the_header() {
        let header = include_str!("../../../include/vhart.h");
        let from_done = header
            .lines()
            .skip_while(|line| !line.contains("VHART_DONE = 0,"));
        let lines = from_done.skip(1).take_while(|line| !line.starts_with('}'));
        let theirs: Vec<String> = lines
            .filter_map(|line| line.split([',', '/']).next())
            .map(|line| line.trim().replace('_', ""))
            .collect();
        let known = (1..100).map(|number| (number, Refusal::from_number(number)));
        let ours: Vec<String> = known
            .filter(|(_, refusal)| !matches!(refusal, Refusal::Other(_)))
            .map(|(number, refusal)| format!("VHART{refusal:?} = {number}").to_uppercase())
            .collect();
        assert_eq!(ours, theirs);
    }

    #[test]
    fn what_a_newer_library_gives_is_told() {
        assert_eq!(Refusal::from_number(23), Refusal::ShortBuffer);
        assert_eq!(Refusal::from_number(24), Refusal::Other(24));
        assert_eq!(Effect::from_number(2), Effect::ClearSeip);
        assert_eq!(Effect::from_number(3), Effect::Other(3));
    }

    #[test]
    fn numbers_are_shown_in_hex() {
        let answer = Answer {
            value: 0xA_0000_0000,
            effect: Effect::Other(0x13),
        };
        assert_eq!(
            format!("{answer:?}"),
            "Answer { value: 0xa00000000, effect: Other(0x13) }"
        );
        let refusals = [Refusal::NoSuchCsr, Refusal::Other(0x63)];
        assert_eq!(format!("{refusals:?}"), "[NoSuchCsr, Other(0x63)]");
    }

    #[test]
    fn the_refusal_of_the_binding_has_no_number() {
        let text = "refused by the binding: image not at a multiple of 8, which the feature `aligned` needs";
        assert_eq!(
            (
                Refusal::NotAligned.number(),
                Refusal::NotAligned.to_string()
            ),
            (None, text.to_string())
        );
    }
}
