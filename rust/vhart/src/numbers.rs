//! The numbers that a call takes, each kind as a type of its own, so that none can stand where
//! another is meant. All can hold any number: what isn't there is refused by the call.

use core::fmt;
use core::ops::{BitOr, BitOrAssign};

/// The address of a CSR, with a constant for each register that the library knows.
///
/// Any address can be written, such as `Csr(0x7A1)`. It is shown by the register's name.
///
/// ```
/// use vhart::Csr;
///
/// assert_eq!(Csr(0x300), Csr::MSTATUS);
/// assert_eq!(Csr::MSTATUS.to_string(), "mstatus");
/// assert_eq!(Csr(0xB1F).to_string(), "mhpmcounter31");
/// assert_eq!(Csr(0x7A1).to_string(), "0x7a1");
/// ```
#[derive(Clone, Copy, PartialEq, Eq, PartialOrd, Ord, Hash)]
pub struct Csr(pub u64);

macro_rules! registers {
    ($($constant:ident = $address:literal $name:literal;)*) => {
        impl Csr {
            $(
                #[doc = concat!("The register ", $name, ".")]
                pub const $constant: Csr = Csr($address);
            )*

            /// The name of a register that isn't one of many, as the hardware counters are.
            ///
            /// ```
            /// use vhart::Csr;
            ///
            /// assert_eq!(Csr(0x300).name(), Some("mstatus"));
            /// assert_eq!((Csr(0xB1F).name(), Csr(0x7A1).name()), (None, None));
            /// ```
            #[must_use]
            pub const fn name(self) -> Option<&'static str> {
                match self.0 {
                    $($address => Some($name),)*
                    _ => None,
                }
            }
        }
    };
}

registers! {
    SEED = 0x015 "seed";
    SSTATUS = 0x100 "sstatus";
    SIE = 0x104 "sie";
    STVEC = 0x105 "stvec";
    SCOUNTEREN = 0x106 "scounteren";
    SENVCFG = 0x10A "senvcfg";
    SSCRATCH = 0x140 "sscratch";
    SEPC = 0x141 "sepc";
    SCAUSE = 0x142 "scause";
    STVAL = 0x143 "stval";
    SIP = 0x144 "sip";
    STIMECMP = 0x14D "stimecmp";
    SATP = 0x180 "satp";
    MSTATUS = 0x300 "mstatus";
    MISA = 0x301 "misa";
    MEDELEG = 0x302 "medeleg";
    MIDELEG = 0x303 "mideleg";
    MIE = 0x304 "mie";
    MTVEC = 0x305 "mtvec";
    MCOUNTEREN = 0x306 "mcounteren";
    MENVCFG = 0x30A "menvcfg";
    MCOUNTINHIBIT = 0x320 "mcountinhibit";
    MSCRATCH = 0x340 "mscratch";
    MEPC = 0x341 "mepc";
    MCAUSE = 0x342 "mcause";
    MTVAL = 0x343 "mtval";
    MIP = 0x344 "mip";
    SCONTEXT = 0x5A8 "scontext";
    TSELECT = 0x7A0 "tselect";
    MCYCLE = 0xB00 "mcycle";
    MINSTRET = 0xB02 "minstret";
    CYCLE = 0xC00 "cycle";
    TIME = 0xC01 "time";
    INSTRET = 0xC02 "instret";
    MVENDORID = 0xF11 "mvendorid";
    MARCHID = 0xF12 "marchid";
    MIMPID = 0xF13 "mimpid";
    MHARTID = 0xF14 "mhartid";
    MCONFIGPTR = 0xF15 "mconfigptr";
}

impl Csr {
    /// The first of mhpmevent3 to mhpmevent31, whose addresses follow one another.
    pub const MHPMEVENT3: Csr = Csr(0x323);
    /// The first of mhpmcounter3 to mhpmcounter31, whose addresses follow one another.
    pub const MHPMCOUNTER3: Csr = Csr(0xB03);

    /// Whether the address is a read-only CSR's: its bits 11:10 are both 1.
    ///
    /// The library does a write to such a CSR and ignores its value. A host that wants the
    /// standard's illegal-instruction trap instead asks this before the call.
    ///
    /// ```
    /// use vhart::Csr;
    ///
    /// assert!(Csr::TIME.is_read_only() && Csr::MHARTID.is_read_only());
    /// assert!(!Csr::MIP.is_read_only() && !Csr::MCYCLE.is_read_only());
    /// ```
    #[must_use]
    pub const fn is_read_only(self) -> bool {
        self.0 & 0xC00 == 0xC00
    }
}

impl fmt::Display for Csr {
    fn fmt(&self, f: &mut fmt::Formatter<'_>) -> fmt::Result {
        match (self.name(), self.0) {
            (Some(name), _) => f.write_str(name),
            (None, 0x323..=0x33F) => write!(f, "mhpmevent{}", self.0 - 0x320),
            (None, 0xB03..=0xB1F) => write!(f, "mhpmcounter{}", self.0 - 0xB00),
            (None, address) => write!(f, "{address:#x}"),
        }
    }
}

impl fmt::Debug for Csr {
    fn fmt(&self, f: &mut fmt::Formatter<'_>) -> fmt::Result {
        write!(f, "Csr({:#x})", self.0)
    }
}

/// The number of the general register that an instruction writes.
///
/// It is another type than [`Csr`] and [`Rs1`], so that mixed-up operands don't compile:
///
/// ```
/// # use vhart::{Answer, Caps, Csr, Hart, Host, Rd, Refusal, Rs1};
/// fn rdtime(hart: &mut Hart, caps: &Caps, host: Host) -> Result<Answer, Refusal> {
///     hart.csrrs(caps, Csr::TIME, Rd(10), Rs1(0), host)
/// }
/// ```
///
/// A register's number in the address's place:
///
/// ```compile_fail,E0308
/// # use vhart::{Answer, Caps, Csr, Hart, Host, Rd, Refusal, Rs1};
/// fn rdtime(hart: &mut Hart, caps: &Caps, host: Host) -> Result<Answer, Refusal> {
///     hart.csrrs(caps, Rd(10), Csr::TIME, Rs1(0), host)
/// }
/// ```
///
/// rd and rs1 in each other's place:
///
/// ```compile_fail,E0308
/// # use vhart::{Answer, Caps, Csr, Hart, Host, Rd, Refusal, Rs1};
/// fn rdtime(hart: &mut Hart, caps: &Caps, host: Host) -> Result<Answer, Refusal> {
///     hart.csrrs(caps, Csr::TIME, Rs1(0), Rd(10), host)
/// }
/// ```
///
/// An immediate where a register is meant:
///
/// ```compile_fail,E0308
/// # use vhart::{Answer, Caps, Csr, Hart, Host, Imm, Rd, Refusal};
/// fn rdtime(hart: &mut Hart, caps: &Caps, host: Host) -> Result<Answer, Refusal> {
///     hart.csrrs(caps, Csr::TIME, Rd(10), Imm(0), host)
/// }
/// ```
///
/// A plain number:
///
/// ```compile_fail,E0308
/// # use vhart::{Answer, Caps, Csr, Hart, Host, Rd, Refusal, Rs1};
/// fn rdtime(hart: &mut Hart, caps: &Caps, host: Host) -> Result<Answer, Refusal> {
///     hart.csrrs(caps, 0xC01, Rd(10), Rs1(0), host)
/// }
/// ```
#[derive(Clone, Copy, Debug, PartialEq, Eq, PartialOrd, Ord, Hash)]
pub struct Rd(pub u64);

/// The number of the general register whose word is an instruction's operand.
#[derive(Clone, Copy, Debug, PartialEq, Eq, PartialOrd, Ord, Hash)]
pub struct Rs1(pub u64);

/// The immediate that is an instruction's operand.
#[derive(Clone, Copy, PartialEq, Eq, PartialOrd, Ord, Hash)]
pub struct Imm(pub u64);

impl fmt::Debug for Imm {
    fn fmt(&self, f: &mut fmt::Formatter<'_>) -> fmt::Result {
        write!(f, "Imm({:#x})", self.0)
    }
}

/// The number of a general register of the record.
///
/// ```compile_fail,E0308
/// # use vhart::{Hart, X};
/// fn give(hart: &mut Hart, value: u64) {
///     hart.set_x(value, X(5)); // the register comes first
/// }
/// ```
#[derive(Clone, Copy, Debug, PartialEq, Eq, PartialOrd, Ord, Hash)]
pub struct X(pub u64);

impl From<Rd> for X {
    fn from(rd: Rd) -> X {
        X(rd.0)
    }
}

impl From<Rs1> for X {
    fn from(rs1: Rs1) -> X {
        X(rs1.0)
    }
}

impl fmt::Display for X {
    fn fmt(&self, f: &mut fmt::Formatter<'_>) -> fmt::Result {
        write!(f, "x{}", self.0)
    }
}

/// A privilege mode.
#[derive(Clone, Copy, Debug, PartialEq, Eq, PartialOrd, Ord, Hash)]
pub enum Mode {
    /// User.
    U,
    /// Supervisor.
    S,
    /// Machine.
    M,
}

impl Mode {
    /// The mode of this number, as [`Word::Mode`](crate::Word::Mode) and mstatus.MPP hold it.
    #[must_use]
    pub const fn from_number(number: u64) -> Option<Mode> {
        match number {
            0 => Some(Mode::U),
            1 => Some(Mode::S),
            3 => Some(Mode::M),
            _ => None,
        }
    }

    /// Its number: 0, 1 or 3.
    #[must_use]
    pub const fn number(self) -> u64 {
        match self {
            Mode::U => 0,
            Mode::S => 1,
            Mode::M => 3,
        }
    }
}

/// Extensions that misa has no letter for, as a set.
///
/// ```
/// use vhart::Flags;
///
/// let flags = Flags::SSTC | Flags::ZICBOM;
/// assert!(flags.contains(Flags::SSTC) && !flags.contains(Flags::ZFINX));
/// assert_eq!(format!("{flags:?}"), "Flags(SSTC | ZICBOM)");
/// ```
#[derive(Clone, Copy, Default, PartialEq, Eq, Hash)]
pub struct Flags(u64);

impl Flags {
    /// None of them.
    pub const NONE: Flags = Flags(0);
    /// Floating point in the general registers; not together with F.
    pub const ZFINX: Flags = Flags(1 << 0);
    /// stimecmp; only with S.
    pub const SSTC: Flags = Flags(1 << 1);
    /// Cache-block management: menvcfg's and senvcfg's CBIE and CBCFE.
    pub const ZICBOM: Flags = Flags(1 << 2);
    /// Cache-block zero: menvcfg's and senvcfg's CBZE.
    pub const ZICBOZ: Flags = Flags(1 << 3);
    /// Page-based memory types: menvcfg's PBMTE; only with S.
    pub const SVPBMT: Flags = Flags(1 << 4);

    /// The set of these bits, whatever they are.
    #[must_use]
    pub const fn from_bits(bits: u64) -> Flags {
        Flags(bits)
    }

    /// Its bits, as the capability image holds them.
    #[must_use]
    pub const fn bits(self) -> u64 {
        self.0
    }

    /// Whether all of these are in it.
    #[must_use]
    pub const fn contains(self, flags: Flags) -> bool {
        self.0 & flags.0 == flags.0
    }
}

impl BitOr for Flags {
    type Output = Flags;

    fn bitor(self, other: Flags) -> Flags {
        Flags(self.0 | other.0)
    }
}

impl BitOrAssign for Flags {
    fn bitor_assign(&mut self, other: Flags) {
        *self = *self | other;
    }
}

impl fmt::Debug for Flags {
    fn fmt(&self, f: &mut fmt::Formatter<'_>) -> fmt::Result {
        const NAMES: [&str; 5] = ["ZFINX", "SSTC", "ZICBOM", "ZICBOZ", "SVPBMT"];
        let mut between = "Flags(";
        for (bit, name) in NAMES.iter().enumerate() {
            if self.0 >> bit & 1 == 1 {
                write!(f, "{between}{name}")?;
                between = " | ";
            }
        }
        match self.0 >> NAMES.len() << NAMES.len() {
            0 if self.0 == 0 => f.write_str("Flags(NONE)"),
            0 => f.write_str(")"),
            unknown => write!(f, "{between}{unknown:#x})"),
        }
    }
}

#[cfg(test)]
mod tests {
    extern crate std;
    use std::format;
    use std::string::ToString;

    use super::{Csr, Flags, Imm, Mode, Rd, Rs1, X};

    #[test]
    fn modes_have_their_numbers() {
        for number in 0..5 {
            let mode = Mode::from_number(number);
            assert_eq!(
                mode.map(Mode::number),
                (number < 4 && number != 2).then_some(number)
            );
        }
    }

    #[test]
    fn flags_are_shown_by_name_and_unknown_ones_in_hex() {
        let mut flags = Flags::from_bits(0x60);
        assert_eq!(format!("{flags:?}"), "Flags(0x60)");
        flags |= Flags::SVPBMT;
        assert_eq!(format!("{flags:?}"), "Flags(SVPBMT | 0x60)");
        assert_eq!(
            (flags.bits(), format!("{:?}", Flags::NONE)),
            (0x70, "Flags(NONE)".into())
        );
        assert!(flags.contains(Flags::NONE) && !flags.contains(Flags::SVPBMT | Flags::SSTC));
    }

    #[test]
    fn numbers_are_shown_as_assembly_has_them() {
        let shown = format!("{:?} {:?} {:?}", Csr(0x7A1), Rd(10), Imm(31));
        assert_eq!(shown, "Csr(0x7a1) Rd(10) Imm(0x1f)");
        assert_eq!(
            [X::from(Rd(10)), X::from(Rs1(5))].map(|x| x.to_string()),
            ["x10", "x5"]
        );
        assert_eq!(
            [Csr::MHPMEVENT3, Csr::MHPMCOUNTER3].map(|csr| csr.to_string()),
            ["mhpmevent3", "mhpmcounter3"]
        );
        assert_eq!(
            [Csr(0x33F), Csr(0x340), Csr(0x322)].map(|csr| csr.to_string()),
            ["mhpmevent31", "mscratch", "0x322"]
        );
    }
}
