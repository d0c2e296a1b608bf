//! mstatus, field by field: what stands on the board while the payload runs and while the firmware
//! runs, and what of it comes back into the record. docs/GUIDE.md shows this table.

use vhart::{mstatus, Hart, Word};

/// Who runs on the board.
#[derive(Clone, Copy, PartialEq)]
pub enum World {
    Payload,
    Firmware,
}

/// Where a field of the board's mstatus comes from.
#[derive(Clone, Copy, PartialEq)]
enum Source {
    /// The record's field, and what becomes of it comes back with the next trap.
    Shared,
    /// The record's field, which whoever runs can't change.
    Record,
    /// The record's mode.
    Mode,
    /// The record's MIE: the board's mret makes MIE of MPIE, and its trap MPIE of MIE.
    Mie,
    /// The monitor's own: 0.
    Zero,
    /// The monitor's own: 1.
    One,
}

use Source::{Mie, Mode, One, Record, Shared, Zero};

struct Field {
    bits: u64,
    payload: Source,
    firmware: Source,
}

const fn field(bits: u64, payload: Source, firmware: Source) -> Field {
    Field {
        bits,
        payload,
        firmware,
    }
}

#[rustfmt::skip] // a line a field
const FIELDS: [Field; 17] = [
    // field              the payload runs  the firmware runs, in U
    field(mstatus::SIE,   Shared,           Zero),
    field(mstatus::MIE,   Zero,             Zero), // nothing interrupts the monitor
    field(mstatus::SPIE,  Shared,           Zero),
    field(mstatus::MPIE,  Mie,              Zero),
    field(mstatus::SPP,   Shared,           Zero),
    field(mstatus::VS,    Shared,           Shared),
    field(mstatus::MPP,   Mode,             Zero), // U
    field(mstatus::FS,    Shared,           Shared),
    field(mstatus::MPRV,  Zero,             Zero), // mprv.rs does what it asks for
    field(mstatus::SUM,   Shared,           Zero),
    field(mstatus::MXR,   Shared,           Zero),
    field(mstatus::TVM,   Record,           Zero),
    field(mstatus::TW,    Record,           One),  // wfi traps
    field(mstatus::TSR,   Record,           Zero),
    field(mstatus::UXL,   Record,           Record),
    field(mstatus::SXL,   Record,           Record),
    field(mstatus::SD,    Record,           Record), // the board makes it of FS and VS
];

/// The bits of the fields, by where they come from.
struct Masks {
    shared: u64,
    record: u64,
    mode: u64,
    mie: u64,
    one: u64,
}

const PAYLOAD: Masks = Masks::of(World::Payload);
const FIRMWARE: Masks = Masks::of(World::Firmware);

impl Masks {
    const fn of(world: World) -> Masks {
        Masks {
            shared: bits(world, Shared),
            record: bits(world, Record),
            mode: bits(world, Mode),
            mie: bits(world, Mie),
            one: bits(world, One),
        }
    }
}

const fn bits(world: World, from: Source) -> u64 {
    let (mut all, mut i) = (0, 0);
    while i < FIELDS.len() {
        let source = match world {
            World::Payload => FIELDS[i].payload,
            World::Firmware => FIELDS[i].firmware,
        };
        if source as u8 == from as u8 {
            all |= FIELDS[i].bits;
        }
        i += 1;
    }
    all
}

fn masks(world: World) -> &'static Masks {
    match world {
        World::Payload => &PAYLOAD,
        World::Firmware => &FIRMWARE,
    }
}

/// The board's mstatus for who runs now. The payload's is mstatus as a trap out of the payload
/// leaves it, which the board's mret undoes: so it is also what such a trap hands to the firmware.
pub fn on_board(hart: &Hart, world: World) -> u64 {
    let from = masks(world);
    let status = hart.get(Word::Mstatus);
    let mode = hart.get(Word::Mode) << mstatus::MPP_SHIFT;
    let mie = (status & mstatus::MIE) << 4; // where MPIE stands
    status & (from.shared | from.record) | mode & from.mode | mie & from.mie | from.one
}

/// The record's mstatus with what comes back of the board's.
pub fn taken_back(hart: &Hart, board: u64, world: World) -> u64 {
    let shared = masks(world).shared;
    hart.get(Word::Mstatus) & !shared | board & shared
}
