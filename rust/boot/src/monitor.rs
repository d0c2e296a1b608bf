//! What is done when the hart traps, and before it runs on.

use vhart::{
    menvcfg, mip, misa, mstatus, Caps, CapsWords, Csr, Flags, Hart, Mode, Settings, TrapInfo, Word,
    X,
};
use vhart::{CAPS_BYTES, HART_BYTES};

use crate::counts::Counts;
use crate::log::Log;
use crate::pmp::Pmp;
use crate::status::{self, World};
use crate::stop::Stop;
use crate::world::{PAYLOADS, S_BITS};
use crate::{csrs, memory, virt};

/// Causes of exceptions.
pub const ILLEGAL: u64 = 2;
const LOAD_FAULT: u64 = 5;
pub const STORE_FAULT: u64 = 7;
const ECALL_OF_U: u64 = 8;
const ECALL_OF_M: u64 = 11;

/// The firmware's own interrupts, whose lines the board drives in mip.
pub const M_LINES: u64 = mip::MSIP | mip::MTIP | mip::MEIP;

pub struct Monitor {
    pub caps: Caps,
    pub hart: Hart,
    pub pmp: Pmp,
    /// The payload's CSRs as the board had them, of which the record may keep less.
    pub payloads: [u64; PAYLOADS.len()],
    /// The counters that the firmware has stopped, by their bits in mcountinhibit.
    pub stopped: u64,
    /// Whose CSRs are on the board, if that is known.
    pub on_board: Option<World>,
    pub counts: Counts,
    pub log: Log,
}

impl Monitor {
    pub const fn new() -> Monitor {
        Monitor {
            caps: Caps::from_bytes([0; CAPS_BYTES]),
            hart: Hart::from_bytes([0; HART_BYTES]),
            pmp: Pmp::new(),
            payloads: [0; PAYLOADS.len()],
            stopped: 0,
            on_board: None,
            counts: Counts::new(),
            log: Log::new(),
        }
    }

    /// Before the firmware's first instruction: what its hart has, and a fresh record.
    pub fn start(&mut self) -> Result<(), Stop> {
        let settings = Settings::read(&virt::settings()).map_err(Stop::Settings)?;
        let words = CapsWords {
            mhartid: csrs::read(Csr::MHARTID),
            mvendorid: csrs::read(Csr::MVENDORID),
            marchid: csrs::read(Csr::MARCHID),
            mimpid: csrs::read(Csr::MIMPID),
            ..settings.caps().words()
        };
        if !suits_board(&words) {
            return Err(Stop::OtherBoard(words.misa));
        }
        self.caps = Caps::from(words);
        if virt::is_log_wanted() {
            let settings = Settings::of(&self.caps).map_err(Stop::Settings)?;
            self.log.begin(virt::log_memory(), settings.file());
        }
        self.counts.start();
        self.fresh(virt::firmware())?;
        csrs::clear_mip(mip::SEIP); // this and the next as in the fresh record
        csrs::write(Csr::MENVCFG, 0);
        csrs::write(Csr::MCOUNTINHIBIT, 0);
        self.hart.set_x(X(10), words.mhartid);
        self.hart.set_x(X(11), virt::tree());
        self.run_on()
    }

    /// The board has trapped into the monitor, and x1 to x31 and mepc are in the record.
    pub fn trapped(&mut self) -> Result<(), Stop> {
        let world = self.world();
        self.counts.entered(world);
        let (mcause, mtval) = (csrs::read(Csr::MCAUSE), csrs::read(Csr::MTVAL));
        let status = csrs::read(Csr::MSTATUS);
        if status & mstatus::MPP == mstatus::MPP {
            return Err(Stop::Trapped);
        }
        match world {
            World::Payload => self.payload_in(status)?,
            World::Firmware => self.firmware_in(status)?,
        }
        self.lines_in();
        match (world, mcause) {
            _ if mcause >> 63 != 0 => self.counts.interrupt(mcause), // its line is in the record
            (World::Firmware, ILLEGAL) => self.emulate(instruction(&self.hart, mtval))?,
            (World::Payload, ILLEGAL) => match self.stopped_counter(mtval) {
                Some((csr, rd)) => self.read_stopped(csr, rd)?,
                None => self.give(mcause, mtval)?,
            },
            (World::Firmware, LOAD_FAULT | STORE_FAULT) if self.is_under_mprv() => {
                self.access(mcause, mtval)?;
            }
            (World::Firmware, ECALL_OF_U) => self.give(ECALL_OF_M, mtval)?,
            (_, STORE_FAULT) => self.store_faulted(world, mtval)?,
            _ => self.give(mcause, mtval)?,
        }
        self.run_on()
    }

    /// An exception for the firmware. mip is the record's: what is the payload's of it is there.
    pub fn give(&mut self, mcause: u64, mtval: u64) -> Result<(), Stop> {
        self.counts.exception(self.world(), mcause);
        self.trap(TrapInfo {
            mcause,
            mtval,
            mepc: self.hart.get(Word::Pc),
            mip: self.hart.get(Word::Mip),
            mstatus: status::on_board(&self.hart, World::Payload), // not looked at in mode M
        })
    }

    /// Before the hart runs on, each time.
    fn run_on(&mut self) -> Result<(), Stop> {
        if self.hart.get(Word::Waiting) != 0 {
            self.sleep();
        }
        if let Some(number) = self.pending()? {
            self.inject(number)?;
        }
        match self.world() {
            World::Payload => self.payload_out(),
            World::Firmware => self.firmware_out(),
        }
        self.counts.left();
        Ok(())
    }

    /// The firmware's wfi. What wakes it is taken only if MIE lets it, so `waiting` ends before
    /// that is asked.
    fn sleep(&mut self) {
        csrs::write(Csr::MIE, self.hart.get(Word::Mie)); // so that the board's wfi wakes
        csrs::clear_mip(S_BITS); // which the record has
        while !self.wakes() {
            csrs::wait();
            self.lines_in();
        }
        self.hart.set(Word::Waiting, 0);
    }

    /// mie and mip share a bit, delegated or not. The controller's line shows on the board alone.
    fn wakes(&self) -> bool {
        let line = csrs::read(Csr::MIP) & mip::SEIP;
        self.hart.get(Word::Mie) & (self.hart.get(Word::Mip) | line) != 0
    }

    /// What the board drives in mip, into the record: STIP too, while stimecmp rules it.
    pub fn lines_in(&mut self) {
        let driven = match self.has_stimecmp() {
            true => M_LINES | mip::STIP,
            false => M_LINES,
        };
        let lines = csrs::read(Csr::MIP) & driven & self.caps.words().interrupts;
        self.hart
            .set(Word::Mip, self.hart.get(Word::Mip) & !driven | lines);
    }

    pub fn has_stimecmp(&self) -> bool {
        self.hart.get(Word::Menvcfg) & menvcfg::STCE != 0
    }

    pub fn world(&self) -> World {
        match self.hart.mode() {
            Some(Mode::M) => World::Firmware,
            _ => World::Payload,
        }
    }

    /// Behind an instruction that the monitor did, of this length.
    pub fn step_over(&mut self, bytes: u64) {
        let pc = self.hart.get(Word::Pc);
        self.hart.set(Word::Pc, pc.wrapping_add(bytes));
    }
}

/// Whether the board has what the settings say. Letters may be kept from the firmware, but not S,
/// nor C, by which pc is aligned. With H there would be more to switch between the worlds.
fn suits_board(words: &CapsWords) -> bool {
    const H: u64 = 1 << 7;
    let board = csrs::read(Csr::MISA);
    let needed = board & (misa::C | misa::S) | misa::S;
    let has_sstc = !words.flags.contains(Flags::SSTC) || csrs::has_stimecmp();
    board & H == 0 && words.misa & !board == 0 && words.misa & needed == needed && has_sstc
}

/// The firmware's instruction that trapped. Boards may leave 0 in mtval: then it is fetched.
fn instruction(hart: &Hart, mtval: u64) -> u64 {
    match mtval {
        0 => memory::instruction(hart.get(Word::Pc), memory::As::Monitor).map_or(0, u64::from),
        _ => mtval,
    }
}
