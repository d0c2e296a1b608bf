//! The binding on a bare board, with the feature `aligned`: a firmware's session, with what a
//! monitor makes of each step checked.
//!
//! The image's start code calls `main` in machine mode, and supplies what `board` declares. On a
//! host there is nothing here.

#![cfg(target_os = "none")]
#![no_std]

mod board;
mod monitor;

use core::fmt::Debug;

use vhart::mip::SEIP;
use vhart::{
    misa, slices, Answer, Caps, CapsWords, Csr, Effect, Fault, FaultWord, Flags, Hart, Host, Image,
    Logged, Mode, Refusal, Results, Settings, Totals, Wait, Word, ENTRY_BYTES, HART_BYTES,
    RESULT_BYTES, SETTINGS_BYTES, WAIT_BYTES, X,
};

use board::say;
use monitor::Monitor;

/// Gives the status that the board ends with.
#[no_mangle]
pub extern "C" fn main() -> i32 {
    let mut checks = Checks(0);
    if let Err(why) = session(&mut checks) {
        panic!("{why}");
    }
    say(format_args!("{} checks of the binding, 0 failed", checks.0));
    0
}

/// How many passed. One that fails ends the program.
struct Checks(u32);

impl Checks {
    #[track_caller]
    fn same<T: PartialEq + Debug>(&mut self, is: T, expected: T) {
        assert!(is == expected, "{is:x?}, and not {expected:x?}");
        self.0 += 1;
    }
}

#[rustfmt::skip] // a line a check
fn session(checks: &mut Checks) -> Result<(), Refusal> {
    use Word::{Mcause, Mepc, Mideleg, Mie, Mip, Mstatus, Mtval, Mtvec, Pc};

    let caps = Caps::from(CapsWords {
        misa: misa::RV64 | misa::A | misa::C | misa::I | misa::M | misa::S | misa::U,
        interrupts: 0xAAA, // SSI, MSI, STI, MTI, SEI and MEI
        highest: u64::MAX,
        flags: Flags::SSTC,
        ..CapsWords::default()
    });
    checks.same(caps.check(), Ok(()));
    checks.same(Hart::fresh(&caps, 0x8000_0001), Err(Refusal::BadStart));

    // The board's settings file, at an odd address, which the aligned archive takes here.
    let mut room = Room([0; HART_BYTES + 1]);
    let file = &mut room.0[1..][..SETTINGS_BYTES];
    checks.same(slices::settings_write(caps.as_bytes(), file), Ok(()));
    checks.same(Settings::read(file), Settings::of(&caps));
    let caps = Settings::read(file)?.caps().clone();
    checks.same(Settings::read(&file[1..]), Err(Refusal::BadMark));

    let mut monitor = Monitor { hart: Hart::fresh(&caps, 0x8000_0000)?, caps, host: Host { time: 1234, ..Host::default() } };
    board::clear_seip(); // as in the fresh record
    checks.same(words(&monitor.hart, [Mstatus, Mideleg, Pc]), [0xA_0000_0000, 0x222, 0x8000_0000]);
    checks.same(monitor.hart.mode(), Some(Mode::M));

    // rdtime x10
    monitor.on_illegal(0xC010_2573)?;
    checks.same((monitor.hart.x(X(10)), monitor.hart.get(Pc)), (1234, 0x8000_0004));

    // csrrw x0, mtvec, x5: the firmware's handlers are at 0x80002000, vectored.
    monitor.hart.set_x(X(5), 0x8000_2001);
    monitor.on_illegal(0x3052_9073)?;
    checks.same(words(&monitor.hart, [Mtvec, Pc]), [0x8000_2001, 0x8000_0008]);

    // csrrw x6, mstatus, x5: MPP 2 is reserved, and becomes U.
    monitor.hart.set_x(X(5), 0x1000);
    monitor.on_illegal(0x3002_9373)?;
    checks.same((monitor.hart.x(X(6)), monitor.hart.get(Mstatus)), (0xA_0000_0000, 0xA_0000_0000));

    // The same write added to two totals, one of which isn't at a multiple of 8: the bits of SXL,
    // MPP and UXL are lost, for reasons 3, 4 and 5.
    let mut months = [Totals::default(); 2];
    for month in &mut months {
        checks.same(monitor.hart.tally(&monitor.caps, Csr::MSTATUS, 0x1000, monitor.host, month), Ok(()));
        checks.same(*month, Totals { lost: [0, 0, 1, 1, 1, 0, 0], writes: 1, lossless: 0 });
    }

    // csrrs x11, tdata1, x0: there is no such CSR, so the firmware gets a trap. Its handler steps
    // over the instruction.
    monitor.on_illegal(0x7A10_25F3)?;
    checks.same(words(&monitor.hart, [Mcause, Mtval, Mepc]), [2, 0x7A10_25F3, 0x8000_000C]);
    checks.same(words(&monitor.hart, [Mstatus, Pc]), [0xA_0000_1800, 0x8000_2000]);
    monitor.hart.set_x(X(5), 0x8000_0010);
    monitor.on_illegal(0x3412_9073)?; // csrrw x0, mepc, x5
    monitor.on_illegal(0x3020_0073)?; // mret
    checks.same(words(&monitor.hart, [Mstatus, Pc]), [0xA_0000_0080, 0x8000_0010]);

    // csrrw x0, mip, x5, then csrrw x0, mip, x0: SSIP, STIP and SEIP are what a write reaches, and
    // the board's SEIP follows.
    monitor.hart.set_x(X(5), 0xFFFF);
    monitor.on_illegal(0x3442_9073)?;
    checks.same((monitor.hart.get(Mip), board::mip() & SEIP), (0x222, SEIP));
    monitor.on_illegal(0x3440_1073)?;
    checks.same((monitor.hart.get(Mip), board::mip() & SEIP), (0, 0));

    // With the controller's line up, mip shows SEIP, which isn't stored.
    let up = Host { line: true, ..monitor.host };
    checks.same(monitor.hart.read(&monitor.caps, Csr::MIP, up), Ok(SEIP));
    checks.same(monitor.hart.read(&monitor.caps, Csr::MIP, monitor.host), Ok(0));

    // The plain engine reads and writes the same, on a copy.
    checks.same(monitor.hart.plain_read(&monitor.caps, Csr::MIP, up), Ok(SEIP));
    let (mut fast, mut plain) = (monitor.hart.clone(), monitor.hart.clone());
    checks.same(plain.plain_write(&monitor.caps, Csr::MIP, 0xFFFF), fast.write(&monitor.caps, Csr::MIP, 0xFFFF));
    checks.same((&plain, plain.get(Mip)), (&fast, 0x222));

    // A log of the same write and a read, at an odd address, comes in two fragments, the first of
    // which ends inside an entry.
    let (mut replayed, mut wait, mut out) = (monitor.hart.clone(), Wait::new(), [0; 2 * RESULT_BYTES]);
    let calls = [Logged::Write { csr: Csr::MIP, value: 0xFFFF }, Logged::Read { csr: Csr::MIP }];
    let log = &mut room.0[1..][..2 * ENTRY_BYTES];
    log.copy_from_slice(calls.map(Logged::to_bytes).as_flattened());
    let (first, second) = log.split_at(ENTRY_BYTES + 5);
    checks.same(replayed.replay(&monitor.caps, &mut wait, first, &mut out[..RESULT_BYTES]), Ok(1));
    checks.same(replayed.replay_end(&monitor.caps, &wait), Err(Refusal::EntryWaits));
    checks.same(replayed.replay(&monitor.caps, &mut wait, second, &mut out[RESULT_BYTES..]), Ok(1));
    checks.same(replayed.replay_end(&monitor.caps, &wait), Ok(()));
    let given = [Answer { value: 0, effect: Effect::SetSeip }, Answer { value: 0x222, effect: Effect::None }];
    checks.same(Results::new(&out, 2).eq(given.map(Ok)), true);
    checks.same(&replayed, &fast);

    // csrrs x0, mie, x5 and csrrsi x0, mstatus, 8: the timer may interrupt, and once it is due it
    // does.
    monitor.hart.set_x(X(5), 0x80);
    monitor.on_illegal(0x3042_A073)?;
    monitor.on_illegal(0x3004_6073)?;
    checks.same(words(&monitor.hart, [Mie, Mstatus, Pc]), [0x80, 0xA_0000_0088, 0x8000_0020]);
    checks.same(monitor.resume(), Ok(None));
    monitor.hart.set(Mip, 0x80);
    checks.same(monitor.resume(), Ok(Some(7)));
    checks.same(words(&monitor.hart, [Mcause, Mepc, Mtval]), [1 << 63 | 7, 0x8000_0020, 0]);
    checks.same(words(&monitor.hart, [Mstatus, Pc]), [0xA_0000_1880, 0x8000_201C]);

    // mret, with the timer set anew, leads back to where the firmware was.
    monitor.hart.set(Mip, 0);
    monitor.on_illegal(0x3020_0073)?;
    checks.same(words(&monitor.hart, [Mstatus, Pc]), [0xA_0000_0088, 0x8000_0020]);
    checks.same(monitor.hart.mode(), Some(Mode::M));

    // A stray store puts MPP 2 into the record: no call works on it, and none changes it.
    monitor.hart.set(Mstatus, 0xA_0000_1088);
    let before = monitor.hart.clone();
    checks.same(monitor.on_illegal(0xC010_2573), Err(Refusal::BadHart));
    checks.same(monitor.resume(), Err(Refusal::BadHart));
    let fault = Fault { refusal: Refusal::BadHart, image: Image::Hart, word: FaultWord::Hart(Mstatus), value: 0xA_0000_1088 };
    checks.same(monitor.hart.check(&monitor.caps), Err(fault));
    checks.same(&monitor.hart, &before);

    // A copy of the record where words can't be loaded whole: it is refused, and nothing traps.
    let mut room = Room([0; HART_BYTES + 1]);
    let bytes = &mut room.0[1..];
    bytes.copy_from_slice(before.as_bytes());
    checks.same(slices::mret(monitor.caps.as_bytes(), bytes), Err(Refusal::NotAligned));
    checks.same(&bytes[..], &before.as_bytes()[..]);

    // A log is replayed there too.
    bytes.copy_from_slice(replayed.as_bytes());
    checks.same(slices::replay(monitor.caps.as_bytes(), bytes, &mut [0; WAIT_BYTES], &Logged::Mret.to_bytes(), &mut out), Ok(1));
    replayed.mret(&monitor.caps)?;
    checks.same(&bytes[..], &replayed.as_bytes()[..]);
    Ok(())
}

#[repr(align(8))]
struct Room([u8; HART_BYTES + 1]);

fn words<const N: usize>(hart: &Hart, names: [Word; N]) -> [u64; N] {
    names.map(|name| hart.get(name))
}
