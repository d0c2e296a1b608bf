//! Where the board's hart begins, and the one trap vector. x1 to x31 and pc go into the record and
//! come out of it, which mscratch points to.

use core::arch::global_asm;
use core::panic::PanicInfo;
use core::ptr::addr_of_mut;

use vhart::Hart;

use crate::monitor::Monitor;
use crate::stop::Stop;
use crate::{stop, virt};

/// The instructions of the vector on the way in and out, which are the monitor's too.
pub const VECTOR: u64 = 39 + 35;

global_asm!(
    ".pushsection .text.start, \"ax\"",
    ".globl _start",
    "_start: csrr t0, mhartid",
    "bnez t0, 3f", // one hart alone
    "lla sp, stack_end",
    "lla t0, vector",
    "csrw mtvec, t0",
    "lla t0, bss_start",
    "lla t1, bss_end",
    "1: bgeu t0, t1, 2f",
    "sd zero, 0(t0)",
    "addi t0, t0, 8",
    "j 1b",
    "2: call record",
    "csrw mscratch, a0",
    "call begin",
    "j leave",
    "3: wfi",
    "j 3b",
    ".balign 4",
    "vector: csrrw x31, mscratch, x31",
    ".irp n,1,2,3,4,5,6,7,8,9,10,11,12,13,14,15,16,17,18,19,20,21,22,23,24,25,26,27,28,29,30",
    "sd x\\n, 8*\\n(x31)",
    ".endr",
    "csrrw x1, mscratch, x31",
    "sd x1, 8*31(x31)",
    "csrr x1, mepc",
    "sd x1, 8*32(x31)",
    "lla sp, stack_end",
    "call trapped",
    "leave: csrr x31, mscratch",
    "ld x1, 8*32(x31)",
    "csrw mepc, x1",
    ".irp n,1,2,3,4,5,6,7,8,9,10,11,12,13,14,15,16,17,18,19,20,21,22,23,24,25,26,27,28,29,30",
    "ld x\\n, 8*\\n(x31)",
    ".endr",
    "ld x31, 8*31(x31)",
    "mret",
    ".popsection",
);

static mut MONITOR: Monitor = Monitor::new();

/// What mscratch holds.
#[no_mangle]
extern "C" fn record() -> *mut Hart {
    // SAFETY: its address is taken.
    unsafe { addr_of_mut!(MONITOR.hart) }
}

/// Before the first instruction of the firmware.
#[no_mangle]
extern "C" fn begin() {
    // SAFETY: nothing else has it yet.
    let monitor = unsafe { the_monitor() };
    if let Err(why) = monitor.start() {
        stop::stop(monitor, why);
    }
}

/// The hart has trapped, and its registers and pc are in the record.
#[no_mangle]
extern "C" fn trapped() {
    // SAFETY: the hart was out of the monitor. If it wasn't, because the monitor itself trapped,
    // `trapped` looks at no more than the board, and `stop` ends all.
    let monitor = unsafe { the_monitor() };
    if let Err(why) = monitor.trapped() {
        stop::stop(monitor, why);
    }
}

/// There is one hart, and nothing interrupts the monitor: so whoever enters it alone has it.
unsafe fn the_monitor() -> &'static mut Monitor {
    &mut *addr_of_mut!(MONITOR)
}

/// tests/boot/run sees that no way leads here.
#[panic_handler]
fn on_panic(_: &PanicInfo) -> ! {
    stop::say_why(&Stop::Panic);
    virt::power_off(Stop::Panic.status())
}
