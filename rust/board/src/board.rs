//! The board: what the image's start code supplies, and the hart's own mip. The one place that is
//! unsafe.

use core::arch::asm;
use core::fmt::{self, Write};
use core::panic::PanicInfo;

use vhart::mip::SEIP;

extern "C" {
    fn board_put(byte: u8);
    fn board_off(status: i32) -> !;
}

struct Console;

impl Write for Console {
    fn write_str(&mut self, text: &str) -> fmt::Result {
        for byte in text.bytes() {
            // SAFETY: it writes the byte to the board's serial port, whatever it is.
            unsafe { board_put(byte) }
        }
        Ok(())
    }
}

/// Writes a line.
pub fn say(line: fmt::Arguments) {
    let _ = writeln!(Console, "{line}"); // which never fails
}

#[panic_handler]
fn on_panic(why: &PanicInfo) -> ! {
    say(format_args!("{why}"));
    // SAFETY: nothing runs after it.
    unsafe { board_off(1) }
}

pub fn mip() -> u64 {
    let mip;
    // SAFETY: the read changes nothing.
    unsafe { asm!("csrr {}, mip", out(reg) mip) }
    mip
}

pub fn set_seip() {
    // SAFETY: no interrupt is enabled.
    unsafe { asm!("csrs mip, {}", in(reg) SEIP) }
}

pub fn clear_seip() {
    // SAFETY: as above.
    unsafe { asm!("csrc mip, {}", in(reg) SEIP) }
}
