//! qemu's virt machine: its console, its clock and its power switch, and the addresses that
//! monitor.ld has.

use core::ptr::{addr_of, addr_of_mut};

use vhart::SETTINGS_BYTES;

/// As monitor.ld has it.
const LOG_BYTES: usize = 14 << 20;

extern "C" {
    static monitor_start: u8;
    static monitor_bytes: u8;
    static settings_file: [u8; SETTINGS_BYTES];
    static log_wanted: u64;
    static mut log_start: [u8; LOG_BYTES];
    static firmware_start: u8;
    static device_tree: u8;
}

/// A symbol of monitor.ld, whose address is what it says.
macro_rules! symbol {
    ($name:ident) => {
        addr_of!($name) as u64
    };
}

/// Where the monitor's memory starts, and how long it is.
pub fn monitor() -> (u64, u64) {
    (symbol!(monitor_start), symbol!(monitor_bytes))
}

pub fn firmware() -> u64 {
    symbol!(firmware_start)
}

pub fn tree() -> u64 {
    symbol!(device_tree)
}

/// The board's settings file.
pub fn settings() -> [u8; SETTINGS_BYTES] {
    // SAFETY: the bytes are memory of the monitor's own, which nothing writes once it runs.
    unsafe { addr_of!(settings_file).read_volatile() }
}

pub fn is_log_wanted() -> bool {
    // SAFETY: as above.
    unsafe { addr_of!(log_wanted).read_volatile() != 0 }
}

/// The memory for the log. It is asked for once, for the one log.
pub fn log_memory() -> &'static mut [u8] {
    // SAFETY: nothing else lies there, by monitor.ld.
    unsafe { &mut *addr_of_mut!(log_start) }
}

/// The clock: mtime of the CLINT, which is the firmware's own to set.
pub fn time() -> u64 {
    const MTIME: *const u64 = 0x0200_BFF8 as *const u64;
    // SAFETY: it is a register that can be read at any time.
    unsafe { MTIME.read_volatile() }
}

/// SiFive's test device, which powers the machine off.
pub const SWITCH: u64 = 0x10_0000;
pub const SWITCH_BYTES: u64 = 0x1000;

/// The switch's word for a status that isn't 0.
pub fn failed(status: u32) -> u32 {
    status << 16 | 0x3333
}

/// Whether the switch acts on the word: off with a status, off, or reset.
pub fn powers_off(word: u32) -> bool {
    matches!(word & 0xFFFF, 0x3333 | 0x5555 | 0x7777)
}

pub fn store_to_switch(word: u32) {
    // SAFETY: the device takes any word.
    unsafe { (SWITCH as *mut u32).write_volatile(word) }
}

/// Ends all with a status that isn't 0.
pub fn power_off(status: u32) -> ! {
    store_to_switch(failed(status));
    loop {
        core::hint::spin_loop();
    }
}

/// The register of fw_cfg by which it copies to any address in memory, past the PMP. No other
/// device of this machine does that.
pub const DMA: u64 = 0x1010_0010;
pub const DMA_BYTES: u64 = 8;

const UART: *mut u8 = 0x1000_0000 as *mut u8; // an NS16550
const UART_STATUS: usize = 5;
const UART_EMPTY: u8 = 0x20; // it takes the next byte

fn put(byte: u8) {
    // SAFETY: the device's registers can be read and written at any time.
    unsafe {
        while UART.add(UART_STATUS).read_volatile() & UART_EMPTY == 0 {
            core::hint::spin_loop();
        }
        UART.write_volatile(byte);
    }
}

/// A part of a line on the console. There is no formatting of core's here: its code could panic.
pub enum Part<'a> {
    Text(&'a str),
    Hex(u64),
    /// In a column of this width.
    Count(u64, usize),
    /// In a column of this width, from its left.
    Name(&'a str, usize),
    /// In hundredths of a percent.
    Share(u64),
}

/// Prints a line.
pub fn say(parts: &[Part]) {
    show(parts);
    print("\r\n");
}

/// Prints a part of a line.
pub fn show(parts: &[Part]) {
    for part in parts {
        match *part {
            Part::Text(text) => print(text),
            Part::Hex(value) => digits(value, 16, 0),
            Part::Count(value, width) => digits(value, 10, width),
            Part::Name(name, width) => {
                print(name);
                pad(width.saturating_sub(name.len()));
            }
            Part::Share(hundredths) => {
                digits(hundredths / 100, 10, 6);
                print(if hundredths % 100 < 10 { ".0" } else { "." });
                digits(hundredths % 100, 10, 0);
                print(" %");
            }
        }
    }
}

fn print(text: &str) {
    text.bytes().for_each(put);
}

fn pad(count: usize) {
    for _ in 0..count {
        put(b' ');
    }
}

/// From the right, in a column of this width.
fn digits(mut value: u64, base: u64, width: usize) {
    let mut text = [b' '; 40];
    let mut count = 0;
    for place in text.iter_mut().rev() {
        *place = match (value % base.max(2)) as u8 {
            digit @ 0..=9 => b'0' + digit,
            digit => b'a' - 10 + digit,
        };
        value /= base.max(2);
        count += 1;
        if value == 0 {
            break;
        }
    }
    text.iter()
        .skip(text.len() - count.max(width).min(text.len()))
        .copied()
        .for_each(put);
}
