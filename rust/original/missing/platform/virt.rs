//! Stands for a platform: the highest valid address is what the host set.
use core::fmt;
use std::cell::Cell;

use log::Level;

use super::Platform;
use crate::device::clint::VirtClint;
use crate::device::VirtDevice;
use crate::driver::clint::ClintDriver;

thread_local! {
    static HIGHEST: Cell<usize> = const { Cell::new(usize::MAX) };
}

// SAFETY: no device is there, and none is asked
static CLINT: ClintDriver = unsafe { ClintDriver::new(0x200_0000) };
static VCLINT: VirtClint = VirtClint::new(&CLINT);

pub struct VirtPlatform;

impl VirtPlatform {
    pub fn set_highest(highest: usize) {
        HIGHEST.set(highest);
    }
}

impl Platform for VirtPlatform {
    const NB_HARTS: usize = 1;
    const NB_VIRT_DEVICES: usize = 0;

    fn name() -> &'static str {
        "a host"
    }

    fn debug_print(_: Level, _: fmt::Arguments) {}

    fn get_virtual_devices() -> &'static [VirtDevice] {
        &[]
    }

    fn get_clint() -> &'static ClintDriver {
        &CLINT
    }

    fn get_vclint() -> &'static VirtClint {
        &VCLINT
    }

    fn get_max_valid_address() -> usize {
        HIGHEST.get()
    }
}
