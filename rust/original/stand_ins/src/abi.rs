//! Of miralis_core: the numbers of Miralis's own SBI. They are invented, and the calls that use
//! them are never made.

pub const MIRALIS_EID: usize = 0x0847_5bcd;
pub const MIRALIS_FAILURE_FID: usize = 0;
pub const MIRALIS_SUCCESS_FID: usize = 1;
pub const MIRALIS_LOG_FID: usize = 2;

pub mod log {
    pub const MIRALIS_ERROR: usize = 1;
    pub const MIRALIS_WARN: usize = 2;
    pub const MIRALIS_INFO: usize = 3;
    pub const MIRALIS_DEBUG: usize = 4;
    pub const MIRALIS_TRACE: usize = 5;
}
