//! Of miralis_config: what a build of Miralis is configured with.

pub const LOG_LEVEL: Option<&str> = Some("off");
pub const LOG_COLOR: bool = false;
pub const LOG_TRACE: &[&str; 0] = &[];
pub const LOG_DEBUG: &[&str; 0] = &[];
pub const LOG_INFO: &[&str; 0] = &[];
pub const LOG_WARN: &[&str; 0] = &[];
pub const LOG_ERROR: &[&str; 0] = &[];
pub const PLATFORM_NB_HARTS: usize = 1;
pub const PLATFORM_BOOT_HART_ID: usize = 0;
pub const TARGET_FIRMWARE_ADDRESS: usize = 0x8020_0000;
pub const TARGET_START_ADDRESS: usize = 0x8000_0000;
pub const VCPU_MAX_PMP: Option<usize> = None;
