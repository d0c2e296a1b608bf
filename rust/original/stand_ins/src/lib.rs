//! Stands for the crates that the original depends on and that weren't supplied: log, miralis_core,
//! miralis_config, config_select, module_macro. Nothing is logged, no module is selected, the
//! platform is the default one.
mod config;
mod log;
mod macros;

pub mod abi;

pub use config::*;
pub use log::*;
