//! Miralis's own virtual hart: its sources, which build.rs lays out, and in `machine` an adapter
//! from image words to them.
// the original's, much of which isn't called here
#![allow(dead_code, unused_imports, unused_macros, clippy::all)]

extern crate stand_ins as config_select;
extern crate stand_ins as log;
extern crate stand_ins as miralis_config;
extern crate stand_ins as miralis_core;
extern crate stand_ins as module_macro;

pub mod machine;

include!(concat!(env!("OUT_DIR"), "/tree/root.rs"));
