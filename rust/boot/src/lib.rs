//! A monitor for one hart of qemu's virt machine: a vendor's firmware runs under it without machine
//! rights, and starts its payload.
//!
//! The firmware believes that it runs in mode M. It runs in U of the board, and each CSR access,
//! trap, return and interrupt of its comes here and is answered by the library, on the hart's
//! record. The payload that it starts in S or U runs on the board itself.
//!
//! | file | what it has |
//! |---|---|
//! | monitor.rs | what is done when the hart traps, and before it runs on |
//! | emulate.rs | the firmware's instructions that trap |
//! | world.rs | the payload's CSRs onto the board and back; what stands there for the firmware |
//! | status.rs | mstatus, field by field |
//! | pmp.rs | the board's PMP entries, and the firmware's own, kept beside the record |
//! | counters.rs | mcycle and minstret |
//! | mprv.rs | the firmware's loads and stores in the payload's place |
//! | off.rs | the power switch, which the monitor throws |
//! | calls.rs | the calls of the library, counted and logged |
//! | counts.rs, table.rs | what the firmware did: counted, and printed |
//! | log.rs | the calls of the boot, kept as a call log |
//! | decode.rs | what an instruction is |
//! | csrs.rs, memory.rs, virt.rs, start.rs | the machine: what is unsafe is here |
//! | stop.rs | what the monitor can't handle |

#![cfg(target_os = "none")]
#![no_std]
#![deny(unsafe_code)]

mod calls;
mod counters;
mod counts;
#[allow(unsafe_code)]
mod csrs;
mod decode;
mod emulate;
mod log;
#[allow(unsafe_code)]
mod memory;
mod monitor;
mod mprv;
mod off;
mod pmp;
#[allow(unsafe_code)]
mod start;
mod status;
mod stop;
mod table;
#[allow(unsafe_code)]
mod virt;
mod world;
