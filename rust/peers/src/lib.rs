//! The library's contract by hand in Rust, twice: `whole`, plain, which is asked what the contract
//! is; and `table`, for speed.
#![no_std]

pub mod agreement;
pub mod arguments;
pub mod calls;
pub mod csr;
pub mod files;
pub mod image;
pub mod inputs;
pub mod interface;
pub mod logs;
pub mod lost;
pub mod outcome;
pub mod rules;
pub mod table;
pub mod totals;
pub mod vectors;
pub mod whole;
