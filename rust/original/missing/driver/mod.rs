//! Stands for the drivers: the one that the platforms name.

pub mod clint;
