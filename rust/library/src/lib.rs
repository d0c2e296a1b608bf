//! The library's C interface, as the peers have it.
use peers::interface::Interface;
// the binding links the archive that the names stand in
use vhart as _;

entries::declare!();

pub const LIBRARY: Interface = peers::interface!("library", crate);
