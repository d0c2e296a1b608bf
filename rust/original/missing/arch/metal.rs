//! Stands for the bare machine: time and seed are what the host set, changes of physical CSRs are
//! recorded, and the rest isn't called.
use std::cell::{Cell, RefCell};

use super::{Csr, ExtensionsCapability, HardwareCapability, Mode, RegistersCapability};
use crate::decoder::{LoadInstr, StoreInstr};
use crate::host::MiralisContext;
use crate::virt::VirtContext;

thread_local! {
    static TIME: Cell<u64> = const { Cell::new(0) };
    static SEED: Cell<u64> = const { Cell::new(0) };
    /// Whether bits are set or cleared, of which CSR, and which.
    pub static EFFECTS: RefCell<Vec<(bool, Csr, usize)>> = const { RefCell::new(Vec::new()) };
}

/// What the registers time and seed read.
pub fn set_host(time: u64, seed: u64) {
    TIME.set(time);
    SEED.set(seed);
}

/// It has a private field, so it is made here.
pub fn hardware(
    interrupts: usize,
    extensions: ExtensionsCapability,
    hart: usize,
) -> HardwareCapability {
    HardwareCapability {
        interrupts,
        available_reg: RegistersCapability {
            menvcfg: true,
            henvcfg: false,
            senvcfg: true,
            nb_pmp: 0,
        },
        extensions,
        hart,
        _marker: core::marker::PhantomData,
    }
}

pub fn read_csr(csr: Csr) -> usize {
    match csr {
        Csr::Time => TIME.get() as usize,
        Csr::Seed => SEED.get() as usize,
        _ => unreachable!("a read of the physical {csr:?}"),
    }
}

pub unsafe fn set_csr_bits(csr: Csr, bits: usize) {
    EFFECTS.with(|effects| effects.borrow_mut().push((true, csr, bits)));
}

pub unsafe fn clear_csr_bits(csr: Csr, bits: usize) {
    EFFECTS.with(|effects| effects.borrow_mut().push((false, csr, bits)));
}

macro_rules! not_called {
    ($(fn $name:ident($($type:ty),*) $(-> $result:ty)?;)*) => {$(
        pub unsafe fn $name($(_: $type),*) $(-> $result)? {
            unreachable!()
        }
    )*};
}

not_called! {
    fn write_csr(Csr, usize) -> usize;
    fn write_pmpcfg(usize, usize);
    fn write_pmpaddr(usize, usize);
    fn handle_virtual_load(LoadInstr, &mut VirtContext, &mut MiralisContext);
    fn handle_virtual_store(StoreInstr, &mut VirtContext, &mut MiralisContext);
    fn run_vcpu(&mut VirtContext);
    fn set_mpp(Mode) -> Mode;
    fn read_bytes_from_mode(*const u8, &mut [u8], Mode) -> Result<(), ()>;
    fn store_bytes_from_mode(&[u8], *mut u8, Mode) -> Result<(), ()>;
}

macro_rules! not_called_and_safe {
    ($(fn $name:ident($($type:ty),*) $(-> $result:ty)?;)*) => {$(
        pub fn $name($(_: $type),*) $(-> $result)? {
            unreachable!()
        }
    )*};
}

not_called_and_safe! {
    fn detect_hardware() -> HardwareCapability;
    fn hfencegvma(Option<usize>, Option<usize>);
    fn hfencevvma(Option<usize>, Option<usize>);
    fn sfencevma(Option<usize>, Option<usize>);
    fn ifence();
    fn init();
    fn wfi();
}
