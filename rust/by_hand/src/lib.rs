//! The contract by hand behind the library's own names: what stands for libvhart.a where faults are
//! put into a copy, and where it is measured on the board.
#![cfg_attr(target_os = "none", no_std)]

#[cfg(target_os = "none")]
#[panic_handler]
fn on_panic(_: &core::panic::PanicInfo) -> ! {
    loop {}
}

entries::define!(
    #[no_mangle]
    peers::whole
);
