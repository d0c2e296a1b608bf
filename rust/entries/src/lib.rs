//! The C entries of include/vhart.h, from which every Rust adapter is made, and what they take and
//! give: the calls on a record as one list, and beside it the two checks, the two entries for a
//! settings file, the two that explain a write, one of which adds it to totals, and the two that
//! replay a call log.

#![no_std]
#![deny(missing_docs)]

/// Hands the list of the calls on a record to a macro:
/// `list!([macro] what the macro is given before it)`.
///
/// A line is a call: whether the hart image is only read, its names, and the numbers behind the
/// images in the header's order. The last of these may be the fields of a record, which Rust takes
/// as one.
#[macro_export]
macro_rules! list {
    ([$($then:tt)*] $($given:tt)*) => {
        $($then)*! {
            $($given)*
            /// Answers what the CSR at this address reads.
            const read Read vhart_read(address; host: Host { time, seed, line });
            /// Writes a CSR by its rule.
            mut write Write vhart_write(address, value);
            /// csrrw rd, csr, rs1.
            mut csrrw Csrrw vhart_csrrw(address, rd, rs1; host: Host { time, seed, line });
            /// csrrs rd, csr, rs1.
            mut csrrs Csrrs vhart_csrrs(address, rd, rs1; host: Host { time, seed, line });
            /// csrrc rd, csr, rs1.
            mut csrrc Csrrc vhart_csrrc(address, rd, rs1; host: Host { time, seed, line });
            /// csrrwi rd, csr, imm.
            mut csrrwi Csrrwi vhart_csrrwi(address, rd, imm; host: Host { time, seed, line });
            /// csrrsi rd, csr, imm.
            mut csrrsi Csrrsi vhart_csrrsi(address, rd, imm; host: Host { time, seed, line });
            /// csrrci rd, csr, imm.
            mut csrrci Csrrci vhart_csrrci(address, rd, imm; host: Host { time, seed, line });
            /// Answers the interrupt to inject now, if there is one.
            const pending Pending vhart_pending();
            /// Takes this interrupt to mode M.
            mut inject Inject vhart_inject(number);
            /// Takes an exception to mode M.
            mut trap Trap vhart_trap(; trap: TrapInfo { mcause, mtval, mepc, mip, mstatus });
            /// mret.
            mut mret Mret vhart_mret();
            /// sret.
            mut sret Sret vhart_sret();
            /// Writes a fresh record over whatever the buffer holds.
            mut fresh Fresh vhart_fresh(pc);
            /// Answers what the CSR at this address reads, by the plain engine.
            const plain_read PlainRead vhart_plain_read(address; host: Host { time, seed, line });
            /// Writes a CSR by its rule, by the plain engine.
            mut plain_write PlainWrite vhart_plain_write(address, value);
        }
    };
}

/// Declares the entries as they stand in the archive.
#[macro_export]
macro_rules! declare {
    () => { $crate::list!([$crate::declare] linked;); };
    (linked; $(#[$doc:meta] $access:tt $name:ident $variant:ident $entry:ident(
        $($arg:ident),* $(; $given:ident: $record:ident { $($field:ident),* })?
    );)*) => {
        extern "C" {
            $(
                pub(crate) fn $entry(
                    caps: *const u8,
                    caps_len: usize,
                    hart: *$access u8,
                    hart_len: usize
                    $(, $arg: u64)* $($(, $field: u64)*)?
                ) -> $crate::Outcome;
            )*
            pub(crate) fn vhart_check_caps(caps: *const u8, caps_len: usize) -> $crate::Fault;
            pub(crate) fn vhart_check_hart(
                caps: *const u8,
                caps_len: usize,
                hart: *const u8,
                hart_len: usize,
            ) -> $crate::Fault;
            pub(crate) fn vhart_settings_read(file: *const u8, file_len: usize) -> $crate::Settings;
            pub(crate) fn vhart_settings_write(
                caps: *const u8,
                caps_len: usize,
                file: *mut u8,
                file_len: usize,
            ) -> $crate::Outcome;
            pub(crate) fn vhart_explain(
                caps: *const u8,
                caps_len: usize,
                hart: *const u8,
                hart_len: usize,
                address: u64,
                value: u64,
                time: u64,
                seed: u64,
            ) -> $crate::Listing;
            pub(crate) fn vhart_tally(
                caps: *const u8,
                caps_len: usize,
                hart: *const u8,
                hart_len: usize,
                address: u64,
                value: u64,
                time: u64,
                seed: u64,
                totals: *mut $crate::Totals,
            ) -> $crate::Outcome;
            pub(crate) fn vhart_replay(
                caps: *const u8,
                caps_len: usize,
                hart: *mut u8,
                hart_len: usize,
                wait: *mut u8,
                wait_len: usize,
                fragment: *const u8,
                fragment_len: usize,
                out: *mut u8,
                out_len: usize,
            ) -> $crate::Outcome;
            pub(crate) fn vhart_replay_end(
                caps: *const u8,
                caps_len: usize,
                hart: *const u8,
                hart_len: usize,
                wait: *const u8,
                wait_len: usize,
            ) -> $crate::Outcome;
        }
    };
}

/// Defines the entries for C, each by the function of a module that takes slices, and the plain
/// ones by the fast ones; all with an attribute.
#[macro_export]
macro_rules! define {
    (#[$attribute:meta] $module:path) => { $crate::list!([$crate::define] $attribute, $module;); };
    ($attribute:meta, $module:path; $(#[$doc:meta] $access:tt $name:ident $variant:ident $entry:ident(
        $($arg:ident),* $(; $given:ident: $record:ident { $($field:ident),* })?
    );)*) => {
        $(
            /// # Safety
            /// As include/vhart.h asks.
            #[$attribute]
            #[allow(clippy::too_many_arguments)] // the header's
            pub unsafe extern "C" fn $entry(
                caps: *const u8,
                caps_len: usize,
                hart: *$access u8,
                hart_len: usize
                $(, $arg: u64)* $($(, $field: u64)*)?
            ) -> $crate::Outcome {
                $crate::made!($name $module, $access [caps, caps_len, hart, hart_len] $($arg),* $(; $record { $($field),* })?)
            }
        )*

        /// # Safety
        /// As include/vhart.h asks.
        #[$attribute]
        pub unsafe extern "C" fn vhart_check_caps(caps: *const u8, caps_len: usize) -> $crate::Fault {
            use $module as module;
            // SAFETY: as the caller promises
            module::check_caps(unsafe { $crate::lent!(const caps, caps_len) })
        }

        /// # Safety
        /// As include/vhart.h asks.
        #[$attribute]
        pub unsafe extern "C" fn vhart_check_hart(
            caps: *const u8,
            caps_len: usize,
            hart: *const u8,
            hart_len: usize,
        ) -> $crate::Fault {
            use $module as module;
            // SAFETY: as the caller promises
            let (caps, hart) = unsafe { ($crate::lent!(const caps, caps_len), $crate::lent!(const hart, hart_len)) };
            module::check_hart(caps, hart)
        }

        /// # Safety
        /// As include/vhart.h asks.
        #[$attribute]
        pub unsafe extern "C" fn vhart_settings_read(file: *const u8, file_len: usize) -> $crate::Settings {
            use $module as module;
            // SAFETY: as the caller promises
            module::settings_read(unsafe { $crate::lent!(const file, file_len) })
        }

        /// # Safety
        /// As include/vhart.h asks.
        #[$attribute]
        pub unsafe extern "C" fn vhart_settings_write(
            caps: *const u8,
            caps_len: usize,
            file: *mut u8,
            file_len: usize,
        ) -> $crate::Outcome {
            use $module as module;
            // SAFETY: as the caller promises
            let (caps, file) = unsafe { ($crate::lent!(const caps, caps_len), $crate::lent!(mut file, file_len)) };
            module::settings_write(caps, file)
        }

        /// # Safety
        /// As include/vhart.h asks.
        #[$attribute]
        #[allow(clippy::too_many_arguments)] // the header's
        pub unsafe extern "C" fn vhart_explain(
            caps: *const u8,
            caps_len: usize,
            hart: *const u8,
            hart_len: usize,
            address: u64,
            value: u64,
            time: u64,
            seed: u64,
        ) -> $crate::Listing {
            use $module as module;
            // SAFETY: as the caller promises
            let (caps, hart) = unsafe { ($crate::lent!(const caps, caps_len), $crate::lent!(const hart, hart_len)) };
            module::explain(caps, hart, address, value, $crate::Host { time, seed, line: 0 })
        }

        /// # Safety
        /// As include/vhart.h asks.
        #[$attribute]
        #[allow(clippy::too_many_arguments)] // the header's
        pub unsafe extern "C" fn vhart_tally(
            caps: *const u8,
            caps_len: usize,
            hart: *const u8,
            hart_len: usize,
            address: u64,
            value: u64,
            time: u64,
            seed: u64,
            totals: *mut $crate::Totals,
        ) -> $crate::Outcome {
            use $module as module;
            // SAFETY: as the caller promises
            let (caps, hart) = unsafe { ($crate::lent!(const caps, caps_len), $crate::lent!(const hart, hart_len)) };
            // SAFETY: likewise
            let totals = unsafe { &mut *totals };
            module::tally(caps, hart, address, value, $crate::Host { time, seed, line: 0 }, totals)
        }

        /// # Safety
        /// As include/vhart.h asks.
        #[$attribute]
        #[allow(clippy::too_many_arguments)] // the header's
        pub unsafe extern "C" fn vhart_replay(
            caps: *const u8,
            caps_len: usize,
            hart: *mut u8,
            hart_len: usize,
            wait: *mut u8,
            wait_len: usize,
            fragment: *const u8,
            fragment_len: usize,
            out: *mut u8,
            out_len: usize,
        ) -> $crate::Outcome {
            use $module as module;
            // SAFETY: as the caller promises
            let (caps, hart) = unsafe { ($crate::lent!(const caps, caps_len), $crate::lent!(mut hart, hart_len)) };
            // SAFETY: likewise
            let (wait, fragment) = unsafe { ($crate::lent!(mut wait, wait_len), $crate::lent!(const fragment, fragment_len)) };
            // SAFETY: likewise
            let out = unsafe { $crate::lent!(mut out, out_len) };
            module::replay(caps, hart, wait, fragment, out)
        }

        /// # Safety
        /// As include/vhart.h asks.
        #[$attribute]
        pub unsafe extern "C" fn vhart_replay_end(
            caps: *const u8,
            caps_len: usize,
            hart: *const u8,
            hart_len: usize,
            wait: *const u8,
            wait_len: usize,
        ) -> $crate::Outcome {
            use $module as module;
            // SAFETY: as the caller promises
            let (caps, hart) = unsafe { ($crate::lent!(const caps, caps_len), $crate::lent!(const hart, hart_len)) };
            // SAFETY: likewise
            let wait = unsafe { $crate::lent!(const wait, wait_len) };
            module::replay_end(caps, hart, wait)
        }
    };
}

/// What a function for C does: it calls the module's. The plain ones call the fast ones: a module
/// has one engine, and a second copy of it would change how the first is compiled.
#[macro_export]
macro_rules! made {
    (plain_read $module:path, const [$($lent:ident),*] $address:ident; Host { $time:ident, $seed:ident, $line:ident }) => {
        // SAFETY: as the caller promises
        unsafe { vhart_read($($lent,)* $address, $time, $seed, $line) }
    };
    (plain_write $module:path, mut [$($lent:ident),*] $address:ident, $value:ident) => {
        // SAFETY: as the caller promises
        unsafe { vhart_write($($lent,)* $address, $value) }
    };
    ($name:ident $module:path, $access:tt [$caps:ident, $caps_len:ident, $hart:ident, $hart_len:ident]
        $($arg:ident),* $(; $record:ident { $($field:ident),* })?
    ) => {{
        use $module as module;
        // SAFETY: as the caller promises
        let (caps, hart) = unsafe { ($crate::lent!(const $caps, $caps_len), $crate::lent!($access $hart, $hart_len)) };
        module::$name(caps, hart $(, $arg)* $(, $crate::$record { $($field),* })?)
    }};
}

/// The slice that a pointer and a length are.
#[macro_export]
macro_rules! lent {
    (const $bytes:ident, $len:ident) => {
        core::slice::from_raw_parts($bytes, $len)
    };
    (mut $bytes:ident, $len:ident) => {
        core::slice::from_raw_parts_mut($bytes, $len)
    };
}

/// What a call on a record gives, as C lays it out: `vhart_outcome`.
#[repr(C)]
#[derive(Clone, Copy, Debug, PartialEq, Eq)]
pub struct Outcome {
    /// 0: the call was done.
    pub refusal: u64,
    /// What was read.
    pub answer: u64,
    /// What the host is asked to do.
    pub effect: u64,
}

/// What a check gives, as C lays it out: `vhart_fault`. All three are 0 where nothing is wrong.
#[repr(C)]
#[derive(Clone, Copy, Debug, PartialEq, Eq)]
pub struct Fault {
    /// What the calls refuse the images with.
    pub refusal: u64,
    /// The lowest word of that image that isn't legal; for a wrong length the number of its words.
    pub word: u64,
    /// What that word holds; for a wrong length 0.
    pub value: u64,
}

/// What the reading of a settings file gives, as C lays it out: `vhart_settings`.
#[repr(C)]
#[derive(Clone, Copy, Debug, PartialEq, Eq)]
pub struct Settings {
    /// 0: the file was accepted.
    pub refusal: u64,
    /// The capabilities that it holds, in the image's order; all 0 where it was refused.
    pub words: [u64; 9],
}

/// What explaining a write gives, as C lays it out: `vhart_listing`. All is 0 behind the refusal
/// where it was refused.
#[repr(C)]
#[derive(Clone, Copy, Debug, PartialEq, Eq)]
pub struct Listing {
    /// 0: the write was explained.
    pub refusal: u64,
    /// How many bits are lost.
    pub count: u64,
    /// These bits, lowest first, and zeros behind them.
    pub bits: [u8; 64],
    /// Why each was lost, at the same places.
    pub reasons: [u8; 64],
}

/// The totals that explained writes are added to, as C lays them out: `vhart_totals`.
#[repr(C)]
#[derive(Clone, Copy, Debug, PartialEq, Eq)]
pub struct Totals {
    /// How many bits were lost for each reason, in the order of the reasons' numbers.
    pub lost: [u32; 7],
    /// How many writes were added.
    pub writes: u32,
    /// How many of them lost no bit.
    pub lossless: u32,
}

/// What the host hands to each call that can read a CSR, as C takes it.
#[derive(Clone, Copy, Default, PartialEq, Eq, Hash)]
pub struct Host {
    /// What `time` (C01) reads.
    pub time: u64,
    /// What `seed` (015) reads.
    pub seed: u64,
    /// 1 while the interrupt controller raises the supervisor external interrupt, and else 0.
    pub line: u64,
}

/// An exception that the monitor hands to the firmware.
#[derive(Clone, Copy, Default, PartialEq, Eq, Hash)]
pub struct TrapInfo {
    /// The exception's cause; bit 63 is clear.
    pub mcause: u64,
    /// The exception's value.
    pub mtval: u64,
    /// The address of the instruction that trapped.
    pub mepc: u64,
    /// SSIP and STIP after the trap; the other bits of mip stay. Give the record's own mip: the
    /// board's may have a bit that the hart lacks, which is refused.
    pub mip: u64,
    /// mstatus after the trap, if the hart's mode isn't M: legal, and with the mode in MPP. In mode
    /// M it isn't looked at.
    pub mstatus: u64,
}

// Debug, in hex.
macro_rules! shown {
    ($($record:ident { $($field:ident),* })*) => {$(
        impl core::fmt::Debug for $record {
            fn fmt(&self, f: &mut core::fmt::Formatter<'_>) -> core::fmt::Result {
                f.debug_struct(stringify!($record))
                    $(.field(stringify!($field), &format_args!("{:#x}", self.$field)))*
                    .finish()
            }
        }
    )*};
}

shown!(Host { time, seed, line } TrapInfo { mcause, mtval, mepc, mip, mstatus });
