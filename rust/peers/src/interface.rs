//! The calls by their names, and one way to make any of them in any implementation of the C
//! interface; its two checks, its two entries for a settings file, the one that explains a write,
//! the one that adds it to totals, and the two that replay a call log.
use entries::{Fault, Listing, Outcome, Settings, Totals};

pub use entries::list;

macro_rules! define {
    ($(#[$doc:meta] $access:tt $name:ident $variant:ident $entry:ident(
        $($arg:ident),* $(; $given:ident: $record:ident { $($field:ident),* })?
    );)*) => {
        #[derive(Clone, Copy, Debug, PartialEq, Eq)]
        pub enum Entry {
            $($variant,)*
        }

        impl Entry {
            pub const ALL: [Entry; ENTRIES] = [$(Entry::$variant),*];

            pub const fn name(self) -> &'static str {
                match self {
                    $(Entry::$variant => stringify!($name),)*
                }
            }

            /// The names of the numbers that it takes.
            pub const fn numbers(self) -> &'static [&'static str] {
                match self {
                    $(Entry::$variant => &[$(stringify!($arg),)* $($(stringify!($field),)*)?],)*
                }
            }
        }

        const ENTRIES: usize = [$(Entry::$variant),*].len();

        /// An entry's function.
        #[derive(Clone, Copy)]
        pub enum Function {
            $($variant(
                unsafe extern "C" fn(
                    caps: *const u8,
                    caps_len: usize,
                    hart: *$access u8,
                    hart_len: usize
                    $(, $arg: u64)* $($(, $field: u64)*)?
                ) -> Outcome
            ),)*
        }

        impl Function {
            /// Calls it with as many of the arguments as it takes.
            ///
            /// # Safety
            /// `caps` and `hart` are valid for their lengths and don't overlap.
            pub unsafe fn call(
                self,
                caps: *const u8,
                caps_len: usize,
                hart: *mut u8,
                hart_len: usize,
                args: &Args,
            ) -> Outcome {
                match self {
                    $(Function::$variant(f) => {
                        let &[$($arg,)* $($($field,)*)? ..] = args;
                        // SAFETY: as the caller promises
                        unsafe { f(caps, caps_len, hart, hart_len $(, $arg)* $($(, $field)*)?) }
                    })*
                }
            }
        }
    };
}

list!([define]);

impl Entry {
    /// How many numbers it takes.
    pub const fn arity(self) -> usize {
        self.numbers().len()
    }

    /// Those of the plain engine, which stand last in the list.
    pub const PLAIN: [Entry; 2] = [Entry::PlainRead, Entry::PlainWrite];

    /// All the others.
    pub const FAST: [Entry; ENTRIES - Entry::PLAIN.len()] = match Entry::ALL.first_chunk() {
        Some(fast) => *fast,
        None => unreachable!(),
    };

    /// Whether its first number is a CSR's address.
    pub fn takes_csr(self) -> bool {
        self.numbers().first() == Some(&"address")
    }
}

/// The most numbers that an entry takes.
pub const ARGS: usize = {
    let (mut most, mut n) = (0, 0);
    while n < ENTRIES {
        if Entry::ALL[n].arity() > most {
            most = Entry::ALL[n].arity();
        }
        n += 1;
    }
    most
};

/// The numbers that an entry takes, and zeros behind them.
pub type Args = [u64; ARGS];

pub const fn args<const N: usize>(first: [u64; N]) -> Args {
    let mut args = [0; ARGS];
    let mut n = 0;
    while n < N {
        args[n] = first[n];
        n += 1;
    }
    args
}

/// The two checks.
#[derive(Clone, Copy)]
pub struct Checks {
    pub caps: unsafe extern "C" fn(caps: *const u8, caps_len: usize) -> Fault,
    pub hart: unsafe extern "C" fn(
        caps: *const u8,
        caps_len: usize,
        hart: *const u8,
        hart_len: usize,
    ) -> Fault,
}

/// The two entries for a settings file.
#[derive(Clone, Copy)]
pub struct Files {
    pub read: unsafe extern "C" fn(file: *const u8, file_len: usize) -> Settings,
    pub write: unsafe extern "C" fn(
        caps: *const u8,
        caps_len: usize,
        file: *mut u8,
        file_len: usize,
    ) -> Outcome,
}

/// The entry that explains a write.
pub type Explain = unsafe extern "C" fn(
    caps: *const u8,
    caps_len: usize,
    hart: *const u8,
    hart_len: usize,
    address: u64,
    value: u64,
    time: u64,
    seed: u64,
) -> Listing;

/// The entry that adds a write to totals.
pub type Tally = unsafe extern "C" fn(
    caps: *const u8,
    caps_len: usize,
    hart: *const u8,
    hart_len: usize,
    address: u64,
    value: u64,
    time: u64,
    seed: u64,
    totals: *mut Totals,
) -> Outcome;

/// The entry that replays a fragment of a call log.
pub type Replay = unsafe extern "C" fn(
    caps: *const u8,
    caps_len: usize,
    hart: *mut u8,
    hart_len: usize,
    wait: *mut u8,
    wait_len: usize,
    fragment: *const u8,
    fragment_len: usize,
    out: *mut u8,
    out_len: usize,
) -> Outcome;

/// The two entries for a call log.
#[derive(Clone, Copy)]
pub struct Logs {
    pub replay: Replay,
    pub end: unsafe extern "C" fn(
        caps: *const u8,
        caps_len: usize,
        hart: *const u8,
        hart_len: usize,
        wait: *const u8,
        wait_len: usize,
    ) -> Outcome,
}

/// The functions of one implementation.
#[derive(Clone, Copy)]
pub struct Interface {
    pub name: &'static str,
    functions: [Function; ENTRIES],
    pub checks: Checks,
    pub files: Files,
    pub explain: Explain,
    pub tally: Tally,
    pub logs: Logs,
}

impl Interface {
    /// The functions stand in the list's order.
    pub const fn new(
        name: &'static str,
        functions: [Function; ENTRIES],
        checks: Checks,
        files: Files,
        explain: Explain,
        tally: Tally,
        logs: Logs,
    ) -> Interface {
        Interface {
            name,
            functions,
            checks,
            files,
            explain,
            tally,
            logs,
        }
    }

    pub fn function(&self, entry: Entry) -> Function {
        self.functions[entry as usize]
    }
}

/// The interface of a module that has the entries' functions by their names in C.
#[macro_export]
macro_rules! interface {
    ($name:literal, $module:path) => {
        $crate::interface::list!([$crate::interface] $name, $module;)
    };
    ($label:literal, $module:path; $(#[$doc:meta] $access:tt $name:ident $variant:ident $entry:ident($($numbers:tt)*);)*) => {{
        use $module as module;
        use $crate::interface::{Checks, Files, Function, Interface, Logs};
        let checks = Checks { caps: module::vhart_check_caps, hart: module::vhart_check_hart };
        let files = Files { read: module::vhart_settings_read, write: module::vhart_settings_write };
        let logs = Logs { replay: module::vhart_replay, end: module::vhart_replay_end };
        let functions = [$(Function::$variant(module::$entry)),*];
        Interface::new($label, functions, checks, files, module::vhart_explain, module::vhart_tally, logs)
    }};
}

pub const WHOLE: Interface = interface!("whole", crate::whole::c);
pub const TABLE: Interface = interface!("table", crate::table::c);
