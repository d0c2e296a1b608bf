//! Callees that do nothing, one for each entry: they show what the loop around a call costs.
use entries::{Fault, Listing, Outcome, Settings, Totals};
use peers::interface::Interface;
use peers::outcome::{done, effect, LEGAL};

macro_rules! nothing {
    ($(#[$doc:meta] $access:tt $name:ident $variant:ident $entry:ident(
        $($arg:ident),* $(; $given:ident: $record:ident { $($field:ident),* })?
    );)*) => {$(
        #[allow(clippy::too_many_arguments)] // the header's
        #[inline(never)]
        extern "C" fn $entry(
            _: *const u8,
            _: usize,
            _: *$access u8,
            _: usize
            $(, _: number!($arg))* $($(, _: number!($field))*)?
        ) -> Outcome {
            done(0, effect::NONE)
        }
    )*};
}

macro_rules! number {
    ($name:ident) => {
        u64
    };
}

entries::list!([nothing]);

extern "C" fn vhart_check_caps(_: *const u8, _: usize) -> Fault {
    LEGAL
}

extern "C" fn vhart_check_hart(_: *const u8, _: usize, _: *const u8, _: usize) -> Fault {
    LEGAL
}

extern "C" fn vhart_settings_read(_: *const u8, _: usize) -> Settings {
    Settings {
        refusal: 0,
        words: [0; 9],
    }
}

extern "C" fn vhart_settings_write(_: *const u8, _: usize, _: *mut u8, _: usize) -> Outcome {
    done(0, effect::NONE)
}

#[allow(clippy::too_many_arguments)] // the header's
#[inline(never)]
extern "C" fn vhart_explain(
    _: *const u8,
    _: usize,
    _: *const u8,
    _: usize,
    _: u64,
    _: u64,
    _: u64,
    _: u64,
) -> Listing {
    Listing {
        refusal: 0,
        count: 0,
        bits: [0; 64],
        reasons: [0; 64],
    }
}

#[allow(clippy::too_many_arguments)] // the header's
#[inline(never)]
extern "C" fn vhart_tally(
    _: *const u8,
    _: usize,
    _: *const u8,
    _: usize,
    _: u64,
    _: u64,
    _: u64,
    _: u64,
    _: *mut Totals,
) -> Outcome {
    done(0, effect::NONE)
}

#[allow(clippy::too_many_arguments)] // the header's
#[inline(never)]
extern "C" fn vhart_replay(
    _: *const u8,
    _: usize,
    _: *mut u8,
    _: usize,
    _: *mut u8,
    _: usize,
    _: *const u8,
    _: usize,
    _: *mut u8,
    _: usize,
) -> Outcome {
    done(0, effect::NONE)
}

extern "C" fn vhart_replay_end(
    _: *const u8,
    _: usize,
    _: *const u8,
    _: usize,
    _: *const u8,
    _: usize,
) -> Outcome {
    done(0, effect::NONE)
}

pub const EMPTY: Interface = peers::interface!("empty", crate::empty);
