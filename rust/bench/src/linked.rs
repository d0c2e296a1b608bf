//! An implementation of the C interface, called on the pool's images.
use std::hint::black_box;
use std::time::{Duration, Instant};

use entries::{Listing, Outcome};
use peers::interface::{Args, Entry, Function, Interface};

use crate::caller::{Callee, Caller, Order};
use crate::empty::EMPTY;
use crate::pool::{self, Pool};

pub struct Linked {
    function: Function,
    empty: Function,
    /// The words that are put back after a call.
    words: usize,
}

impl Linked {
    pub fn new(interface: &Interface, entry: Entry) -> Linked {
        Linked {
            function: interface.function(entry),
            empty: EMPTY.function(entry),
            words: pool::most_changed(entry),
        }
    }
}

impl Caller for Linked {
    fn round(&mut self, pool: &mut Pool, order: &Order, callee: Callee) -> Duration {
        match callee {
            Callee::Own => timed(self.function, pool, self.words, order),
            Callee::Empty => timed(self.empty, pool, self.words, order),
        }
    }
}

macro_rules! timed {
    ($(#[$doc:meta] $access:tt $name:ident $variant:ident $entry:ident(
        $($arg:ident),* $(; $given:ident: $record:ident { $($field:ident),* })?
    );)*) => {
        /// The time of a round. Each entry has a loop of its own, so that nothing but the call
        /// stands in it.
        fn timed(function: Function, pool: &mut Pool, words: usize, order: &Order) -> Duration {
            match function {
                $(Function::$variant(f) => {
                    // unknown to the compiler, so that it can't look into the callee
                    let f = black_box(f);
                    round(pool, words, order, |caps, hart, &[$($arg,)* $($($field,)*)? ..]| {
                        // SAFETY: a slot's images have these lengths
                        unsafe { f(caps.as_ptr(), caps.len(), hart.as_mut_ptr(), hart.len() $(, $arg)* $($(, $field)*)?) }
                    })
                })*
            }
        }
    };
}

entries::list!([timed]);

/// What a call gives, and whether it was refused.
pub trait Given {
    fn refusal(&self) -> u64;
}

impl Given for Outcome {
    fn refusal(&self) -> u64 {
        self.refusal
    }
}

impl Given for Listing {
    fn refusal(&self) -> u64 {
        self.refusal
    }
}

/// Calls slot after slot. The words are put back after a call, and not before the slot's next one:
/// so the stores have the time to reach the cache.
#[inline(always)]
pub fn round<T: Given>(
    pool: &mut Pool,
    words: usize,
    order: &Order,
    mut f: impl FnMut(&[u8], &mut [u8], &Args) -> T,
) -> Duration {
    let mut refused = 0;
    let start = Instant::now();
    for pass in order {
        for (slot, &call) in pool.slots.iter_mut().zip(pass) {
            let call = call as usize;
            let given = f(&slot.caps, &mut slot.hart, &slot.calls[call].args);
            // lent and not moved: a copy's wide load waits for the callee's stores, unless these
            // are as wide
            black_box(&given);
            refused |= given.refusal();
            slot.put_back(call, words);
        }
    }
    let time = start.elapsed();
    assert_eq!(refused, 0, "a call on the pool was refused");
    time
}
