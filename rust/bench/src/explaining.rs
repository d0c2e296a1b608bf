//! An implementation's explain or tally, called on the writes of the pool.
use std::hint::black_box;
use std::time::Duration;

use entries::Totals;
use peers::interface::{Explain, Interface, Tally};

use crate::caller::{Callee, Caller, Order};
use crate::empty::EMPTY;
use crate::linked;
use crate::pool::Pool;

pub struct Explaining(Explain);

impl Explaining {
    pub fn new(interface: &Interface) -> Explaining {
        Explaining(interface.explain)
    }
}

impl Caller for Explaining {
    fn round(&mut self, pool: &mut Pool, order: &Order, callee: Callee) -> Duration {
        // unknown to the compiler, so that it can't look into the callee
        let f = black_box(match callee {
            Callee::Own => self.0,
            Callee::Empty => EMPTY.explain,
        });
        linked::round(pool, 0, order, |caps, hart, &[address, value, ..]| {
            let (hart, hart_len) = (hart.as_ptr(), hart.len());
            // SAFETY: a slot's images have these lengths
            unsafe {
                f(
                    caps.as_ptr(),
                    caps.len(),
                    hart,
                    hart_len,
                    address,
                    value,
                    0,
                    0,
                )
            }
        })
    }
}

pub struct Tallying(Tally);

impl Tallying {
    pub fn new(interface: &Interface) -> Tallying {
        Tallying(interface.tally)
    }
}

impl Caller for Tallying {
    fn round(&mut self, pool: &mut Pool, order: &Order, callee: Callee) -> Duration {
        let f = black_box(match callee {
            Callee::Own => self.0,
            Callee::Empty => EMPTY.tally,
        });
        // a round is too short to fill one
        let mut totals = Totals {
            lost: [0; 7],
            writes: 0,
            lossless: 0,
        };
        linked::round(pool, 0, order, |caps, hart, &[address, value, ..]| {
            let (hart, hart_len) = (hart.as_ptr(), hart.len());
            // SAFETY: a slot's images have these lengths
            unsafe {
                f(
                    caps.as_ptr(),
                    caps.len(),
                    hart,
                    hart_len,
                    address,
                    value,
                    0,
                    0,
                    &mut totals,
                )
            }
        })
    }
}
