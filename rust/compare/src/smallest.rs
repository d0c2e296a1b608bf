//! The smallest call of a kind: each bit is cleared that can be, while the call is accepted and the
//! two still differ in that kind.
use library::LIBRARY;

use crate::call::Call;
use crate::difference::{self, Kind};

/// Whether the two differ on the call in this kind, with the original loaded with its record.
fn shows(call: &Call, kind: Kind) -> bool {
    let original = call.by_original(&mut call.machine());
    difference::kinds(call, &call.by(&LIBRARY), &original).contains(&kind)
}

/// Goes over the bits until none can be cleared: some can only after others.
pub fn smallest(mut call: Call, kind: Kind) -> Call {
    type Words = fn(&mut Call) -> &mut [u64];
    let groups: [Words; 3] = [
        |call| &mut call.hart,
        |call| &mut call.args,
        |call| &mut call.caps,
    ];
    loop {
        let before = call.bits();
        for words in groups {
            for at in 0..64 * words(&mut call).len() {
                let mut smaller = call;
                words(&mut smaller)[at / 64] &= !(1 << (at % 64));
                if smaller.is_accepted() && shows(&smaller, kind) {
                    call = smaller;
                }
            }
        }
        if call.bits() == before {
            return call;
        }
    }
}
