//! A call log of a firmware's routines: replayed in fragments, and its calls made one by one.
use std::array;
use std::hint::black_box;
use std::time::{Duration, Instant};

use peers::image::{store, words, CapsWords, CAPS_BYTES, HART_BYTES};
use peers::inputs::{self, Rng};
use peers::interface::{Entry, Function, Interface};
use peers::outcome::refused;
use peers::rules::mode;
use peers::whole::{Caps, Logged, ENTRY_BYTES, WAIT_BYTES};

use crate::table::Row;

/// The bytes of a fragment: no multiple of an entry's, so that cuts fall inside entries.
const FRAGMENT: usize = 4096;

/// How many entries a fragment completes at most, with what waits.
const AT_ONCE: usize = FRAGMENT / ENTRY_BYTES + 1;

/// The entries of the log that is timed, and of one whose instructions are counted.
pub const TIMED: usize = 1_000_000;
pub const COUNTED: usize = 20_000;

/// The routines of a firmware that does the same few things over and over.
const STOCK: usize = 16;

/// The routines of a log.
#[derive(Clone, Copy)]
pub enum Routines {
    /// Of a stock, in any order.
    Stocked,
    /// Each drawn anew, so that no entry tells what comes next.
    Drawn,
}

/// How the log's calls are made.
#[derive(Clone, Copy)]
pub enum Way {
    Replayed,
    OneByOne,
}

impl Way {
    /// The one of this name.
    pub fn find(name: &str) -> Option<Way> {
        match name {
            "replay" => Some(Way::Replayed),
            "one_by_one" => Some(Way::OneByOne),
            _ => None,
        }
    }
}

/// The log, the images that it starts with, and the shortest of its rounds so far: replayed, and
/// one by one.
pub struct Replaying {
    name: &'static str,
    caps: [u8; CAPS_BYTES],
    hart: [u8; HART_BYTES],
    log: Vec<u8>,
    shortest: [Duration; 2],
}

impl Replaying {
    /// Always the same log of so many entries, on a board with every CSR.
    pub fn new(routines: Routines, entries: usize) -> Replaying {
        let rng = &mut Rng::new(0);
        let board = loop {
            let caps = inputs::legal_caps(rng, true);
            if Caps::of(&caps).sstc() {
                break caps;
            }
        };
        let stock: [_; STOCK] = array::from_fn(|_| routine(rng, &board));
        let mut calls = Vec::new();
        while calls.len() < entries {
            match routines {
                Routines::Stocked => calls.extend(&stock[rng.below(STOCK as u64) as usize]),
                Routines::Drawn => calls.extend(routine(rng, &board)),
            }
        }
        let mut replaying = Replaying {
            name: match routines {
                Routines::Stocked => "replay",
                Routines::Drawn => "replay_drawn",
            },
            caps: [0; CAPS_BYTES],
            hart: [0; HART_BYTES],
            log: vec![0; ENTRY_BYTES * entries],
            shortest: [Duration::MAX; 2],
        };
        for (entry, call) in replaying.log.chunks_exact_mut(ENTRY_BYTES).zip(calls) {
            store(entry, &call.words());
        }
        store(&mut replaying.caps, &board);
        let record = inputs::legal_hart(rng, &board, mode::M);
        store(&mut replaying.hart, &record);
        replaying
    }

    /// One round each way.
    pub fn round(&mut self, of: &Interface) {
        let both = [Way::Replayed, Way::OneByOne].map(|way| self.single(of, way));
        assert!(both[0].1 == both[1].1, "the ways leave different records");
        for (shortest, (time, _)) in self.shortest.iter_mut().zip(both) {
            *shortest = time.min(*shortest);
        }
    }

    /// Nanoseconds of an entry.
    pub fn row(&self) -> Row {
        let entries = (self.log.len() / ENTRY_BYTES) as f64;
        let ns = self.shortest.map(|time| time.as_nanos() as f64 / entries);
        Row {
            name: self.name,
            ns: ns.into(),
        }
    }

    /// The time of a round, and the record that it leaves.
    pub fn single(&self, of: &Interface, way: Way) -> (Duration, [u8; HART_BYTES]) {
        let mut hart = self.hart;
        let start = Instant::now();
        match way {
            Way::Replayed => self.replay(of, &mut hart),
            Way::OneByOne => self.make(of, &mut hart),
        }
        (start.elapsed(), hart)
    }

    fn replay(&self, of: &Interface, hart: &mut [u8; HART_BYTES]) {
        let (caps, hart) = (self.caps.as_ptr(), hart.as_mut_ptr());
        let mut wait = [0; WAIT_BYTES];
        let mut out = [0; AT_ONCE * ENTRY_BYTES];
        // unknown to the compiler, so that it can't look into the callee
        let f = black_box(of.logs.replay);
        let mut refused = 0;
        for fragment in self.log.chunks(FRAGMENT) {
            // SAFETY: all have these lengths
            let outcome = unsafe {
                f(
                    caps,
                    CAPS_BYTES,
                    hart,
                    HART_BYTES,
                    wait.as_mut_ptr(),
                    wait.len(),
                    fragment.as_ptr(),
                    fragment.len(),
                    out.as_mut_ptr(),
                    out.len(),
                )
            };
            black_box(&out);
            refused |= outcome.refusal;
        }
        assert_eq!(refused, 0, "a fragment was refused");
    }

    fn make(&self, of: &Interface, hart: &mut [u8; HART_BYTES]) {
        let (caps, hart) = (self.caps.as_ptr(), hart.as_mut_ptr());
        let mut out = [0; AT_ONCE * ENTRY_BYTES];
        macro_rules! function {
            ($entry:ident) => {
                match of.function(Entry::$entry) {
                    Function::$entry(f) => black_box(f),
                    _ => unreachable!("each function stands at its entry's place"),
                }
            };
        }
        let (read, write, inject) = (function!(Read), function!(Write), function!(Inject));
        let (mret, sret) = (function!(Mret), function!(Sret));
        for entries in self.log.chunks(out.len()) {
            let results = out.chunks_exact_mut(ENTRY_BYTES);
            for (entry, result) in entries.chunks_exact(ENTRY_BYTES).zip(results) {
                // SAFETY: the images have these lengths
                let outcome = unsafe {
                    match Logged::of(words(entry)) {
                        Ok(Logged::Read { address }) => {
                            read(caps, CAPS_BYTES, hart, HART_BYTES, address, 0, 0, 0)
                        }
                        Ok(Logged::Write { address, value }) => {
                            write(caps, CAPS_BYTES, hart, HART_BYTES, address, value)
                        }
                        Ok(Logged::Inject { number }) => {
                            inject(caps, CAPS_BYTES, hart, HART_BYTES, number)
                        }
                        Ok(Logged::Mret) => mret(caps, CAPS_BYTES, hart, HART_BYTES),
                        Ok(Logged::Sret) => sret(caps, CAPS_BYTES, hart, HART_BYTES),
                        Err(refusal) => refused(refusal),
                    }
                };
                store(result, &[outcome.answer, outcome.effect, outcome.refusal]);
            }
            black_box(&out);
        }
    }
}

/// An interrupt among accesses. All are accepted: in mode M its handler ends by a return, and
/// accesses go in any mode.
fn routine(rng: &mut Rng, caps: &CapsWords) -> Vec<Logged> {
    let mut calls = Vec::new();
    calls.extend((0..rng.below(24)).map(|_| access(rng, caps)));
    calls.push(interrupt(rng, caps));
    calls.extend((0..rng.below(8)).map(|_| access(rng, caps)));
    calls.push(rng.pick([Logged::Mret, Logged::Sret]));
    calls
}

/// The next of the calls drawn that is a read or a write.
fn access(rng: &mut Rng, caps: &CapsWords) -> Logged {
    drawn(rng, caps, |call| {
        matches!(call, Logged::Read { .. } | Logged::Write { .. })
    })
}

fn interrupt(rng: &mut Rng, caps: &CapsWords) -> Logged {
    drawn(rng, caps, |call| matches!(call, Logged::Inject { .. }))
}

fn drawn(rng: &mut Rng, caps: &CapsWords, is_meant: fn(&Logged) -> bool) -> Logged {
    loop {
        let call = inputs::logged(rng, caps);
        if is_meant(&call) {
            return call;
        }
    }
}

#[cfg(test)]
mod tests {
    use std::collections::HashSet;

    use peers::interface::{TABLE, WHOLE};

    use super::{words, Replaying, Routines, Way, ENTRY_BYTES, FRAGMENT, WAIT_BYTES};

    #[test]
    fn every_call_of_the_logs_is_accepted() {
        for routines in [Routines::Stocked, Routines::Drawn] {
            let Replaying {
                caps,
                mut hart,
                log,
                ..
            } = Replaying::new(routines, 10_000);
            let mut out = vec![0xA5; log.len()];
            let wait = &mut [0; WAIT_BYTES];
            let outcome = peers::whole::replay(&caps, &mut hart, wait, &log, &mut out);
            assert_eq!((outcome.refusal, outcome.answer), (0, 10_000));
            let mut kinds = [0; 5];
            for (entry, result) in log.chunks(ENTRY_BYTES).zip(out.chunks(ENTRY_BYTES)) {
                let ([kind, ..], [_, _, refusal]): ([u64; 3], _) = (words(entry), words(result));
                assert_eq!(refusal, 0);
                kinds[kind as usize] += 1;
            }
            let [reads, writes, others @ ..] = kinds;
            assert!(others.iter().all(|&count| count > 100), "{kinds:?}");
            assert!(reads + writes > 8_000, "{kinds:?}");
        }
    }

    #[test]
    fn a_log_of_a_stock_says_the_same_again() {
        let different = |routines| {
            let log = Replaying::new(routines, 10_000).log;
            log.chunks(ENTRY_BYTES).collect::<HashSet<_>>().len()
        };
        let [stocked, drawn] = [Routines::Stocked, Routines::Drawn].map(different);
        assert!(stocked * 8 < drawn, "{stocked} and {drawn} entries");
    }

    #[test]
    fn both_ways_leave_the_same_record() {
        assert_ne!(FRAGMENT % ENTRY_BYTES, 0);
        let replaying = Replaying::new(Routines::Stocked, 1000);
        for of in [WHOLE, TABLE] {
            let [(_, replayed), (_, one_by_one)] =
                [Way::Replayed, Way::OneByOne].map(|way| replaying.single(&of, way));
            assert!(replayed == one_by_one && replayed != replaying.hart);
        }
    }
}
