//! The calls that are timed: some hundreds, all accepted, on so few boards and records that they
//! stay in the nearest caches.
use std::array;

use peers::image::{changed, hart, words, CapsWords, HartWords, CAPS_BYTES, HART_BYTES};
use peers::inputs::{self, Input, Rng};
use peers::interface::{Args, Entry, ARGS, WHOLE};
use peers::rules::mode;
use peers::vectors::{Line, Vector};

use crate::subject::{Kind, Subject};

/// Boards, each with its record, and calls for each.
pub const SLOTS: usize = 16;
pub const CALLS: usize = 16;

/// One board in eight has no S.
const WITHOUT_S: usize = SLOTS / 8;

/// The most words that a call changes, but for the fresh record.
pub const MOST_CHANGED: usize = 7;

/// So many arguments are tried before another record is.
const TRIES: usize = 100;

/// It has pages of its own, so that where it lies doesn't tell one run from another.
#[repr(C, align(4096))]
pub struct Pool {
    pub slots: [Slot; SLOTS],
}

#[repr(C, align(64))]
pub struct Slot {
    pub hart: [u8; HART_BYTES],
    pub caps: [u8; CAPS_BYTES],
    /// The record as the calls are to find it.
    pub pristine: [u8; HART_BYTES],
    pub calls: [Call; CALLS],
}

pub struct Call {
    pub args: Args,
    /// The words that the call changes, and then pc.
    pub changed: [u8; MOST_CHANGED],
}

impl Pool {
    /// Always the same one for a subject, so that its rounds can be timed, counted and shown apart.
    pub fn new(subject: Subject) -> Box<Pool> {
        let mut rng = Rng::new(0);
        Box::new(Pool {
            slots: array::from_fn(|n| {
                let s = n >= WITHOUT_S || subject.needs_s;
                let is_of_kind = subject.kinds[n % subject.kinds.len()];
                Slot::new(&mut rng, subject.entry, s, is_of_kind)
            }),
        })
    }

    /// The calls in the format of the stored vectors, each with its images and with its outcome by
    /// hand.
    pub fn calls(&self, entry: Entry) -> String {
        let calls = |slot: &Slot| -> String {
            let call = |call: &Call| slot.vector(entry, call);
            slot.calls.iter().map(call).collect()
        };
        self.slots.iter().map(calls).collect()
    }
}

impl Slot {
    fn new(rng: &mut Rng, entry: Entry, s: bool, is_of_kind: Kind) -> Slot {
        loop {
            let caps = inputs::legal_caps(rng, s);
            let mode = match entry {
                Entry::Read
                | Entry::PlainRead
                | Entry::Write
                | Entry::PlainWrite
                | Entry::Pending
                | Entry::Inject
                | Entry::Trap => inputs::legal_mode(rng, &caps),
                _ => mode::M,
            };
            let hart = inputs::legal_hart(rng, &caps, mode);
            if !is_of_kind(&hart) {
                continue;
            }
            let calls: Vec<Call> = (0..CALLS)
                .map_while(|_| Call::accepted(rng, entry, &caps, &hart))
                .collect();
            if let Ok(calls) = calls.try_into() {
                let input = Input::new(&caps, &hart, [0; ARGS]);
                return Slot {
                    hart: array::from_fn(|at| input.hart[at]),
                    caps: array::from_fn(|at| input.caps[at]),
                    pristine: array::from_fn(|at| input.hart[at]),
                    calls,
                };
            }
        }
    }

    /// A call in the format of the stored vectors.
    fn vector(&self, entry: Entry, call: &Call) -> String {
        let (caps, hart): (CapsWords, HartWords) = (words(&self.caps), words(&self.pristine));
        let mut input = Input::new(&caps, &hart, call.args);
        let vector = Vector {
            entry,
            args: &call.args,
            outcome: &input.call(WHOLE.function(entry)),
            before: &hart,
            after: &words(&input.hart),
        };
        let (caps, hart) = (Line("caps", &caps), Line("hart", &hart));
        format!("{caps}\n{hart}\n{vector}\n")
    }

    /// Puts so many of the words back that the call has changed.
    #[inline(always)]
    pub fn put_back(&mut self, call: usize, words: usize) {
        for &word in &self.calls[call].changed[..words] {
            let at = 8 * word as usize;
            self.hart[at..at + 8].copy_from_slice(&self.pristine[at..at + 8]);
        }
    }
}

impl Call {
    /// A call that the record accepts, if one is found.
    fn accepted(rng: &mut Rng, entry: Entry, caps: &CapsWords, hart: &HartWords) -> Option<Call> {
        (0..TRIES).find_map(|_| {
            let args = inputs::good_args(rng, entry, caps, hart);
            let mut input = Input::new(caps, hart, args);
            if input.call(WHOLE.function(entry)).refusal != 0 {
                return None;
            }
            let after = words(&input.hart);
            let mut changed = changed(hart, &after);
            Some(Call {
                args,
                changed: array::from_fn(|_| changed.next().unwrap_or(hart::PC) as u8),
            })
        })
    }
}

/// How many words a call of this entry may change that the next call tests or reads.
pub fn most_changed(entry: Entry) -> usize {
    match entry {
        Entry::Read | Entry::PlainRead | Entry::Pending => 0,
        Entry::Write | Entry::PlainWrite => 1,
        Entry::Csrrw
        | Entry::Csrrs
        | Entry::Csrrc
        | Entry::Csrrwi
        | Entry::Csrrsi
        | Entry::Csrrci => 2,
        Entry::Mret | Entry::Sret => 3,
        Entry::Inject => 6,
        Entry::Trap => MOST_CHANGED,
        // a fresh record's buffer isn't tested
        Entry::Fresh => 0,
    }
}
