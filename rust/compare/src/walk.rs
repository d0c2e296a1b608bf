//! The calls that are compared: single ones on random legal records, and sequences of hundreds that
//! both go along from a fresh record. The plain entries aren't drawn: the original has one engine.
use original::machine::Machine;
use peers::image::{caps, hart, CapsWords, HART_WORDS};
use peers::inputs::{self, Rng};
use peers::interface::{args, Entry};
use peers::rules::interrupts;

use crate::call::{Call, Made};
use crate::difference::{self, Kind};
use library::LIBRARY;

/// The calls of a sequence, behind the one that makes its fresh record.
const LENGTH: usize = 500;

/// The single calls between two sequences.
const SINGLES: usize = 500;

/// How a call is made.
#[derive(Clone, Copy, PartialEq, Eq)]
pub enum Origin {
    Single,
    Sequence,
}

/// What is seen of each call: what the library made of it, and the kinds in which the two differ.
/// It tells whether to go on.
pub trait Watch {
    fn seen(&mut self, call: &Call, origin: Origin, made: &Made, kinds: &[Kind]) -> bool;
}

/// Makes single calls and sequences in turn, as long as they are watched.
pub fn walk(rng: &mut Rng, watch: &mut impl Watch) {
    while (0..SINGLES).all(|_| single(rng, watch)) && sequence(rng, watch) {}
}

/// A call on a record that the original is loaded with.
fn single(rng: &mut Rng, watch: &mut impl Watch) -> bool {
    let caps = some_caps(rng);
    let mode = inputs::legal_mode(rng, &caps);
    let hart = inputs::legal_hart(rng, &caps, mode);
    let mut call = Call {
        caps,
        hart,
        entry: rng.pick(Entry::FAST),
        args: args([]),
    };
    call.draw_args(rng);
    !call.is_accepted() || compared(&call, Origin::Single, &mut call.machine(), watch)
}

/// A fresh record and the calls that follow. The original keeps its own record from call to call:
/// it is loaded at no time.
fn sequence(rng: &mut Rng, watch: &mut impl Watch) -> bool {
    let caps = some_caps(rng);
    let mut call = Call {
        caps,
        hart: [0; HART_WORDS],
        entry: Entry::Fresh,
        args: args([]),
    };
    call.draw_args(rng);
    let mut machine = call.machine();
    for _ in 0..=LENGTH {
        if call.is_accepted() {
            if !compared(&call, Origin::Sequence, &mut machine, watch) {
                return false;
            }
            call.hart = machine.words();
        }
        if rng.once_in(4) {
            moved_by_host(rng, &mut call, &mut machine);
        }
        call.entry = rng.pick(Entry::FAST);
        if call.entry == Entry::Fresh {
            call.entry = Entry::Write;
        }
        call.draw_args(rng);
    }
    true
}

/// Three boards in four have S.
fn some_caps(rng: &mut Rng) -> CapsWords {
    let s = !rng.once_in(4);
    inputs::legal_caps(rng, s)
}

/// What the host does to a record between calls: it raises and lowers the machine's interrupts, and
/// lets the hart wait.
fn moved_by_host(rng: &mut Rng, call: &mut Call, machine: &mut Machine) {
    let machine_level = interrupts::MACHINE & call.caps[caps::INTERRUPTS];
    let flipped = call.hart[hart::MIP] ^ rng.word() & machine_level;
    for (word, value) in [(hart::MIP, flipped), (hart::WAITING, rng.below(2))] {
        call.hart[word] = value;
        machine.set_word(word, value);
    }
}

/// Makes the call in both. Where they differ the original's record takes the library's words, so
/// that each call is judged alone.
fn compared(call: &Call, origin: Origin, machine: &mut Machine, watch: &mut impl Watch) -> bool {
    let library = call.by(&LIBRARY);
    let original = call.by_original(machine);
    let kinds = difference::kinds(call, &library, &original);
    if !kinds.is_empty() {
        for (word, &value) in library.hart.iter().enumerate() {
            machine.set_word(word, value);
        }
    }
    watch.seen(call, origin, &library, &kinds)
}
