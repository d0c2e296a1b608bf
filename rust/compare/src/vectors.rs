//! The stored vectors: answers of the original, chosen so that each register, entry, mode and
//! branch is reached, as a text.
use std::collections::BTreeSet;
use std::fmt::{Display, Write};

use library::LIBRARY;
use peers::image::{HartWords, HART_WORDS};
use peers::inputs::{self, Rng};
use peers::interface::{args, Entry};
use peers::vectors::{Line, Vector};

use crate::call::{Call, Made};
use crate::difference;
use crate::features::{features, Feature};

/// The records that the calls begin with, and the calls that are tried from each.
const RECORDS: usize = 400;
const TRIES: usize = 4_000;

const HEAD: &str = "\
# Answers of the original: Miralis at commit f5ab195519, its own functions called on these records. Written by
# `make vectors` (rust/compare/src/vectors.rs), which draws random accepted calls, asks the original, and keeps a call
# if it reaches something that none before it did. Replayed over the proved entries by crates/vectors, in the gate, and
# over the library by tests/c/vectors.c. All numbers are hexadecimal.
#
#   caps 9 WORDS      the capability image from here on
#   hart 60 WORDS     the hart image
#   listed WORD BITS  from here on the library has these bits of the word the other way round, and no others:
#                     docs/DIFFERENCES.md lists them
#   ENTRY NUMBERS = ANSWER EFFECT WORD VALUE ..
#                     a call with the numbers that it takes in the header's order; what the original answers and asks
#                     for; and each word that it leaves changed. The record that the library leaves is the next call's.
#                     The line, where a call takes it, is 0: the original doesn't show it.
";

/// The whole text, or the first call on which the two differ where it isn't listed.
pub fn text() -> Result<String, String> {
    let mut vectors = Vectors {
        text: HEAD.into(),
        listed: [0; HART_WORDS],
        reached: BTreeSet::new(),
    };
    let mut rng = Rng::new(0);
    for _ in 0..RECORDS {
        vectors.add_from(start(&mut rng), &mut rng)?;
    }
    Ok(vectors.text)
}

/// A legal record under some capabilities. Half of the boards have no S, so that what goes without
/// it is reached soon.
fn start(rng: &mut Rng) -> Call {
    let s = rng.once_in(2);
    let caps = inputs::legal_caps(rng, s);
    let mode = inputs::legal_mode(rng, &caps);
    let hart = inputs::legal_hart(rng, &caps, mode);
    Call {
        caps,
        hart,
        entry: Entry::Pending,
        args: args([]),
    }
}

struct Vectors {
    text: String,
    /// The bits of each word that the text lists by now.
    listed: HartWords,
    reached: BTreeSet<Feature>,
}

impl Vectors {
    /// Adds the calls from a record that reach something new.
    fn add_from(&mut self, mut call: Call, rng: &mut Rng) -> Result<(), String> {
        let mut is_told = false;
        for _ in 0..TRIES {
            call.entry = rng.pick(Entry::FAST);
            call.draw_args(rng);
            if !call.is_accepted() {
                continue;
            }
            let (original, library) = (call.by_original(&mut call.machine()), call.by(&LIBRARY));
            let is_listed = difference::kinds(&call, &library, &original)
                .iter()
                .all(|kind| kind.is_listed());
            let original = match original {
                Ok(made) if is_listed => made,
                _ => {
                    return Err(format!(
                        "the two differ where it isn't listed, on\n  {call}"
                    ))
                }
            };
            if self.is_new(&call, &original) {
                if !is_told {
                    self.add_line(Line("caps", &call.caps));
                    self.add_line(Line("hart", &call.hart));
                    is_told = true;
                }
                self.add(&call, &library, &original);
                call.hart = library.hart;
            }
        }
        Ok(())
    }

    /// Whether the call reaches something that none did before.
    fn is_new(&mut self, call: &Call, original: &Made) -> bool {
        let before = self.reached.len();
        self.reached.extend(features(call, original));
        self.reached.len() > before
    }

    fn add(&mut self, call: &Call, library: &Made, original: &Made) {
        let listed = difference::listed_bits(call, &library.hart, &original.hart);
        for (word, &bits) in listed.iter().enumerate() {
            if self.listed[word] != bits {
                self.add_line(Line("listed", &[word as u64, bits]));
            }
        }
        self.listed = listed;
        self.add_line(Vector {
            entry: call.entry,
            args: &call.args,
            outcome: &original.outcome,
            before: &call.hart,
            after: &original.hart,
        });
    }

    fn add_line(&mut self, line: impl Display) {
        writeln!(self.text, "{line}").expect("a string takes it");
    }
}
