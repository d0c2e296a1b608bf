//! What a call of an entry costs each that makes it: the shortest of many rounds, taken in turn,
//! less the loop around the call.
use std::array;
use std::time::Duration;

use peers::inputs::Rng;
use peers::interface::Interface;

use crate::caller::{Callee, Caller, Order, PASSES};
use crate::direct;
use crate::explaining::{Explaining, Tallying};
use crate::linked::Linked;
use crate::pool::{Pool, CALLS, SLOTS};
use crate::subject::{Subject, Way};

/// One of those that are measured, with the shortest of its rounds so far.
pub struct Competitor {
    pub name: &'static str,
    caller: Box<dyn Caller>,
    shortest: Duration,
    shortest_empty: Duration,
}

impl Competitor {
    fn new(name: &'static str, caller: Box<dyn Caller>) -> Competitor {
        Competitor {
            name,
            caller,
            shortest: Duration::MAX,
            shortest_empty: Duration::MAX,
        }
    }

    /// Nanoseconds of a call.
    pub fn nanoseconds(&self) -> f64 {
        let calls = (PASSES * SLOTS) as f64;
        let time = self.shortest.saturating_sub(self.shortest_empty);
        time.as_nanos() as f64 / calls
    }
}

/// A subject's calls, and those that make them.
pub struct Measurement {
    pub name: &'static str,
    pool: Box<Pool>,
    pub competitors: Vec<Competitor>,
}

impl Measurement {
    pub fn new(interfaces: &[Interface], subject: Subject) -> Measurement {
        let (entry, pool) = (subject.entry, Pool::new(subject));
        let linked = interfaces.iter().map(|interface| {
            let caller: Box<dyn Caller> = match subject.way {
                Way::Made => Box::new(Linked::new(interface, entry)),
                Way::Explained => Box::new(Explaining::new(interface)),
                Way::Tallied => Box::new(Tallying::new(interface)),
            };
            Competitor::new(interface.name, caller)
        });
        let original = match subject.way {
            Way::Made => direct::original(entry, &pool),
            Way::Explained | Way::Tallied => None, // it can't
        };
        let original = original.map(|caller| Competitor::new("original", caller));
        Measurement {
            name: subject.name,
            competitors: linked.chain(original).collect(),
            pool,
        }
    }

    /// One round of each, all with the calls in the same order.
    pub fn round(&mut self, rng: &mut Rng) {
        let order = any_order(rng);
        for one in &mut self.competitors {
            let time = one.caller.round(&mut self.pool, &order, Callee::Own);
            one.shortest = time.min(one.shortest);
            let time = one.caller.round(&mut self.pool, &order, Callee::Empty);
            one.shortest_empty = time.min(one.shortest_empty);
        }
    }

    /// One round of one of them, whose instructions are counted from outside; how many calls it
    /// made.
    pub fn single(&mut self, rng: &mut Rng, name: &str, callee: Callee) -> Option<usize> {
        let one = self.competitors.iter_mut().find(|one| one.name == name)?;
        one.caller.round(&mut self.pool, &any_order(rng), callee);
        Some(PASSES * SLOTS)
    }
}

fn any_order(rng: &mut Rng) -> Order {
    array::from_fn(|_| array::from_fn(|_| rng.below(CALLS as u64) as u8))
}
