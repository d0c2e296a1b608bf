//! The original's own functions, called directly: on its own record, with no image and no test.
//! Only with the feature `original`.
use peers::interface::Entry;

use crate::caller::Caller;
use crate::pool::Pool;

/// The original with the pool's records and calls, where it is built in.
pub fn original(entry: Entry, pool: &Pool) -> Option<Box<dyn Caller>> {
    #[cfg(feature = "original")]
    return Some(Box::new(built_in::Original::new(entry, pool)));
    #[cfg(not(feature = "original"))]
    return {
        let _ = (entry, pool);
        None
    };
}

#[cfg(feature = "original")]
mod built_in {
    use std::hint::black_box;
    use std::time::{Duration, Instant};

    use original::arch::{metal, Csr, Register, TrapInfo};
    use original::machine::{trap_info, Machine};
    use original::virt::traits::*;
    use original::virt::VirtContext;
    use peers::image::{words, HartWords};
    use peers::interface::Entry;

    use crate::caller::{Callee, Caller, Order};
    use crate::pool::{self, Pool, MOST_CHANGED};

    type Function = fn(&mut Machine, &Call) -> usize;

    pub struct Original {
        function: Function,
        /// The words that are put back after a call.
        words: usize,
        slots: Vec<Slot>,
    }

    struct Slot {
        machine: Machine,
        pristine: HartWords,
        calls: Vec<Call>,
    }

    /// The entry's arguments, as the original's functions take them.
    struct Call {
        csr: Csr,
        value: usize,
        rd: Register,
        rs1: Register,
        imm: usize,
        number: usize,
        trap: TrapInfo,
        changed: [u8; MOST_CHANGED],
    }

    impl Original {
        pub fn new(entry: Entry, pool: &Pool) -> Original {
            let slots = pool.slots.iter().map(|slot| {
                let (caps, pristine) = (words(&slot.caps), words(&slot.pristine));
                let machine = Machine::load(&caps, &pristine);
                let calls = slot
                    .calls
                    .iter()
                    .map(|call| Call::new(entry, &machine, call));
                let calls = calls.collect();
                Slot {
                    machine,
                    pristine,
                    calls,
                }
            });
            Original {
                function: function(entry),
                words: pool::most_changed(entry),
                slots: slots.collect(),
            }
        }

        fn timed(&mut self, function: Function, order: &Order) -> Duration {
            let function = black_box(function);
            let start = Instant::now();
            for pass in order {
                for (slot, &call) in self.slots.iter_mut().zip(pass) {
                    let call = &slot.calls[call as usize];
                    black_box(function(&mut slot.machine, call));
                    for &word in &call.changed[..self.words] {
                        slot.machine
                            .set_word(word.into(), slot.pristine[usize::from(word)]);
                    }
                }
            }
            let time = start.elapsed();
            metal::EFFECTS.with(|effects| effects.borrow_mut().clear());
            time
        }
    }

    impl Caller for Original {
        fn round(&mut self, _: &mut Pool, order: &Order, callee: Callee) -> Duration {
            match callee {
                Callee::Own => self.timed(self.function, order),
                Callee::Empty => self.timed(nothing, order),
            }
        }
    }

    impl Call {
        fn new(entry: Entry, machine: &Machine, call: &pool::Call) -> Call {
            let [a, b, c, ..] = call.args;
            let is_instruction = entry.numbers().contains(&"rd");
            let register = |n: u64| Register::from(if is_instruction { n as usize } else { 0 });
            let csr = match entry.takes_csr() {
                true => machine.csr(a).expect("the pool's calls are accepted"),
                false => Csr::Mscratch,
            };
            Call {
                csr,
                value: b as usize,
                rd: register(b),
                rs1: register(c),
                imm: c as usize,
                number: a as usize,
                trap: trap_info(&call.args),
                changed: call.changed,
            }
        }
    }

    fn function(entry: Entry) -> Function {
        match entry {
            Entry::Read | Entry::PlainRead => |m, call| m.ctx.get(call.csr),
            Entry::Write | Entry::PlainWrite => {
                |m, call| done(m.ctx.set_csr(call.csr, call.value, &mut m.mctx))
            }
            Entry::Csrrw => |m, c| done(m.ctx.emulate_csrrw(&mut m.mctx, c.csr, c.rd, c.rs1)),
            Entry::Csrrs => |m, c| done(m.ctx.emulate_csrrs(&mut m.mctx, c.csr, c.rd, c.rs1)),
            Entry::Csrrc => |m, c| done(m.ctx.emulate_csrrc(&mut m.mctx, c.csr, c.rd, c.rs1)),
            Entry::Csrrwi => |m, c| done(m.ctx.emulate_csrrwi(&mut m.mctx, c.csr, c.rd, c.imm)),
            Entry::Csrrsi => |m, c| done(m.ctx.emulate_csrrsi(&mut m.mctx, c.csr, c.rd, c.imm)),
            Entry::Csrrci => |m, c| done(m.ctx.emulate_csrrci(&mut m.mctx, c.csr, c.rd, c.imm)),
            Entry::Pending => |m, _| m.ctx.pending().unwrap_or(0),
            Entry::Inject => |m, call| done(m.ctx.inject(call.number)),
            Entry::Trap => |m, call| {
                m.ctx.trap_info = call.trap.clone();
                done(m.ctx.emulate_firmware_trap())
            },
            Entry::Mret => |m, _| done(m.ctx.emulate_mret(&mut m.mctx)),
            Entry::Sret => |m, _| done(m.ctx.emulate_sret(&mut m.mctx)),
            Entry::Fresh => |m, _| {
                m.ctx = VirtContext::new(m.ctx.hart_id, 0, m.ctx.extensions.clone());
                0
            },
        }
    }

    fn done((): ()) -> usize {
        0
    }

    fn nothing(_: &mut Machine, _: &Call) -> usize {
        0
    }
}
