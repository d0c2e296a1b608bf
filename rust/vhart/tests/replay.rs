//! A call log replayed as it arrives: each entry is the call of its name, whatever the cuts; and a
//! refused fragment changes nothing.

use vhart::{
    misa, Answer, Caps, CapsWords, Csr, Effect, Flags, Hart, Host, Logged, Mode, Refusal, Results,
    Wait, Word, CAPS_BYTES, ENTRY_BYTES, HART_BYTES, RESULT_BYTES, WAIT_BYTES,
};

/// The entries themselves: the binding drops the effect, and what comes with a refusal.
#[allow(dead_code)]
mod raw {
    entries::declare!();
}

/// A board with S, but without Sstc, and a record on it.
fn board() -> Result<(Caps, Hart), Refusal> {
    let caps = Caps::from(CapsWords {
        misa: misa::RV64 | misa::C | misa::I | misa::S | misa::U,
        interrupts: 0xAAA,
        highest: u64::MAX,
        flags: Flags::NONE,
        ..CapsWords::default()
    });
    let hart = Hart::fresh(&caps, 0x8000_0000)?;
    Ok((caps, hart))
}

/// Calls of every kind, done and refused. Interrupts lead into mode M, and returns out of it.
const CALLS: [Logged; 13] = [
    Logged::Write {
        csr: Csr::MTVEC,
        value: 0x8000_2001,
    },
    Logged::Write {
        csr: Csr::MIP,
        value: 0xFFFF,
    },
    Logged::Read { csr: Csr::MIP },
    Logged::Read { csr: Csr(0x7A1) },
    Logged::Inject { number: 7 },
    Logged::Inject { number: 12 },
    Logged::Write {
        csr: Csr::STIMECMP,
        value: 1,
    },
    Logged::Mret,
    Logged::Sret,
    Logged::Mret,
    Logged::Mret,
    Logged::Inject { number: 3 },
    Logged::Sret,
];

fn bytes(calls: &[Logged]) -> Vec<u8> {
    calls.iter().copied().flat_map(Logged::to_bytes).collect()
}

/// Entries that are no calls: of an unknown kind, or with a word that their kind doesn't use. The
/// last read also has an address of no CSR.
fn no_calls() -> Vec<u8> {
    let unused = [
        (Logged::Read { csr: Csr::MIP }, 16),
        (Logged::Inject { number: 7 }, 23),
        (Logged::Mret, 8),
        (Logged::Mret, 16),
        (Logged::Sret, 15),
        (Logged::Sret, 16),
        (Logged::Mret, 7), // its kind is far above 4
        (Logged::Read { csr: Csr(0x7A1) }, 16),
    ];
    let of_kind_5 = [5].into_iter().chain([0; ENTRY_BYTES - 1]);
    let damaged = unused.into_iter().flat_map(|(call, at)| {
        let mut entry = call.to_bytes();
        entry[at] = 1;
        entry
    });
    of_kind_5.chain(damaged).collect()
}

/// The log of both: what is no call stands between calls.
fn log() -> Vec<u8> {
    [bytes(&CALLS), no_calls(), bytes(&CALLS)].concat()
}

/// What a call by itself gives.
fn single(caps: &Caps, hart: &mut Hart, call: Logged) -> Result<Answer, Refusal> {
    let done = |()| Effect::None;
    let (value, effect) = match call {
        Logged::Read { csr } => (hart.read(caps, csr, Host::default())?, Effect::None),
        Logged::Write { csr, value } => (0, hart.write(caps, csr, value)?),
        Logged::Inject { number } => (0, hart.inject(caps, number).map(done)?),
        Logged::Mret => (0, hart.mret(caps).map(done)?),
        Logged::Sret => (0, hart.sret(caps).map(done)?),
        other => unreachable!("{other:?} isn't in the log"),
    };
    Ok(Answer { value, effect })
}

/// These bytes as they wait, with others behind them.
fn waiting(bytes: &[u8], behind: u8) -> Wait {
    let mut wait = [behind; WAIT_BYTES];
    wait[0] = bytes.len().try_into().expect("at most 23");
    wait[1..=bytes.len()].copy_from_slice(bytes);
    Wait::from_bytes(wait)
}

/// What a log's fragments give one after another, and leave: the bytes put out, the record, and
/// what waits.
fn replay(fragments: &[&[u8]]) -> Result<(Vec<u8>, Hart, Wait), Refusal> {
    let (caps, mut hart) = board()?;
    let mut wait = Wait::new();
    let mut all = Vec::new();
    for fragment in fragments {
        let mut out = vec![0xA5; fragment.len() + RESULT_BYTES];
        let entries = hart.replay(&caps, &mut wait, fragment, &mut out)?;
        let (results, behind) = out.split_at(RESULT_BYTES * entries);
        all.extend(results);
        assert!(behind.iter().all(|byte| *byte == 0xA5));
    }
    Ok((all, hart, wait))
}

#[test]
fn each_entry_is_the_call_of_its_name() -> Result<(), Refusal> {
    let (caps, mut hart) = board()?;
    let (out, replayed, wait) = replay(&[&bytes(&CALLS)])?;
    let mut results = Results::new(&out, CALLS.len());
    for call in CALLS {
        let before = hart.clone();
        let given = single(&caps, &mut hart, call);
        assert!(given.is_ok() || hart == before);
        assert_eq!(results.next(), Some(given), "{call:?}");
    }
    assert_eq!((results.next(), &replayed), (None, &hart));
    assert_eq!(wait, Wait::new());
    Ok(())
}

#[test]
fn the_log_has_effects_and_refusals() -> Result<(), Refusal> {
    let (out, hart, _) = replay(&[&log()])?;
    let all: Vec<Result<Answer, Refusal>> = Results::new(&out, usize::MAX).collect();
    let effects = all.iter().flatten().map(|answer| answer.effect);
    assert_eq!(effects.filter(|e| *e == Effect::SetSeip).count(), 1);
    for refusal in [
        Refusal::NoSuchCsr,
        Refusal::CsrAbsent,
        Refusal::NotMachine,
        Refusal::BadInterrupt,
    ] {
        assert!(all.contains(&Err(refusal)), "{refusal:?}");
    }
    let between = &all[CALLS.len()..all.len() - CALLS.len()];
    assert!(between.iter().all(|r| *r == Err(Refusal::BadEntry)));
    assert_eq!(hart.mode(), Some(Mode::U));
    Ok(())
}

/// Also where the log itself ends in the middle of an entry.
#[test]
fn cuts_change_nothing() -> Result<(), Refusal> {
    let log = log();
    for end in 0..=log.len() {
        let log = &log[..end];
        let whole = replay(&[log])?;
        assert_eq!(whole.0.len(), end / ENTRY_BYTES * RESULT_BYTES);
        assert_eq!(whole.2, waiting(&log[end - end % ENTRY_BYTES..], 0));
        for (first, second) in (0..=end).map(|at| log.split_at(at)) {
            assert_eq!(replay(&[first, second])?, whole);
        }
    }
    Ok(())
}

#[test]
fn pieces_of_any_length_give_the_same() -> Result<(), Refusal> {
    let log = log();
    let whole = replay(&[&log])?;
    for length in 1..=3 * ENTRY_BYTES {
        let pieces: Vec<&[u8]> = log.chunks(length).collect();
        assert_eq!(replay(&pieces)?, whole, "{length} bytes each");
    }
    let with_empty: Vec<&[u8]> = log.chunks(1).flat_map(|piece| [&[], piece]).collect();
    assert_eq!(replay(&with_empty)?, whole);
    Ok(())
}

#[test]
fn what_stands_behind_the_waiting_bytes_is_not_looked_at() -> Result<(), Refusal> {
    let (caps, fresh) = board()?;
    let entry = Logged::Inject { number: 7 }.to_bytes();
    for held in 0..ENTRY_BYTES {
        let (first, second) = entry.split_at(held);
        let mut wait = waiting(first, 0xA5);
        let mut hart = fresh.clone();
        let mut out = [0xA5; RESULT_BYTES];
        assert_eq!(hart.replay(&caps, &mut wait, second, &mut out), Ok(1));
        assert_eq!((wait, out), (Wait::new(), [0; RESULT_BYTES]));
        assert_eq!(hart.get(Word::Mcause), 1 << 63 | 7);
    }
    Ok(())
}

/// All that is lent: a fragment that completes a write, which asks for an effect.
#[derive(Clone, Debug, PartialEq, Eq)]
struct Lent {
    caps: Vec<u8>,
    hart: Vec<u8>,
    wait: Vec<u8>,
    fragment: Vec<u8>,
    out: Vec<u8>,
}

impl Lent {
    fn new() -> Result<Lent, Refusal> {
        let (caps, hart) = board()?;
        let entry = CALLS[1].to_bytes();
        let (first, fragment) = entry.split_at(1);
        Ok(Lent {
            caps: caps.as_bytes().to_vec(),
            hart: hart.as_bytes().to_vec(),
            wait: waiting(first, 0).as_bytes().to_vec(),
            fragment: fragment.to_vec(),
            out: vec![0xA5; RESULT_BYTES],
        })
    }

    fn replay(&mut self) -> entries::Outcome {
        // SAFETY: all are valid for their lengths, and none overlap.
        unsafe {
            raw::vhart_replay(
                self.caps.as_ptr(),
                self.caps.len(),
                self.hart.as_mut_ptr(),
                self.hart.len(),
                self.wait.as_mut_ptr(),
                self.wait.len(),
                self.fragment.as_ptr(),
                self.fragment.len(),
                self.out.as_mut_ptr(),
                self.out.len(),
            )
        }
    }

    fn end(&self) -> entries::Outcome {
        // SAFETY: as above, and all are only read.
        unsafe {
            raw::vhart_replay_end(
                self.caps.as_ptr(),
                self.caps.len(),
                self.hart.as_ptr(),
                self.hart.len(),
                self.wait.as_ptr(),
                self.wait.len(),
            )
        }
    }

    /// What both calls give, which must leave all as it was.
    fn refused(&mut self) -> [entries::Outcome; 2] {
        let before = self.clone();
        let came = [self.replay(), self.end()];
        assert_eq!(*self, before);
        came
    }
}

fn outcome(refusal: u64, answer: u64) -> entries::Outcome {
    entries::Outcome {
        refusal,
        answer,
        effect: 0,
    }
}

#[test]
fn a_refused_fragment_changes_nothing() -> Result<(), Refusal> {
    type Change = fn(&mut Lent);
    let changes: [(Change, u64); 9] = [
        (|lent| lent.caps.truncate(CAPS_BYTES - 8), 1),
        (|lent| lent.caps[0] |= 0x80, 1), // H
        (|lent| lent.hart.truncate(HART_BYTES - 8), 2),
        (|lent| lent.hart[0] = 1, 2), // x0
        (|lent| lent.wait.truncate(WAIT_BYTES - 1), 2),
        (|lent| lent.wait.push(0), 2),
        (|lent| lent.wait.clear(), 2),
        (|lent| lent.wait[0] = 24, 2),
        (|lent| lent.wait[0] = 255, 2),
    ];
    for (change, refusal) in changes {
        // also where out is too short
        for out in [0, RESULT_BYTES] {
            let mut lent = Lent::new()?;
            change(&mut lent);
            lent.out.truncate(out);
            assert_eq!(lent.refused(), [outcome(refusal, 0); 2]);
        }
    }
    for out in 0..RESULT_BYTES {
        let mut lent = Lent::new()?;
        lent.out.truncate(out);
        assert_eq!(lent.refused(), [outcome(23, 0), outcome(18, 0)]);
    }
    Ok(())
}

#[test]
fn a_done_call_answers_how_many_entries_and_asks_for_nothing() -> Result<(), Refusal> {
    let mut lent = Lent::new()?;
    assert_eq!(lent.replay(), outcome(0, 1));
    let effect = Effect::SetSeip;
    let results = Results::new(&lent.out, 1);
    assert!(results.eq([Ok(Answer { value: 0, effect })]));
    assert_eq!(
        (lent.end(), lent.wait),
        (outcome(0, 0), vec![0; WAIT_BYTES])
    );
    Ok(())
}

#[test]
fn a_log_ends_where_no_entry_waits() -> Result<(), Refusal> {
    let (caps, hart) = board()?;
    for held in 0..ENTRY_BYTES {
        let wait = waiting(&CALLS[0].to_bytes()[..held], 0xA5);
        let expected = match held {
            0 => Ok(()),
            _ => Err(Refusal::EntryWaits),
        };
        assert_eq!(hart.replay_end(&caps, &wait), expected, "{held} bytes wait");
    }
    Ok(())
}
