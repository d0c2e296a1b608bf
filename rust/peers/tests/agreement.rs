//! That a disagreement is found. That the peers agree with the library and with one another is
//! checked by `bench --check`.
use peers::calls::check;
use peers::inputs::Rng;
use peers::interface::{Entry, Interface, WHOLE};
use peers::{files, logs, lost, totals};

/// The contract with one entry wrong.
mod wrong {
    pub use peers::whole::c::*;
    pub use vhart_csrrc as vhart_csrrs;
}

/// The contract with a check wrong: of a record it says nothing.
mod silent {
    pub use peers::whole::c::*;

    pub unsafe extern "C" fn vhart_check_hart(
        caps: *const u8,
        caps_len: usize,
        _: *const u8,
        _: usize,
    ) -> entries::Fault {
        // SAFETY: as the caller promises
        unsafe { vhart_check_caps(caps, caps_len) }
    }
}

/// The contract with reading wrong: a file that is refused gives words.
mod talkative {
    pub use peers::whole::c::*;

    pub unsafe extern "C" fn vhart_settings_read(file: *const u8, len: usize) -> entries::Settings {
        // SAFETY: as the caller promises
        let settings = unsafe { peers::whole::c::vhart_settings_read(file, len) };
        entries::Settings {
            words: settings.words.map(|word| word | settings.refusal),
            ..settings
        }
    }
}

/// The contract with writing wrong: the file says another version.
mod newer {
    pub use peers::whole::c::*;

    pub unsafe extern "C" fn vhart_settings_write(
        caps: *const u8,
        caps_len: usize,
        file: *mut u8,
        file_len: usize,
    ) -> entries::Outcome {
        // SAFETY: as the caller promises; and a file that was written has a fourth byte
        unsafe {
            let outcome = peers::whole::c::vhart_settings_write(caps, caps_len, file, file_len);
            if outcome.refusal == 0 {
                *file.add(3) += 1;
            }
            outcome
        }
    }
}

/// The contract with explain or tally wrong: as another function makes what it gives, and leaves of
/// the totals.
macro_rules! wrong {
    ($name:ident, $entry:ident($($totals:ident)?) -> $given:ident, $change:expr) => {
        mod $name {
            pub use peers::whole::c::*;

            #[allow(clippy::too_many_arguments)] // the header's
            pub unsafe extern "C" fn $entry(
                caps: *const u8,
                caps_len: usize,
                hart: *const u8,
                hart_len: usize,
                address: u64,
                value: u64,
                time: u64,
                seed: u64,
                $($totals: *mut entries::Totals,)?
            ) -> entries::$given {
                use peers::whole::c::$entry as right;
                // SAFETY: as the caller promises
                let mut given = unsafe {
                    right(caps, caps_len, hart, hart_len, address, value, time, seed, $($totals)?)
                };
                // SAFETY: likewise
                $(let $totals = unsafe { &mut *$totals };)?
                let change: fn(&mut entries::$given, $(wrong!(@lent $totals))?) = $change;
                change(&mut given, $($totals)?);
                given
            }
        }
    };
    (@lent $totals:ident) => { &mut entries::Totals };
}

// SXL as a forced field, and not as what S decides
wrong!(forced_first, vhart_explain() -> Listing, |listing| {
    for (bit, reason) in listing.bits.iter().zip(&mut listing.reasons) {
        if (34..=35).contains(bit) && *reason == 3 {
            *reason = 5;
        }
    }
});

// a bit that isn't counted still stands behind the others
wrong!(untidy, vhart_explain() -> Listing, |listing| {
    listing.count = listing.count.saturating_sub(1);
});

// a total is changed before the others are tested
wrong!(hasty, vhart_tally(totals) -> Outcome, |outcome, totals| {
    if outcome.refusal == 16 {
        totals.lost[0] = totals.lost[0].wrapping_add(1);
    }
});

// the totals are tested before the address
wrong!(full_first, vhart_tally(totals) -> Outcome, |outcome, totals| {
    if outcome.refusal == 4 && totals.writes == u32::MAX {
        outcome.refusal = 16;
    }
});

// no total takes the largest number
wrong!(early, vhart_tally(totals) -> Outcome, |outcome, totals| {
    if outcome.refusal == 0 && totals.lossless == u32::MAX {
        outcome.refusal = 16;
    }
});

/// The contract with replay wrong: as another function makes it, on the same bytes.
macro_rules! wrong_replay {
    ($name:ident, $replay:expr) => {
        mod $name {
            pub use peers::whole::*;

            pub fn replay(
                caps: &[u8],
                hart: &mut [u8],
                wait: &mut [u8],
                fragment: &[u8],
                out: &mut [u8],
            ) -> entries::Outcome {
                let replay: fn(&[u8], &mut [u8], &mut [u8], &[u8], &mut [u8]) -> entries::Outcome =
                    $replay;
                replay(caps, hart, wait, fragment, out)
            }

            pub mod c {
                entries::define!(
                    #[inline(never)]
                    crate::$name
                );
            }
        }
    };
}

// the last of the waiting bytes is lost
wrong_replay!(forgetful, |caps, hart, wait, fragment, out| {
    let outcome = peers::whole::replay(caps, hart, wait, fragment, out);
    if outcome.refusal == 0 && wait[0] > 0 {
        wait[usize::from(wait[0])] = 0;
        wait[0] -= 1;
    }
    outcome
});

// what stood behind the waiting bytes stays
wrong_replay!(dusty, |caps, hart, wait, fragment, out| {
    let before = wait.to_vec();
    let outcome = peers::whole::replay(caps, hart, wait, fragment, out);
    if outcome.refusal == 0 {
        let behind = 1 + usize::from(wait[0]);
        wait[behind..].copy_from_slice(&before[behind..]);
    }
    outcome
});

// all of out is set, and not what the entries give alone
wrong_replay!(spilling, |caps, hart, wait, fragment, out| {
    let outcome = peers::whole::replay(caps, hart, wait, fragment, out);
    if outcome.refusal == 0 {
        out[24 * outcome.answer as usize..].fill(0);
    }
    outcome
});

// an entry that is refused ends the replay
wrong_replay!(strict, |caps, hart, wait, fragment, out| {
    let before = [&*hart, &*wait, &*out].map(<[u8]>::to_vec);
    let mut outcome = peers::whole::replay(caps, hart, wait, fragment, out);
    let results = out.chunks_exact(24).take(outcome.answer as usize);
    let mut refusals = results.map(|result| peers::image::words::<3>(result)[2]);
    if let Some(refusal) = refusals.find(|&refusal| refusal != 0) {
        outcome = entries::Outcome {
            refusal,
            answer: 0,
            effect: 0,
        };
        for (bytes, before) in [hart, wait, out].into_iter().zip(before) {
            bytes.copy_from_slice(&before);
        }
    }
    outcome
});

// an entry's address is tested before its unused word
wrong_replay!(address_first, |caps, hart, wait, fragment, out| {
    let held = usize::from(wait.first().copied().unwrap_or(0));
    let mut log = wait.iter().skip(1).take(held).copied().collect::<Vec<u8>>();
    log.extend(fragment);
    let outcome = peers::whole::replay(caps, hart, wait, fragment, out);
    let results = out.chunks_exact_mut(24).take(outcome.answer as usize);
    for (entry, result) in log.chunks_exact(24).zip(results) {
        let [kind, address, value] = peers::image::words(entry);
        if kind == 0 && value != 0 && !peers::csr::is_known(address) {
            result[16] = 3;
        }
    }
    outcome
});

// a buffer is too short that the entries just fill
wrong_replay!(greedy, |caps, hart, wait, fragment, out| {
    let short = out.len().saturating_sub(1);
    peers::whole::replay(caps, hart, wait, fragment, &mut out[..short])
});

/// The contract with the end wrong: that an entry waits is tested before the images.
mod impatient {
    pub use peers::whole::*;

    pub fn replay_end(caps: &[u8], hart: &[u8], wait: &[u8]) -> entries::Outcome {
        let outcome = peers::whole::replay_end(caps, hart, wait);
        match wait {
            [1..=23, ..] => peers::outcome::refused(peers::outcome::Refusal::EntryWaits),
            _ => outcome,
        }
    }

    pub mod c {
        entries::define!(
            #[inline(never)]
            crate::impatient
        );
    }
}

/// What is shown of the first input on which the contract and another don't agree, if there is one.
fn disagreement(other: Interface, entry: Entry) -> Option<String> {
    let both = [WHOLE, other];
    let agreed = check(
        &both,
        entry,
        &mut Rng::new(1),
        1000,
        &mut Default::default(),
    );
    agreed.err().map(|disagreement| disagreement.to_string())
}

#[test]
fn a_disagreement_is_found_and_made_small() {
    const WRONG: Interface = peers::interface!("wrong", crate::wrong);
    assert_eq!(disagreement(WRONG, Entry::Csrrc), None);
    let shown = disagreement(WRONG, Entry::Csrrs).expect("csrrc isn't csrrs");
    assert!(nonzero(&shown) < 20, "{shown}");
}

/// How many lines are shown of the input, whose words or bytes of 0 aren't.
fn nonzero(shown: &str) -> usize {
    let input = shown.lines().take_while(|line| !line.starts_with("What"));
    input.count()
}

#[test]
fn a_disagreement_of_a_check_is_found() {
    const SILENT: Interface = peers::interface!("silent", crate::silent);
    assert!(disagreement(SILENT, Entry::Pending).is_some());
}

/// That the contract agrees with itself, and with each wrong one doesn't, on an input that is made
/// small. The check gives what is shown of it.
fn finds_each(wrong: &[Interface], check: impl Fn(&[Interface; 2], &mut Rng) -> Option<String>) {
    let disagreement = |other| check(&[WHOLE, other], &mut Rng::new(1));
    assert_eq!(disagreement(WHOLE), None);
    for &wrong in wrong {
        let shown = disagreement(wrong).expect(wrong.name);
        assert!(nonzero(&shown) < 20, "{shown}");
    }
}

#[test]
fn a_disagreement_over_a_settings_file_is_found() {
    const TALKATIVE: Interface = peers::interface!("talkative", crate::talkative);
    const NEWER: Interface = peers::interface!("newer", crate::newer);
    finds_each(&[TALKATIVE, NEWER], |both, rng| {
        files::check(both, rng, 1000).err().map(|d| d.to_string())
    });
}

#[test]
fn a_disagreement_over_lost_bits_is_found() {
    const FORCED_FIRST: Interface = peers::interface!("forced_first", crate::forced_first);
    const UNTIDY: Interface = peers::interface!("untidy", crate::untidy);
    finds_each(&[FORCED_FIRST, UNTIDY], |both, rng| {
        lost::check(both, rng, 1000).err().map(|d| d.to_string())
    });
}

#[test]
fn a_disagreement_over_totals_is_found() {
    const HASTY: Interface = peers::interface!("hasty", crate::hasty);
    const FULL_FIRST: Interface = peers::interface!("full_first", crate::full_first);
    const EARLY: Interface = peers::interface!("early", crate::early);
    finds_each(&[HASTY, FULL_FIRST, EARLY], |both, rng| {
        totals::check(both, rng, 1000).err().map(|d| d.to_string())
    });
}

#[test]
fn a_disagreement_over_a_call_log_is_found() {
    const FORGETFUL: Interface = peers::interface!("forgetful", crate::forgetful::c);
    const DUSTY: Interface = peers::interface!("dusty", crate::dusty::c);
    const SPILLING: Interface = peers::interface!("spilling", crate::spilling::c);
    const STRICT: Interface = peers::interface!("strict", crate::strict::c);
    const ADDRESS_FIRST: Interface = peers::interface!("address_first", crate::address_first::c);
    const GREEDY: Interface = peers::interface!("greedy", crate::greedy::c);
    const IMPATIENT: Interface = peers::interface!("impatient", crate::impatient::c);
    let wrong = [
        FORGETFUL,
        DUSTY,
        SPILLING,
        STRICT,
        ADDRESS_FIRST,
        GREEDY,
        IMPATIENT,
    ];
    finds_each(&wrong, |both, rng| {
        logs::check(both, rng, 1000).err().map(|d| d.to_string())
    });
}
