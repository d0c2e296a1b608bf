//! The totals: a write adds what explaining it gives, to all of them or to none.

use vhart::{
    menvcfg, misa, slices, Caps, CapsWords, Csr, Flags, Hart, Host, Refusal, Totals, Word,
    CAPS_BYTES, HART_BYTES,
};

/// The entry itself: the binding drops its answer and its effect.
#[allow(dead_code)]
mod raw {
    entries::declare!();
}

const HOST: Host = Host {
    time: 0x0123_4567_89AB_CDEF,
    seed: 0x5555_AAAA_0000_FFFF,
    line: false,
};

/// A board with S and Sstc, but without C, and a record on it with STCE: writes lose bits there for
/// every reason.
fn board() -> Result<(Caps, Hart), Refusal> {
    let caps = Caps::from(CapsWords {
        misa: misa::RV64 | misa::I | misa::S | misa::U,
        interrupts: 0xAAA,
        highest: 1 << 40,
        flags: Flags::SSTC,
        ..CapsWords::default()
    });
    let mut hart = Hart::fresh(&caps, 0x8000_0000)?;
    hart.set(Word::Menvcfg, menvcfg::STCE);
    Ok((caps, hart))
}

/// Of each register: no bit, every bit, and what it reads.
fn writes(caps: &Caps, hart: &Hart) -> Vec<(Csr, u64)> {
    let read = |csr| hart.read(caps, csr, HOST).ok().map(|read| (csr, read));
    let readable = (0..0x1000).map(Csr).filter_map(read);
    readable
        .flat_map(|(csr, read)| [0, u64::MAX, read].map(|value| (csr, value)))
        .collect()
}

fn in_order(totals: &Totals) -> [u32; 9] {
    let mut all = [0; 9];
    all[..7].copy_from_slice(&totals.lost);
    all[7..].copy_from_slice(&[totals.writes, totals.lossless]);
    all
}

fn of_order([lost @ .., writes, lossless]: [u32; 9]) -> Totals {
    Totals {
        lost,
        writes,
        lossless,
    }
}

#[test]
fn a_write_adds_what_explaining_it_gives() -> Result<(), Refusal> {
    let (caps, hart) = board()?;
    let mut totals = Totals::default();
    let mut expected = Totals::default();
    for (csr, value) in writes(&caps, &hart) {
        let lost = hart.explain(&caps, csr, value, HOST)?;
        for (_, reason) in lost {
            let number = usize::try_from(reason.number()).expect("at most 7");
            expected.lost[number - 1] += 1;
        }
        expected.writes += 1;
        expected.lossless += u32::from(lost.is_empty());
        hart.tally(&caps, csr, value, HOST, &mut totals)?;
        assert_eq!(totals, expected, "{csr} takes {value:#x}");
    }
    assert!(in_order(&totals).iter().all(|&total| total > 0));
    Ok(())
}

/// Wherever the writes are cut in two months, each counted from 0.
#[test]
fn two_months_add_up() -> Result<(), Refusal> {
    let (caps, hart) = board()?;
    let writes = writes(&caps, &hart);
    let count = |writes: &[(Csr, u64)]| -> Result<[u32; 9], Refusal> {
        let mut month = Totals::default();
        for (csr, value) in writes {
            hart.tally(&caps, *csr, *value, HOST, &mut month)?;
        }
        Ok(in_order(&month))
    };
    let both = count(&writes)?;
    for (first, second) in (0..=writes.len()).map(|end| writes.split_at(end)) {
        let (first, second) = (count(first)?, count(second)?);
        let sums = first.iter().zip(&second).map(|(one, other)| one + other);
        assert!(sums.eq(both));
    }
    Ok(())
}

#[test]
fn each_total_takes_the_largest_number_and_no_larger_one() -> Result<(), Refusal> {
    let (caps, hart) = board()?;
    let mut filled = [false; 9];
    for (csr, value) in writes(&caps, &hart) {
        let tally = |totals: &mut Totals| hart.tally(&caps, csr, value, HOST, totals);
        let mut added = Totals::default();
        tally(&mut added)?;
        let added = in_order(&added);
        // all of them are filled by this write, and those that it adds nothing to were full before
        let room = added.map(|more| u32::MAX - more);
        let mut totals = of_order(room);
        tally(&mut totals)?;
        assert_eq!(in_order(&totals), [u32::MAX; 9]);
        for n in (0..9).filter(|&n| added[n] > 0) {
            let mut one_more = room;
            one_more[n] += 1;
            let mut totals = of_order(one_more);
            assert_eq!(tally(&mut totals), Err(Refusal::TotalFull), "{csr}, {n}");
            assert_eq!(in_order(&totals), one_more);
            filled[n] = true;
        }
    }
    assert_eq!(filled, [true; 9]);
    Ok(())
}

/// What the entry and the binding give for a write, and what each leaves of the totals, which in
/// memory are nine numbers in their order.
fn by_both(
    caps: &[u8],
    hart: &[u8],
    address: u64,
    before: [u32; 9],
) -> (entries::Outcome, [u32; 9], Result<(), Refusal>, [u32; 9]) {
    let ((caps_at, caps_len), (hart_at, hart_len)) =
        ((caps.as_ptr(), caps.len()), (hart.as_ptr(), hart.len()));
    let (mut left, mut totals) = (before, of_order(before));
    let left_at = left.as_mut_ptr().cast();
    // SAFETY: all are valid for their lengths, and the images are only read.
    let outcome = unsafe {
        raw::vhart_tally(
            caps_at, caps_len, hart_at, hart_len, address, 0, HOST.time, HOST.seed, left_at,
        )
    };
    let came = slices::tally(caps, hart, address, 0, HOST, &mut totals);
    (outcome, left, came, in_order(&totals))
}

#[test]
fn a_refused_write_changes_no_total() -> Result<(), Refusal> {
    let caps = Caps::from(CapsWords {
        misa: misa::RV64 | misa::I | misa::U,
        interrupts: 0x888,
        ..CapsWords::default()
    });
    let hart = Hart::fresh(&caps, 0)?;
    let mut in_mode_2 = hart.clone();
    in_mode_2.set(Word::Mode, 2);
    let (caps, hart, in_mode_2) = (caps.as_bytes(), hart.as_bytes(), in_mode_2.as_bytes());
    let (short_caps, short_hart) = (&caps[..CAPS_BYTES - 8], &hart[..HART_BYTES - 8]);
    let full = [1, 2, 3, 4, 5, 6, 7, u32::MAX, 9];
    for (came, refusal) in [
        (by_both(short_caps, hart, 0x300, full), Refusal::BadCaps),
        (by_both(caps, short_hart, 0x300, full), Refusal::BadHart),
        (by_both(caps, in_mode_2, 0x300, full), Refusal::BadHart),
        (by_both(caps, hart, 0x1300, full), Refusal::NoSuchCsr),
        (by_both(caps, hart, 0x100, full), Refusal::CsrAbsent),
        (by_both(caps, hart, 0x300, full), Refusal::TotalFull),
    ] {
        let outcome = entries::Outcome {
            refusal: refusal.number().expect("the library's"),
            answer: 0,
            effect: 0,
        };
        assert_eq!(came, (outcome, full, Err(refusal), full));
    }
    Ok(())
}

#[test]
fn a_done_call_answers_nothing() -> Result<(), Refusal> {
    let (caps, hart) = board()?;
    let came = by_both(caps.as_bytes(), hart.as_bytes(), 0x303, [0; 9]);
    let done = entries::Outcome {
        refusal: 0,
        answer: 0,
        effect: 0,
    };
    let after = [0, 0, 0, 0, 3, 0, 0, 1, 0]; // bits 1, 5 and 9 of mideleg
    assert_eq!(came, (done, after, Ok(()), after));
    Ok(())
}
