//! The lost bits of a write: they are those in which the value and what the write stores differ,
//! and a listing has nothing behind them.

use std::collections::BTreeSet;

use vhart::{
    misa, slices, Caps, CapsWords, Csr, Flags, Hart, Host, Lost, Reason, Refusal, Word, CAPS_BYTES,
    HART_BYTES,
};

/// The entry itself: the binding drops what stands behind the last bit, and in a refused listing.
#[allow(dead_code)]
mod raw {
    entries::declare!();
}

/// The bits that sstatus reads.
const SSTATUS: u64 = 0x8000_0003_000D_E762;

const HOST: Host = Host {
    time: 0x0123_4567_89AB_CDEF,
    seed: 0x5555_AAAA_0000_FFFF,
    line: false,
};

/// Boards with all, with S alone, and with neither S nor anything else; `highest` is in the middle.
fn boards() -> [Caps; 3] {
    let machine = misa::RV64 | misa::I | misa::U;
    let supervisor = machine | misa::S;
    [
        (supervisor | misa::C | misa::F | misa::V, 0x2AAA, 0x1E),
        (supervisor, 0xAAA, 0),
        (machine, 0x888, 0),
    ]
    .map(|(misa, interrupts, flags)| {
        Caps::from(CapsWords {
            misa,
            interrupts,
            highest: 1 << 40,
            flags: Flags::from_bits(flags),
            ..CapsWords::default()
        })
    })
}

/// A fresh record, and one in which every register holds what it takes of a word.
fn records(caps: &Caps) -> Result<[Hart; 2], Refusal> {
    let fresh = Hart::fresh(caps, 0x8000_0000)?;
    let mut full = fresh.clone();
    for csr in (0..0x1000).map(Csr) {
        match full.write(caps, csr, 0x8000_0055_0000_2BFD) {
            Ok(_) | Err(Refusal::NoSuchCsr | Refusal::CsrAbsent) => {}
            Err(other) => return Err(other),
        }
    }
    Ok([fresh, full])
}

/// No bit, all bits, and what the register reads with each bit changed.
fn values(read: u64) -> impl Iterator<Item = u64> {
    [0, u64::MAX]
        .into_iter()
        .chain((0..64).map(move |bit| read ^ 1 << bit))
}

/// The bits in which a value and what a write stores of it differ, by writing it.
fn differing(caps: &Caps, hart: &Hart, csr: Csr, value: u64) -> Result<u64, Refusal> {
    let mut after = hart.clone();
    let _effect = after.write(caps, csr, value)?;
    let stored = match csr {
        Csr::TSELECT => after.get(Word::Tselect),
        _ => after.read(caps, csr, HOST)?,
    };
    let compared = match csr {
        Csr::SSTATUS => SSTATUS,
        Csr::SIE | Csr::SIP => hart.get(Word::Mideleg) & 0x222,
        _ => u64::MAX,
    };
    Ok((value ^ stored) & compared)
}

fn bits_of(lost: &Lost) -> u64 {
    lost.iter().map(|(bit, _)| 1 << bit).sum()
}

#[test]
fn they_are_those_that_a_write_does_not_store() -> Result<(), Refusal> {
    let mut given = BTreeSet::new();
    for caps in boards() {
        for hart in records(&caps)? {
            for csr in (0..0x1000).map(Csr) {
                let read = match hart.read(&caps, csr, HOST) {
                    Err(refusal) => {
                        let came = hart.explain(&caps, csr, 0, HOST);
                        assert_eq!(came, Err(refusal), "{csr}");
                        continue;
                    }
                    Ok(read) => read,
                };
                for value in values(read) {
                    let lost = hart.explain(&caps, csr, value, HOST)?;
                    let differing = differing(&caps, &hart, csr, value)?;
                    assert_eq!(bits_of(&lost), differing, "{csr} takes {value:#x}");
                    let mut next = lost.iter().zip(lost.iter().skip(1));
                    assert!(next.all(|((one, _), (other, _))| one < other), "{lost:?}");
                    given.extend(lost.iter().map(|(_, reason)| reason));
                }
            }
        }
    }
    let all = (1..=7).filter_map(Reason::from_number);
    assert!(given.into_iter().eq(all));
    Ok(())
}

/// What the entry gives, and the binding of the same.
fn by_both(
    caps: &[u8],
    hart: &[u8],
    address: u64,
    value: u64,
) -> (entries::Listing, Result<Lost, Refusal>) {
    let ((caps_at, caps_len), (hart_at, hart_len)) =
        ((caps.as_ptr(), caps.len()), (hart.as_ptr(), hart.len()));
    // SAFETY: both are valid for their lengths, and are only read.
    let listing = unsafe {
        raw::vhart_explain(
            caps_at, caps_len, hart_at, hart_len, address, value, HOST.time, HOST.seed,
        )
    };
    (listing, slices::explain(caps, hart, address, value, HOST))
}

#[test]
fn a_listing_is_0_behind_them() -> Result<(), Refusal> {
    let [caps, ..] = boards();
    let hart = Hart::fresh(&caps, 0)?;
    for csr in [Csr::MSTATUS, Csr::MISA, Csr::MSCRATCH, Csr::SCONTEXT] {
        for value in values(0) {
            let (listing, lost) = by_both(caps.as_bytes(), hart.as_bytes(), csr.0, value);
            let (lost, count) = (lost?, usize::try_from(listing.count).expect("at most 64"));
            assert_eq!((listing.refusal, lost.len()), (0, count));
            let pairs: Vec<(u8, u8)> = listing.bits.into_iter().zip(listing.reasons).collect();
            let (listed, behind) = pairs.split_at(count);
            let listed = listed
                .iter()
                .map(|&(bit, reason)| (bit, Reason::from_number(reason.into())));
            assert!(listed.eq(lost.iter().map(|(bit, reason)| (bit, Some(reason)))));
            assert!(behind.iter().all(|pair| *pair == (0, 0)));
        }
    }
    Ok(())
}

#[test]
fn a_refused_listing_is_0() -> Result<(), Refusal> {
    let [_, _, caps] = boards();
    let hart = Hart::fresh(&caps, 0)?;
    let mut in_mode_2 = hart.clone();
    in_mode_2.set(Word::Mode, 2);
    let (caps, hart, in_mode_2) = (caps.as_bytes(), hart.as_bytes(), in_mode_2.as_bytes());
    let (short_caps, short_hart) = (&caps[..CAPS_BYTES - 8], &hart[..HART_BYTES - 8]);
    for (came, refusal) in [
        (by_both(short_caps, hart, 0x300, 0), Refusal::BadCaps),
        (by_both(caps, short_hart, 0x300, 0), Refusal::BadHart),
        (by_both(caps, in_mode_2, 0x300, 0), Refusal::BadHart),
        (by_both(caps, hart, 0x1300, 0), Refusal::NoSuchCsr),
        (by_both(caps, hart, 0x100, 0), Refusal::CsrAbsent),
    ] {
        let nothing = entries::Listing {
            refusal: refusal.number().expect("the library's"),
            count: 0,
            bits: [0; 64],
            reasons: [0; 64],
        };
        assert_eq!(came, (nothing, Err(refusal)));
    }
    Ok(())
}
