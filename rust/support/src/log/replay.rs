//! The replay of a log on a record, as it arrives. What an entry does, the library says.

use vhart::{Answer, Caps, Hart, Refusal, Results, Wait, ENTRY_BYTES, RESULT_BYTES};

use super::entry::Entry;

pub struct Replay<'a> {
    caps: &'a Caps,
    /// As the entries so far left it.
    pub hart: Hart,
    /// What came of an entry that isn't whole yet.
    wait: Wait,
    /// Where the library puts what the entries give.
    out: Vec<u8>,
}

/// An entry that is whole, and what it gave.
#[derive(Clone, Copy, Debug, PartialEq)]
pub struct Made {
    pub entry: Entry,
    pub came: Result<Answer, Refusal>,
}

impl<'a> Replay<'a> {
    pub fn new(caps: &'a Caps, hart: Hart) -> Replay<'a> {
        Replay {
            caps,
            hart,
            wait: Wait::new(),
            out: Vec::new(),
        }
    }

    /// Takes more of the log, cut anywhere, and hands on each entry that it completes.
    pub fn take(&mut self, fragment: &[u8], mut each: impl FnMut(Made)) -> Result<(), Refusal> {
        let bytes = [self.waiting(), fragment].concat();
        let entries = bytes.chunks_exact(ENTRY_BYTES);
        self.out.resize(entries.len() * RESULT_BYTES, 0);
        let (caps, wait) = (self.caps, &mut self.wait);
        let count = self.hart.replay(caps, wait, fragment, &mut self.out)?;
        let results = Results::new(&self.out, count);
        for (entry, came) in entries.map(Entry::from).zip(results) {
            each(Made { entry, came });
        }
        Ok(())
    }

    /// The bytes of an entry that wait for the others.
    pub fn waiting(&self) -> &[u8] {
        let [count, bytes @ ..] = self.wait.as_bytes();
        &bytes[..usize::from(*count).min(bytes.len())]
    }

    /// Says that the log has ended.
    pub fn end(&self) -> Result<(), Refusal> {
        self.hart.replay_end(self.caps, &self.wait)
    }
}

#[cfg(test)]
pub mod tests {
    use vhart::{misa, Caps, CapsWords, Csr, Effect, Hart, Logged, Refusal};

    use super::{Entry, Made, Replay};

    /// A board with S but without Sstc, and its hart at the start.
    pub fn board() -> (Caps, Hart) {
        let caps = Caps::from(CapsWords {
            misa: misa::RV64 | misa::I | misa::S | misa::U,
            interrupts: 0xAAA,
            highest: u64::MAX,
            ..CapsWords::default()
        });
        let hart = Hart::fresh(&caps, 0x8000_0000).unwrap();
        (caps, hart)
    }

    /// The entries that the fragments complete, the record behind them, and what waits.
    fn replayed<'a>(fragments: impl Iterator<Item = &'a [u8]>) -> (Vec<Made>, Hart, usize) {
        let (caps, hart) = board();
        let mut replay = Replay::new(&caps, hart);
        let mut all = Vec::new();
        for fragment in fragments {
            replay.take(fragment, |made| all.push(made)).unwrap();
        }
        let waiting = replay.waiting().len();
        assert_eq!(replay.end().is_ok(), waiting == 0);
        (all, replay.hart, waiting)
    }

    #[test]
    fn each_entry_stands_with_what_it_gave_wherever_the_log_is_cut() {
        let csr = Csr::MIP;
        let entries = [
            Entry::from(Logged::Write { csr, value: 0x200 }),
            Entry::from(Logged::Read { csr }),
            Entry([9, 8, 7]),
            Entry::from(Logged::Mret),
            Entry::from(Logged::Sret),
        ];
        let words = entries.iter().flat_map(|entry| entry.0);
        let log: Vec<_> = words.flat_map(u64::to_le_bytes).collect();
        let (all, hart, waiting) = replayed([&log[..]].into_iter());
        assert_eq!((waiting, all.len()), (0, entries.len()));
        assert!(all.iter().map(|made| made.entry).eq(entries));
        let effect = all[0].came.map(|answer| answer.effect);
        assert_eq!(effect, Ok(Effect::SetSeip));
        assert_eq!(all[1].came.map(|answer| answer.value), Ok(0x200));
        assert_eq!(all[2].came, Err(Refusal::BadEntry));
        assert_eq!(all[4].came, Err(Refusal::NotMachine));

        let whole = (all, hart, waiting);
        for length in 1..log.len() {
            assert_eq!(replayed(log.chunks(length)), whole, "{length}");
        }
    }

    #[test]
    fn what_is_left_waits() {
        let log: Vec<_> = (0..3).flat_map(|_| Logged::Sret.to_bytes()).collect();
        for length in 0..=log.len() {
            let (all, _, waiting) = replayed(log[..length].chunks(7));
            assert_eq!((all.len(), waiting), (length / 24, length % 24));
        }
    }
}
