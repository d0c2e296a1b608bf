//! The entries of a file, replayed on a record in their order, and the writes among them counted.
//! What is lost, and what is refused, the library says.

use vhart::{Caps, Hart, Host, Logged, Refusal, Totals};

use crate::log::{Entry, Refusals, Replay};

pub struct Count<'a> {
    caps: &'a Caps,
    replay: Replay<'a>,
    pub totals: Totals,
    pub refused: Refusals,
}

impl<'a> Count<'a> {
    pub fn new(caps: &'a Caps, hart: Hart, totals: Totals) -> Count<'a> {
        Count {
            caps,
            replay: Replay::new(caps, hart),
            totals,
            refused: Refusals::default(),
        }
    }

    /// Makes the call at a place, or notes why it is refused. A total that is full ends the count.
    pub fn take(&mut self, place: u64, entry: Entry) -> Result<(), Refusal> {
        if let Some(Logged::Write { csr, value }) = entry.call() {
            let (hart, host) = (&self.replay.hart, Host::default());
            let counted = hart.tally(self.caps, csr, value, host, &mut self.totals);
            // Another refusal is one of the call too, and noted there.
            if counted == Err(Refusal::TotalFull) {
                return counted;
            }
        }
        let refused = &mut self.refused;
        self.replay.take(&entry.to_bytes(), |made| {
            // The effect is a monitor's to do.
            if let Err(why) = made.came {
                refused.note(place, why);
            }
        })
    }
}

#[cfg(test)]
mod tests {
    use vhart::{Csr, Logged, Refusal, Totals, Word};

    use super::{Count, Entry, Refusals};
    use crate::log::board;

    fn write(csr: Csr, value: u64) -> Entry {
        Logged::Write { csr, value }.into()
    }

    fn take(count: &mut Count, entries: &[Entry]) {
        for (place, entry) in (1..).zip(entries) {
            count.take(place, *entry).unwrap();
        }
    }

    #[test]
    fn each_write_is_explained_on_what_the_one_before_left() {
        let (caps, hart) = board();
        let mut count = Count::new(&caps, hart, Totals::default());
        // The reserved mode is lost as one bit if mtvec's mode is 0, and as two if it is 1.
        let reserved = write(Csr::MTVEC, 2);
        take(&mut count, &[reserved]);
        assert_eq!(count.totals.lost, [0, 0, 0, 1, 0, 0, 0]);
        take(&mut count, &[write(Csr::MTVEC, 1), reserved]);
        assert_eq!(count.totals.lost, [0, 0, 0, 3, 0, 0, 0]);
        assert_eq!((count.totals.writes, count.totals.lossless), (3, 1));
        assert_eq!(count.refused, Refusals::default());
    }

    #[test]
    fn other_calls_are_made_and_not_counted() {
        let (caps, hart) = board();
        let mut count = Count::new(&caps, hart, Totals::default());
        let calls = [[0, 0x300, 0], [2, 7, 0], [3, 0, 0], [2, 3, 0]];
        take(&mut count, &calls.map(Entry));
        assert_eq!(count.totals, Totals::default());
        assert_eq!(
            (count.replay.hart.get(Word::Mcause), count.refused.count()),
            (1 << 63 | 3, 0)
        );
    }

    #[test]
    fn what_is_refused_is_noted_and_leaves_the_record() {
        let (caps, hart) = board();
        let mut count = Count::new(&caps, hart.clone(), Totals::default());
        let entries = [
            [5, 0, 0],
            [2, 12, 0],
            [1, 0x7A1, 0],
            [0, 0x7A1, 0],
            [1, Csr::STIMECMP.0, 0],
            [3, 0, 1],
        ];
        take(&mut count, &entries.map(Entry));
        let mut refused = Refusals::default();
        for (place, why) in [
            (1, Refusal::BadEntry),
            (2, Refusal::BadInterrupt),
            (3, Refusal::NoSuchCsr),
            (4, Refusal::NoSuchCsr),
            (5, Refusal::CsrAbsent),
            (6, Refusal::BadEntry),
        ] {
            refused.note(place, why);
        }
        assert_eq!(count.refused, refused);
        assert_eq!((count.replay.hart, count.totals), (hart, Totals::default()));
    }

    #[test]
    fn a_full_total_ends_the_count() {
        let (caps, hart) = board();
        let full = Totals {
            lossless: u32::MAX,
            ..Totals::default()
        };
        let mut count = Count::new(&caps, hart.clone(), full);
        let lossless = write(Csr::MSCRATCH, 1);
        assert_eq!(count.take(1, lossless), Err(Refusal::TotalFull));
        assert_eq!((count.replay.hart, count.totals), (hart, full));
        assert_eq!(count.refused, Refusals::default());
    }
}
