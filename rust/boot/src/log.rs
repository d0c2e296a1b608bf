//! The call log of the boot, kept in the monitor's memory for whoever reads it there: the calls of
//! the kinds that a log has, in runs. A run is a record, calls that were made on it one behind the
//! other, and the record behind them. Whatever else changes the record begins a new run.
//!
//! From the start of the log's memory on, all words little-endian:
//!
//! | at | what |
//! |---|---|
//! | 0 | the bytes VHARTLOG |
//! | 8, 16, 24 | how many runs, how many calls in them, and how many calls found no room |
//! | 32 | the settings file of the hart, 78 bytes |
//! | 4 KiB | the runs, 976 bytes each: its first call and how many, the record before and behind |
//! | 8 MiB | the calls, 24 bytes each: entries of a call log |
//! | 11 MiB | what they gave, 24 bytes each: answer, effect and refusal |

use vhart::{Hart, Logged, ENTRY_BYTES, HART_BYTES, RESULT_BYTES, SETTINGS_BYTES};

const RUNS: usize = 4 << 10;
const RUN_BYTES: usize = 16 + 2 * HART_BYTES;
const CALLS: usize = 8 << 20;
const RESULTS: usize = 11 << 20;

/// How many there is room for.
const MOST_RUNS: usize = (CALLS - RUNS) / RUN_BYTES;
const MOST_CALLS: usize = (RESULTS - CALLS) / ENTRY_BYTES;

pub struct Log {
    /// Empty if no log is wanted.
    memory: &'static mut [u8],
    runs: usize,
    calls: usize,
    /// How many calls the last run has.
    length: usize,
    lost: usize,
}

impl Log {
    pub const fn new() -> Log {
        Log {
            memory: &mut [],
            runs: 0,
            calls: 0,
            length: 0,
            lost: 0,
        }
    }

    pub fn begin(&mut self, memory: &'static mut [u8], settings: &[u8; SETTINGS_BYTES]) {
        self.memory = memory;
        self.put(0, b"VHARTLOG");
        self.put(32, settings);
        self.put_counts();
    }

    pub fn is_kept(&self) -> bool {
        !self.memory.is_empty()
    }

    /// Before a call: if the record isn't as the last run left it, a new run begins.
    pub fn before(&mut self, hart: &Hart) {
        let goes_on = self.runs > 0 && self.left_behind() == Some(hart.as_bytes());
        if goes_on || self.runs == MOST_RUNS {
            return;
        }
        let run = RUNS + self.runs * RUN_BYTES;
        self.put(run, &self.calls.to_le_bytes());
        self.put(run + 8, &0usize.to_le_bytes());
        self.put(run + 16, hart.as_bytes());
        self.put(run + 16 + HART_BYTES, hart.as_bytes());
        self.runs += 1;
        self.length = 0;
    }

    /// Behind it: the call, what it gave, and the record.
    pub fn after(&mut self, call: Logged, result: [u64; 3], hart: &Hart) {
        if self.runs == MOST_RUNS || self.calls == MOST_CALLS {
            self.lost += 1;
            return self.put_counts();
        }
        let run = RUNS + (self.runs - 1) * RUN_BYTES;
        self.put(CALLS + self.calls * ENTRY_BYTES, &call.to_bytes());
        for (place, word) in (0..).zip(result) {
            self.put(
                RESULTS + self.calls * RESULT_BYTES + 8 * place,
                &word.to_le_bytes(),
            );
        }
        self.calls += 1;
        self.length += 1;
        self.put(run + 8, &self.length.to_le_bytes());
        self.put(run + 16 + HART_BYTES, hart.as_bytes());
        self.put_counts();
    }

    /// What is told of it.
    pub fn counts(&self) -> [(&'static str, u64); 3] {
        [
            ("runs", self.runs as u64),
            ("calls", self.calls as u64),
            ("calls without room", self.lost as u64),
        ]
    }

    fn left_behind(&self) -> Option<&[u8; HART_BYTES]> {
        let record = RUNS + self.runs * RUN_BYTES - HART_BYTES;
        self.memory.get(record..)?.first_chunk()
    }

    fn put_counts(&mut self) {
        for (place, count) in (1..).zip([self.runs, self.calls, self.lost]) {
            self.put(8 * place, &count.to_le_bytes());
        }
    }

    fn put<const N: usize>(&mut self, at: usize, bytes: &[u8; N]) {
        if let Some(place) = self.memory.get_mut(at..).and_then(<[u8]>::first_chunk_mut) {
            *place = *bytes;
        }
    }
}
