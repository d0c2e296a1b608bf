//! An entry of a call log: three words, which are a call on the record. Whether it is valid, the
//! library says. Here it has its words.

use vhart::{Csr, Logged, ENTRY_BYTES};

/// An entry, valid or not: its kind and two words more, as they stand in the log.
#[derive(Clone, Copy, Debug, PartialEq)]
pub struct Entry(pub [u64; 3]);

impl Entry {
    pub fn to_bytes(self) -> [u8; ENTRY_BYTES] {
        let mut bytes = [0; ENTRY_BYTES];
        for (to, word) in bytes.chunks_exact_mut(8).zip(self.0) {
            to.copy_from_slice(&word.to_le_bytes());
        }
        bytes
    }

    /// The call of this kind. The words that it doesn't use aren't looked at.
    pub fn call(self) -> Option<Logged> {
        let [kind, first, second] = self.0;
        let csr = Csr(first);
        match kind {
            0 => Some(Logged::Read { csr }),
            1 => Some(Logged::Write { csr, value: second }),
            2 => Some(Logged::Inject { number: first }),
            3 => Some(Logged::Mret),
            4 => Some(Logged::Sret),
            _ => None,
        }
    }
}

/// The first 24 bytes.
impl From<&[u8]> for Entry {
    fn from(bytes: &[u8]) -> Entry {
        let mut words = [0; 3];
        for (word, bytes) in words.iter_mut().zip(bytes.chunks_exact(8)) {
            *word = bytes
                .iter()
                .rev()
                .fold(0, |word, byte| word << 8 | u64::from(*byte));
        }
        Entry(words)
    }
}

impl From<Logged> for Entry {
    fn from(call: Logged) -> Entry {
        Entry::from(&call.to_bytes()[..])
    }
}

/// What a call does, in a word.
pub fn verb(call: Logged) -> &'static str {
    match call {
        Logged::Read { .. } => "read",
        Logged::Write { .. } => "write",
        Logged::Inject { .. } => "inject",
        Logged::Mret => "mret",
        Logged::Sret => "sret",
        _ => "call",
    }
}

/// The register that it reads or writes.
pub fn register(call: Logged) -> Option<Csr> {
    match call {
        Logged::Read { csr } | Logged::Write { csr, .. } => Some(csr),
        _ => None,
    }
}

/// All of it but the value that is written.
pub fn in_words(call: Logged) -> String {
    match (verb(call), register(call), call) {
        (verb, Some(csr), _) => format!("{verb} {csr}"),
        (verb, _, Logged::Inject { number }) => format!("{verb} {number}"),
        (verb, ..) => verb.into(),
    }
}

#[cfg(test)]
mod tests {
    use vhart::{Csr, Logged};

    use super::{in_words, Entry};

    #[test]
    fn every_call_has_its_words() {
        let csr = Csr(0x0102_0304_0506_0708);
        for (call, text) in [
            (Logged::Read { csr: Csr::MCAUSE }, "read mcause"),
            (Logged::Read { csr: Csr(0x7A1) }, "read 0x7a1"),
            (
                Logged::Write {
                    csr,
                    value: u64::MAX,
                },
                "write 0x102030405060708",
            ),
            (Logged::Inject { number: 7 }, "inject 7"),
            (Logged::Mret, "mret"),
            (Logged::Sret, "sret"),
        ] {
            let entry = Entry::from(call);
            assert_eq!((entry.call(), in_words(call)), (Some(call), text.into()));
            assert_eq!(entry.to_bytes(), call.to_bytes());
        }
        for kind in [5, 1 << 32 | 1, u64::MAX] {
            assert_eq!(Entry([kind, 0, 0]).call(), None);
        }
    }

    #[test]
    fn words_are_little_endian() {
        let bytes: Vec<_> = (1..=24).collect();
        let entry = Entry::from(&bytes[..]);
        assert_eq!(entry.0[0], 0x0807_0605_0403_0201);
        assert_eq!(entry.to_bytes()[..], bytes);
    }
}
