//! A write to a register, and what the library says of it.

use vhart::{Caps, Csr, Hart, Host, Lost, Reason, Refusal, Word};

use crate::fields::Field;

pub struct Case<'a> {
    pub caps: &'a Caps,
    /// The record before the write.
    pub hart: &'a Hart,
    pub csr: Csr,
    pub value: u64,
    pub host: Host,
}

/// What comes of the write.
pub struct Stored {
    /// The word that the value is compared with: the record's word of the register's name, or else
    /// what the register reads.
    pub word: u64,
    /// What the register reads.
    pub read: u64,
    pub lost: Lost,
    /// Whether no write to the register stores anything.
    pub is_read_only: bool,
}

impl Case<'_> {
    pub fn stored(&self) -> Result<Stored, Refusal> {
        let lost = self.lost(self.value)?;
        let mut after = self.hart.clone();
        // The effect is a monitor's to do.
        let _ = after.write(self.caps, self.csr, self.value)?;
        let read = after.read(self.caps, self.csr, self.host)?;
        let name = self.csr.to_string();
        let word = Word::ALL.into_iter().find(|word| word.name() == name);
        let other = self.lost(!read)?;
        Ok(Stored {
            word: word.map_or(read, |word| after.get(word)),
            read,
            lost,
            is_read_only: other.iter().any(|(_, reason)| reason == Reason::ReadOnly),
        })
    }

    /// What would be lost of a value.
    pub fn lost(&self, value: u64) -> Result<Lost, Refusal> {
        self.hart.explain(self.caps, self.csr, value, self.host)
    }

    /// The values that a field takes here, while the others are as in the value.
    pub fn taken(&self, field: &Field) -> Vec<u64> {
        let is_kept = |value: &u64| {
            let lost = self.lost(field.with(self.value, *value));
            lost.is_ok_and(|lost| mask(&lost) & field.mask() == 0)
        };
        (0..1 << field.width.min(4)).filter(is_kept).collect()
    }
}

/// The lost bits, as a mask.
pub fn mask(lost: &Lost) -> u64 {
    lost.iter().fold(0, |mask, (bit, _)| mask | bit_of(bit))
}

/// A bit by its number. There are 64.
pub fn bit_of(bit: u8) -> u64 {
    1u64.checked_shl(bit.into()).unwrap_or(0)
}
