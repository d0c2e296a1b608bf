//! Which names of a word that isn't legal are missing or too many. The library is asked about the
//! word with other names, so no rule stands here.

use vhart::{Caps, CapsWord, CapsWords, Fault, FaultWord};

use super::describe::value;
use super::names::{FLAGS, INTERRUPTS, LETTERS, WIDTHS};

/// The library's sentence and, if names can make the word legal, the fewest that do.
pub fn sentence(words: &CapsWords, fault: &Fault) -> String {
    let mut text = fault.to_string();
    let FaultWord::Caps(word) = fault.word else {
        return text;
    };
    let at_fault = fewest(words, word).unwrap_or_default();
    for (what, is_there) in [("missing", false), ("too many", true)] {
        let names = at_fault.iter();
        let names = names.filter(|name| name.is_in(value(words, word)) == is_there);
        let names: Vec<_> = names.map(|name| name.text).collect();
        if !names.is_empty() {
            text += &format!("; {what}: {}", names.join(" "));
        }
    }
    text
}

/// A name that a word can have.
#[derive(Clone, Copy)]
struct Name {
    text: &'static str,
    /// What it puts into the bits that it decides.
    bits: u64,
    decides: u64,
}

impl Name {
    fn is_in(&self, word: u64) -> bool {
        word & self.decides == self.bits
    }

    /// The word without the name if it is there, and else with it.
    fn exchange(&self, word: u64) -> u64 {
        match self.is_in(word) {
            true => word & !self.decides,
            false => word & !self.decides | self.bits,
        }
    }
}

/// The fewest names that must be exchanged until the library finds no fault in the word.
fn fewest(words: &CapsWords, word: CapsWord) -> Option<Vec<Name>> {
    let before = value(words, word);
    let names = names_of(word, before);
    let sets = |size| (1..1u32 << names.len()).filter(move |set| set.count_ones() == size);
    (1..=names.len() as u32)
        .flat_map(sets)
        .map(|set| {
            let names = names.iter().enumerate();
            let names = names.filter(|(place, _)| set >> place & 1 == 1);
            names.map(|(_, name)| *name).collect::<Vec<_>>()
        })
        .find(|names| {
            let after = names.iter().fold(before, |word, name| name.exchange(word));
            is_legal(words, word, after)
        })
}

/// The names that can be exchanged in a word: of widths, those that it doesn't have.
fn names_of(word: CapsWord, before: u64) -> Vec<Name> {
    let (widths, bits) = match word {
        CapsWord::Misa => (&WIDTHS[..], &LETTERS[..]),
        CapsWord::Interrupts => (&[][..], &INTERRUPTS[..]),
        CapsWord::Flags => (&[][..], &FLAGS[..]),
        _ => (&[][..], &[][..]),
    };
    let name = |text, bits, decides| Name {
        text,
        bits,
        decides,
    };
    let widths = widths
        .iter()
        .map(|(text, width)| name(text, *width, 3 << 62));
    let widths = widths.filter(|width| !width.is_in(before));
    let bits = bits.iter().map(|(text, bit)| name(text, *bit, *bit));
    widths.chain(bits).collect()
}

/// Whether the library finds no fault in the word if this is its value.
fn is_legal(words: &CapsWords, word: CapsWord, after: u64) -> bool {
    let mut all = CapsWord::ALL.map(|word| value(words, word));
    all[word as usize] = after;
    let found = Caps::from(CapsWords::from(all)).check();
    !matches!(found, Err(fault) if fault.word == FaultWord::Caps(word))
}

#[cfg(test)]
mod tests {
    use vhart::{Caps, CapsWords};

    use super::sentence;

    /// What is said behind the library's sentence.
    fn said(words: [u64; 9]) -> String {
        let words = CapsWords::from(words);
        let fault = Caps::from(words).check().unwrap_err();
        let text = sentence(&words, &fault);
        text.strip_prefix(&fault.to_string()).unwrap().into()
    }

    const RV64IU: u64 = 0x8000_0000_0010_0100;
    const S: u64 = 1 << 18;

    #[test]
    fn the_names_at_fault_are_told() {
        for (words, text) in [
            ([RV64IU - (1 << 20), 0, 0, 0, 0, 0, 0, 0, 0], "; missing: u"),
            (
                [RV64IU | 1 << 7 | 1 << 13, 0, 0, 0, 0, 0, 0, 0, 0],
                "; too many: n h",
            ),
            (
                [1 << 7, 0, 0, 0, 0, 0, 0, 0, 0],
                "; missing: rv64 u; too many: h",
            ),
            (
                [RV64IU - (1 << 62), 0, 0, 0, 0, 0, 0, 0, 0],
                "; missing: rv64",
            ),
            (
                [RV64IU | S, 0x888, 0, 0, 0, 0, 0, 0, 0],
                "; missing: ssi sti sei",
            ),
            ([RV64IU, 0x88A, 0, 0, 0, 0, 0, 0, 0], "; too many: ssi"),
            (
                [RV64IU, 0, 0, 0x12, 0, 0, 0, 0, 0],
                "; too many: sstc svpbmt",
            ),
            (
                [RV64IU | 1 << 5, 0, 0, 1, 0, 0, 0, 0, 0],
                "; too many: zfinx",
            ),
        ] {
            assert_eq!(said(words), text, "{words:x?}");
        }
    }

    #[test]
    fn what_no_name_mends_is_left_to_the_sentence() {
        for words in [
            [RV64IU, 0, 0, 0, 0, 1 << 32, 0, 0, 0],
            [RV64IU, 0x4, 0, 0, 0, 0, 0, 0, 0],
            [RV64IU, 0, 0, 0x20, 0, 0, 0, 0, 0],
        ] {
            assert_eq!(said(words), "", "{words:x?}");
        }
    }
}
