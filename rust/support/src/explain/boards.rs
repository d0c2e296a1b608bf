//! What a board lacks, or has too much, for something to be so. The library is asked about boards
//! that differ in as few names as can be, each with a fresh record: so no rule stands here.

use vhart::{mip, misa, Caps, CapsWords, Flags, Hart};

use crate::prose::listed;
use crate::settings::names::{FLAGS, INTERRUPTS, LETTERS};

/// What is told of a board.
pub struct Told {
    /// What it lacks or has.
    pub fact: String,
    /// What to do if its hart is otherwise.
    pub advice: String,
}

/// Something that a board has or hasn't: bits of misa, of the interrupts and of the flags.
struct Name {
    text: String,
    /// How the settings say it.
    word: String,
    /// What is said if it alone is missing.
    missing: String,
    misa: u64,
    interrupts: u64,
    flags: u64,
}

impl Name {
    fn is_in(&self, words: &CapsWords) -> bool {
        let has = |word: u64, bits: u64| word & bits == bits;
        has(words.misa, self.misa)
            && has(words.interrupts, self.interrupts)
            && has(words.flags.bits(), self.flags)
    }

    /// The board without it if it is there, and else with it.
    fn exchange(&self, words: &CapsWords) -> CapsWords {
        let is_in = self.is_in(words);
        let exchange = |word: u64, bits: u64| match is_in {
            true => word & !bits,
            false => word | bits,
        };
        CapsWords {
            misa: exchange(words.misa, self.misa),
            interrupts: exchange(words.interrupts, self.interrupts),
            flags: Flags::from_bits(exchange(words.flags.bits(), self.flags)),
            ..*words
        }
    }
}

/// The interrupts of S, which come and go with it.
const OF_S: u64 = mip::SSIP | mip::STIP | mip::SEIP;

fn names() -> Vec<Name> {
    let letters = LETTERS.iter().map(|(text, bit)| Name {
        text: text.to_uppercase(),
        word: format!("{text} in misa"),
        missing: format!("this board has no {}", text.to_uppercase()),
        misa: *bit,
        interrupts: match *bit {
            misa::S => OF_S,
            _ => 0,
        },
        flags: 0,
    });
    let flags = FLAGS.iter().map(|(word, bit)| {
        let text = word[..1].to_uppercase() + &word[1..];
        Name {
            missing: format!("this board has no {text}"),
            text,
            word: word.to_string(),
            misa: 0,
            interrupts: 0,
            flags: *bit,
        }
    });
    let interrupts = INTERRUPTS.iter().filter(|(_, bit)| bit & OF_S == 0);
    let interrupts = interrupts.map(|(text, bit)| Name {
        text: text.to_string(),
        word: format!("{text} in interrupts"),
        missing: format!(
            "interrupt {} ({text}) isn't in this board's interrupts",
            bit.trailing_zeros()
        ),
        misa: 0,
        interrupts: *bit,
        flags: 0,
    });
    letters.chain(flags).chain(interrupts).collect()
}

/// What this board lacks or has, if one or two names decide whether it is so.
pub fn tell(caps: &Caps, is_so: impl Fn(&Caps, &Hart) -> bool) -> Option<Told> {
    let words = caps.words();
    let names = names();
    let is_so_with = |set: &Vec<&Name>| {
        let other = set.iter().fold(words, |words, name| name.exchange(&words));
        let other = Caps::from(other);
        Hart::fresh(&other, 0).is_ok_and(|hart| is_so(&other, &hart))
    };
    let one = names.iter().map(|name| vec![name]);
    let two = names.iter().enumerate();
    let two =
        two.flat_map(|(place, name)| names[..place].iter().map(move |other| vec![other, name]));
    let mut sets: Vec<_> = one.filter(&is_so_with).collect();
    if sets.is_empty() {
        sets = two.filter(&is_so_with).collect();
    }
    (!sets.is_empty()).then(|| Told {
        fact: fact(&sets, &words),
        advice: advice(&sets, &words),
    })
}

/// Each set of names by itself would make it so, if each of them were otherwise.
fn fact(sets: &[Vec<&Name>], words: &CapsWords) -> String {
    let names = |set: &[&Name], is_otherwise: bool| {
        let names = set
            .iter()
            .map(|name| match name.is_in(words) == is_otherwise {
                true => format!("no {}", name.text),
                false => name.text.clone(),
            });
        listed(&names.collect::<Vec<_>>(), "and")
    };
    match (sets, missing(sets, words)) {
        ([set], Some(_)) => set[0].missing.clone(),
        ([set], _) => format!("this board has {}", names(set, false)),
        (_, Some(_)) => {
            let names: Vec<_> = sets.iter().map(|set| set[0].text.clone()).collect();
            format!("this board has neither {}", listed(&names, "nor"))
        }
        _ => {
            let needed: Vec<_> = sets.iter().map(|set| names(set, true)).collect();
            format!("this takes a board that has {}", needed.join(", or "))
        }
    }
}

/// The settings may be wrong about the board.
fn advice(sets: &[Vec<&Name>], words: &CapsWords) -> String {
    let Some(missing) = missing(sets, words) else {
        return "If its hart is otherwise, write its settings anew.".into();
    };
    let it = match missing.len() {
        1 => "it",
        _ => "one",
    };
    let missing = listed(&missing, "or");
    format!("If its hart does have {it}, write its settings anew with {missing}.")
}

/// How the settings say the names, if each would do by itself and isn't there.
fn missing(sets: &[Vec<&Name>], words: &CapsWords) -> Option<Vec<String>> {
    let is_missing = |set: &Vec<&Name>| set.len() == 1 && !set[0].is_in(words);
    let missing = sets.iter().map(|set| set[0].word.clone());
    sets.iter().all(is_missing).then(|| missing.collect())
}

#[cfg(test)]
mod tests {
    use vhart::{misa, Caps, CapsWords, Csr, Flags, Host};

    use super::tell;

    const RV64IU: u64 = misa::RV64 | misa::I | misa::U;

    /// What is told of the lowest lost bit.
    fn told(letters: u64, interrupts: u64, flags: Flags, csr: Csr, value: u64) -> Option<String> {
        let caps = Caps::from(CapsWords {
            misa: RV64IU | letters,
            interrupts,
            highest: u64::MAX,
            flags,
            ..CapsWords::default()
        });
        let lost = |caps: &Caps, hart: &vhart::Hart| {
            let lost = hart.explain(caps, csr, value, Host::default());
            lost.map(|lost| lost.iter().map(|(bit, _)| bit).collect::<Vec<_>>())
        };
        let hart = vhart::Hart::fresh(&caps, 0).unwrap();
        let first = lost(&caps, &hart).unwrap()[0];
        let told = tell(&caps, |caps, hart| {
            lost(caps, hart).is_ok_and(|lost| !lost.contains(&first))
        });
        told.map(|told| told.fact)
    }

    #[test]
    fn a_board_is_told_what_it_lacks() {
        for (letters, interrupts, flags, csr, value, text) in [
            (
                0,
                0,
                Flags::NONE,
                Csr::MENVCFG,
                0x10,
                "this board has no Zicbom",
            ),
            (
                0,
                0,
                Flags::NONE,
                Csr::MENVCFG,
                0x80,
                "this board has no Zicboz",
            ),
            (
                misa::S,
                0x222,
                Flags::NONE,
                Csr::MENVCFG,
                1 << 63,
                "this board has no Sstc",
            ),
            (
                0,
                0,
                Flags::NONE,
                Csr::MENVCFG,
                1 << 63,
                "this board has no S and no Sstc",
            ),
            (0, 0, Flags::NONE, Csr::MSTATUS, 2, "this board has no S"),
            (
                0,
                0x888,
                Flags::NONE,
                Csr::MSTATUS,
                0x800,
                "this board has no S",
            ),
            (0, 0x888, Flags::NONE, Csr::MIE, 2, "this board has no S"),
            (
                0,
                0,
                Flags::NONE,
                Csr::MIE,
                8,
                "interrupt 3 (msi) isn't in this board's interrupts",
            ),
            (
                misa::S,
                0xAAA,
                Flags::NONE,
                Csr::MIDELEG,
                0x2222,
                "interrupt 13 (lcofi) isn't in this board's interrupts",
            ),
            (
                0,
                0,
                Flags::NONE,
                Csr::MSTATUS,
                0x2000,
                "this board has neither F nor S",
            ),
            (
                0,
                0,
                Flags::NONE,
                Csr::MSTATUS,
                0x200,
                "this board has neither V nor S",
            ),
            (
                misa::S,
                0x222,
                Flags::ZFINX,
                Csr::MSTATUS,
                0x2000,
                "this board has Zfinx",
            ),
            (
                0,
                0,
                Flags::ZFINX,
                Csr::MSTATUS,
                0x2000,
                "this takes a board that has F and no Zfinx, or S and no Zfinx",
            ),
            (0, 0, Flags::NONE, Csr::MEPC, 2, "this board has no C"),
        ] {
            let said = told(letters, interrupts, flags, csr, value);
            assert_eq!(said.as_deref(), Some(text), "{csr} {value:#x}");
        }
    }

    #[test]
    fn nothing_is_told_of_what_no_board_keeps() {
        assert_eq!(told(0, 0, Flags::NONE, Csr::MSTATUS, 1), None);
        assert_eq!(told(misa::C, 0, Flags::NONE, Csr::MEPC, 1), None);
    }
}
