//! What is measured: each entry, the pending question again by what the record holds, the plain
//! entries, and explain and tally.
use peers::image::{hart, HartWords};
use peers::interface::Entry;
use peers::whole;

/// A row of the table: an entry, on records of some kinds.
#[derive(Clone, Copy)]
pub struct Subject {
    pub name: &'static str,
    pub entry: Entry,
    /// Whether all its boards have S.
    pub needs_s: bool,
    /// The kinds of its records, in turn.
    pub kinds: &'static [Kind],
    pub way: Way,
}

/// What is done with its calls: those that are explained or tallied are writes, which aren't made.
#[derive(Clone, Copy)]
pub enum Way {
    Made,
    Explained,
    Tallied,
}

/// Whether a record is of the kind.
pub type Kind = fn(&HartWords) -> bool;

/// Every entry but the plain ones.
pub fn entries() -> [Subject; Entry::FAST.len()] {
    Entry::FAST.map(on_records)
}

/// The plain ones, for information: on the calls that a read and a write have.
pub fn plain() -> [Subject; Entry::PLAIN.len()] {
    Entry::PLAIN.map(on_records)
}

/// An entry: the pending question on records of each kind, the others on any.
fn on_records(entry: Entry) -> Subject {
    Subject {
        name: entry.name(),
        entry,
        needs_s: entry == Entry::Sret,
        kinds: match entry {
            // the first boards have no S, and so nothing to delegate
            Entry::Pending => &[held, none, delegated, one, several],
            _ => &[any],
        },
        way: Way::Made,
    }
}

/// Explain and tally, for information: of the calls that a write has.
pub fn explaining() -> [Subject; 2] {
    [("explain", Way::Explained), ("tally", Way::Tallied)].map(|(name, way)| Subject {
        name,
        way,
        ..on_records(Entry::Write)
    })
}

/// The pending question by what it has to look at.
pub const PENDING: [Subject; 5] = [
    pending("pending_held", &[held]),
    pending("pending_none", &[none]),
    Subject {
        needs_s: true,
        ..pending("pending_delegated", &[delegated])
    },
    pending("pending_one", &[one]),
    pending("pending_several", &[several]),
];

const fn pending(name: &'static str, kinds: &'static [Kind]) -> Subject {
    Subject {
        name,
        entry: Entry::Pending,
        needs_s: false,
        kinds,
        way: Way::Made,
    }
}

fn any(_: &HartWords) -> bool {
    true
}

/// Interrupts are held back.
fn held(words: &HartWords) -> bool {
    whole::ready(words).is_none()
}

/// No interrupt is both enabled and pending.
fn none(words: &HartWords) -> bool {
    whole::ready(words) == Some(0) && enabled_and_pending(words) == 0
}

/// Some are, and each of these is delegated.
fn delegated(words: &HartWords) -> bool {
    whole::ready(words) == Some(0) && enabled_and_pending(words) != 0
}

/// One may be taken.
fn one(words: &HartWords) -> bool {
    whole::ready(words).is_some_and(u64::is_power_of_two)
}

/// Several may be taken.
fn several(words: &HartWords) -> bool {
    whole::ready(words).is_some_and(|ready| ready.count_ones() > 1)
}

fn enabled_and_pending(words: &HartWords) -> u64 {
    words[hart::MIE] & words[hart::MIP]
}

fn rows() -> impl Iterator<Item = Subject> {
    entries().into_iter().chain(PENDING).chain(plain())
}

/// The rows' names, a line each.
pub fn names() -> String {
    rows().map(|row| format!("{}\n", row.name)).collect()
}

/// The row of this name, or explain or tally.
pub fn find(name: &str) -> Result<Subject, String> {
    let one = rows().chain(explaining()).find(|row| row.name == name);
    one.ok_or_else(|| format!("there is no row `{name}`; --rows shows their names"))
}

#[cfg(test)]
mod tests {
    use peers::inputs::{self, Input, Rng};
    use peers::interface::{Entry, ARGS, WHOLE};

    use super::PENDING;

    /// The cases that are answered with a number.
    const ANSWERED: [&str; 2] = ["pending_one", "pending_several"];

    #[test]
    fn a_record_is_of_one_case() {
        let mut rng = Rng::new(0);
        let mut found = [0; PENDING.len()];
        for n in 0..1000 {
            let caps = inputs::legal_caps(&mut rng, n % 2 == 0);
            let mode = inputs::legal_mode(&mut rng, &caps);
            let hart = inputs::legal_hart(&mut rng, &caps, mode);
            let cases: Vec<usize> = (0..PENDING.len())
                .filter(|&case| (PENDING[case].kinds[0])(&hart))
                .collect();
            let [case] = cases[..] else {
                panic!("a record is of {} cases", cases.len());
            };
            let mut input = Input::new(&caps, &hart, [0; ARGS]);
            let answer = input.call(WHOLE.function(Entry::Pending)).answer;
            assert_eq!(answer != 0, ANSWERED.contains(&PENDING[case].name));
            found[case] += 1;
        }
        assert!(found.iter().all(|&records| records > 0), "{found:?}");
    }
}
