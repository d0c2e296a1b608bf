//! Runs the shared cases (tests/cases.txt, whose head says the format) over the binding.
//!
//! Each goes through `slices`, and where both images have their sizes also through a `Caps` and a
//! `Hart`, the latter as a view, or through `Settings`. A line that is neither 0 nor 1 can't be
//! handed to the binding: such calls are left out. Waiting bytes that aren't 24 go through `slices`
//! alone.

use std::collections::HashMap;
use std::fs;
use std::ops::Range;

use vhart::{
    slices, Answer, Caps, CapsWord, CapsWords, Csr, Effect, Fault, FaultWord, Hart, Host, Imm,
    Lost, Rd, Reason, Refusal, Rs1, Settings, Totals, TrapInfo, Wait, Word, CAPS_BYTES, HART_BYTES,
    SETTINGS_BYTES, WAIT_BYTES, X,
};

const CASES: &str = concat!(env!("CARGO_MANIFEST_DIR"), "/../../tests/cases.txt");

/// The bytes of `any`, and those behind an image that is made longer.
const FILLER: u8 = 0xA5;

const REFUSALS: [Refusal; 19] = [
    Refusal::BadCaps,
    Refusal::BadHart,
    Refusal::NoSuchCsr,
    Refusal::CsrAbsent,
    Refusal::BadOperand,
    Refusal::NotMachine,
    Refusal::NoSupervisor,
    Refusal::BadInterrupt,
    Refusal::NotException,
    Refusal::BadTrap,
    Refusal::BadStart,
    Refusal::BadLength,
    Refusal::BadMark,
    Refusal::UnknownVersion,
    Refusal::BadLine,
    Refusal::TotalFull,
    Refusal::BadEntry,
    Refusal::EntryWaits,
    Refusal::ShortBuffer,
];

/// What a call gives.
#[derive(Debug, PartialEq, Eq)]
enum Outcome {
    Done(Answer),
    Refused(Refusal),
    Legal,
    Fault(Refusal, FaultWord, u64),
    Words(CapsWords),
    Lost(Vec<(u8, Reason)>),
    Totals(Totals),
    Replayed {
        entries: u64,
        wait: Vec<u8>,
        out: Vec<u8>,
    },
}

/// One call: an entry, what a call on a log is lent, and the first of its numbers. Those left out
/// are 0.
#[derive(Clone)]
struct Call {
    entry: String,
    runs: Vec<Vec<u8>>,
    numbers: Vec<u64>,
}

/// A number of this name as the binding takes it.
macro_rules! typed {
    (address = $number:expr) => {
        Csr($number)
    };
    (rd = $number:expr) => {
        Rd($number)
    };
    (rs1 = $number:expr) => {
        Rs1($number)
    };
    (imm = $number:expr) => {
        Imm($number)
    };
    (line = $number:expr) => {
        $number == 1
    };
    ($name:ident = $number:expr) => {
        $number
    };
}

macro_rules! callers {
    ($(#[$doc:meta] $access:tt $name:ident $variant:ident $entry:ident(
        $($arg:ident),* $(; $given:ident: $record:ident { $($field:ident),* })?
    );)*) => {
        impl Call {
            /// The names of the numbers that the entry takes, if there is such an entry.
            fn taken(&self) -> Option<&'static [&'static str]> {
                match self.entry.as_str() {
                    $(stringify!($name) => Some(&[$(stringify!($arg),)* $($(stringify!($field),)*)?]),)*
                    "check_caps" | "check_hart" | "settings_read" | "settings_write" | "replay"
                    | "replay_end" => Some(&[]),
                    "explain" => Some(&["address", "value", "time", "seed"]),
                    "tally" => Some(&[
                        "address", "value", "time", "seed", "lost1", "lost2", "lost3", "lost4",
                        "lost5", "lost6", "lost7", "writes", "lossless",
                    ]),
                    _ => None,
                }
            }

            fn by_slices(&self, caps: &[u8], hart: &mut [u8]) -> Outcome {
                let mut numbers = self.numbers.iter().copied();
                match self.entry.as_str() {
                    $(stringify!($name) => {
                        $(let $arg = numbers.next().unwrap_or(0);)*
                        $($(let $field = numbers.next().unwrap_or(0);)*)?
                        slices::$name(caps, hart $(, $arg)* $(, $record { $($field: typed!($field = $field)),* })?).told()
                    })*
                    "check_caps" => slices::check_caps(caps).told(),
                    "check_hart" => slices::check_hart(caps, hart).told(),
                    "settings_read" => slices::settings_read(hart).map(CapsWords::from).told(),
                    "settings_write" => slices::settings_write(caps, hart).told(),
                    "explain" => {
                        let (address, value, host) = self.write_to_explain();
                        slices::explain(caps, hart, address, value, host).told()
                    }
                    "tally" => {
                        let (address, value, host) = self.write_to_explain();
                        self.tallied(|into| slices::tally(caps, hart, address, value, host, into))
                    }
                    "replay" => self.replayed(|wait, fragment, out| {
                        slices::replay(caps, hart, wait, fragment, out)
                    }),
                    "replay_end" => slices::replay_end(caps, hart, &self.runs[0]).told(),
                    entry => unreachable!("{entry} isn't in the list of entries"),
                }
            }

            fn by_methods(&self, caps: &Caps, hart: &mut Hart) -> Outcome {
                let mut numbers = self.numbers.iter().copied();
                match self.entry.as_str() {
                    $(stringify!($name) => {
                        $(let $arg = numbers.next().unwrap_or(0);)*
                        $($(let $field = numbers.next().unwrap_or(0);)*)?
                        hart.$name(caps $(, typed!($arg = $arg))* $(, $record { $($field: typed!($field = $field)),* })?).told()
                    })*
                    "check_caps" => caps.check().told(),
                    "check_hart" => hart.check(caps).told(),
                    "explain" => {
                        let (address, value, host) = self.write_to_explain();
                        hart.explain(caps, Csr(address), value, host).told()
                    }
                    "tally" => {
                        let (address, value, host) = self.write_to_explain();
                        self.tallied(|into| hart.tally(caps, Csr(address), value, host, into))
                    }
                    "replay" => self.replayed(|wait, fragment, out| {
                        let mut typed = wait_of(wait);
                        let came = hart.replay(caps, &mut typed, fragment, out);
                        wait.copy_from_slice(typed.as_bytes());
                        came
                    }),
                    "replay_end" => hart.replay_end(caps, &wait_of(&self.runs[0])).told(),
                    entry => unreachable!("{entry} isn't in the list of entries"),
                }
            }
        }
    };
}

entries::list!([callers]);

impl Call {
    /// The address and the value that explain and tally take, and what the host hands in.
    fn write_to_explain(&self) -> (u64, u64, Host) {
        let number = |n: usize| self.numbers.get(n).copied().unwrap_or(0);
        let (time, seed, line) = (number(2), number(3), false);
        (number(0), number(1), Host { time, seed, line })
    }

    /// What tally gives with the call's totals, which a refusal leaves as they were.
    fn tallied(&self, tally: impl FnOnce(&mut Totals) -> Result<(), Refusal>) -> Outcome {
        let numbers = self.numbers.get(4..).unwrap_or_default();
        let before = totals(numbers).expect("the totals of a call");
        let mut after = before;
        match tally(&mut after) {
            Ok(()) => Outcome::Totals(after),
            Err(refusal) => {
                assert_eq!(after, before);
                Outcome::Refused(refusal)
            }
        }
    }

    /// What replay gives and leaves of the bytes that it is lent, which a refusal leaves as they
    /// were.
    fn replayed(
        &self,
        replay: impl FnOnce(&mut [u8], &[u8], &mut [u8]) -> Result<usize, Refusal>,
    ) -> Outcome {
        let mut runs = self.runs.clone();
        let [wait, fragment, out] = &mut runs[..] else {
            unreachable!("a call of replay has these");
        };
        match replay(wait, fragment, out) {
            Ok(entries) => Outcome::Replayed {
                entries: entries as u64,
                wait: wait.clone(),
                out: out.clone(),
            },
            Err(refusal) => {
                assert_eq!(runs, self.runs);
                Outcome::Refused(refusal)
            }
        }
    }

    /// How many runs of bytes it is lent.
    fn lent(&self) -> usize {
        match self.entry.as_str() {
            "replay" => 3,
            "replay_end" => 1,
            _ => 0,
        }
    }

    /// Whether the methods can make it too: there the waiting bytes have their length.
    fn has_method(&self) -> bool {
        let mut waiting = self.runs.iter().take(1);
        waiting.all(|wait| wait.len() == WAIT_BYTES)
    }

    /// Whether the binding can make it: there the line is a bool.
    fn can_be_made(&self) -> bool {
        let names = self.taken().unwrap_or_default();
        let mut numbers = names.iter().zip(&self.numbers);
        numbers.all(|(&name, &number)| name != "line" || number <= 1)
    }

    /// The call, and where the plain engine has it too, that one.
    fn by_each_engine(self) -> Vec<Call> {
        let plain = Call {
            entry: format!("plain_{}", self.entry),
            ..self.clone()
        };
        match plain.taken() {
            Some(_) => vec![self, plain],
            None => vec![self],
        }
    }

    /// What stands in the second column.
    fn kind(&self) -> Kind {
        match self.entry.as_str() {
            "settings_read" | "settings_write" => Kind::File,
            _ => Kind::Hart,
        }
    }

    /// Reads and writes by `Settings`, which knows no buffer of another length.
    fn by_settings(&self, caps: &Caps, file: &mut [u8]) -> Option<Outcome> {
        if self.entry == "settings_read" {
            let settings = Settings::read(file);
            assert!(settings.iter().all(|settings| settings.file() == file));
            return Some(settings.map(|settings| settings.caps().words()).told());
        }
        if file.len() != SETTINGS_BYTES {
            return None;
        }
        let settings = Settings::of(caps);
        let written = settings.map(|settings| file.copy_from_slice(settings.file()));
        Some(written.told())
    }
}

/// Waiting bytes of their length as the binding has them.
fn wait_of(bytes: &[u8]) -> Wait {
    Wait::from_bytes(bytes.try_into().expect("those of a method"))
}

/// A result of the binding's as an outcome.
trait Told {
    fn told(self) -> Outcome;
}

impl Told for Result<Answer, Refusal> {
    fn told(self) -> Outcome {
        self.map_or_else(Outcome::Refused, Outcome::Done)
    }
}

impl Told for Result<u64, Refusal> {
    fn told(self) -> Outcome {
        let effect = Effect::None;
        self.map(|value| Answer { value, effect }).told()
    }
}

impl Told for Result<Option<u64>, Refusal> {
    fn told(self) -> Outcome {
        assert_ne!(self, Ok(Some(0)));
        self.map(|found| found.unwrap_or(0)).told()
    }
}

impl Told for Result<Effect, Refusal> {
    fn told(self) -> Outcome {
        self.map(|effect| Answer { value: 0, effect }).told()
    }
}

impl Told for Result<(), Refusal> {
    fn told(self) -> Outcome {
        self.map(|()| Effect::None).told()
    }
}

impl Told for Result<CapsWords, Refusal> {
    fn told(self) -> Outcome {
        self.map_or_else(Outcome::Refused, Outcome::Words)
    }
}

impl Told for Result<Lost, Refusal> {
    fn told(self) -> Outcome {
        self.map_or_else(Outcome::Refused, |lost| {
            Outcome::Lost(lost.iter().collect())
        })
    }
}

impl Told for Result<(), Fault> {
    fn told(self) -> Outcome {
        match self {
            Ok(()) => Outcome::Legal,
            Err(fault) => Outcome::Fault(fault.refusal, fault.word, fault.value),
        }
    }
}

/// A fresh record in a record's place.
trait Fresh {
    fn fresh(&mut self, caps: &Caps, pc: u64) -> Result<(), Refusal>;
}

impl Fresh for Hart {
    fn fresh(&mut self, caps: &Caps, pc: u64) -> Result<(), Refusal> {
        *self = Hart::fresh(caps, pc)?;
        Ok(())
    }
}

/// A copy of an image at a multiple of 8, as the feature `aligned` needs it.
struct Lent {
    room: Vec<u8>,
    start: usize,
    length: usize,
}

impl Lent {
    fn new(image: &[u8]) -> Lent {
        let room = vec![0; image.len() + 8];
        let start = room.as_ptr().align_offset(8);
        let length = image.len();
        let mut lent = Lent {
            room,
            start,
            length,
        };
        lent.bytes().copy_from_slice(image);
        lent
    }

    fn bytes(&mut self) -> &mut [u8] {
        &mut self.room[self.start..self.start + self.length]
    }
}

/// One line: what is called on which images, and what must come of it.
struct Case {
    caps: Vec<u8>,
    hart: Vec<u8>,
    calls: Vec<Call>,
    outcome: Outcome,
    after: Vec<u8>,
}

/// Which kind of image is meant, or a settings file.
#[derive(Clone, Copy, PartialEq, Eq, Hash)]
enum Kind {
    Caps,
    Hart,
    File,
}

impl Kind {
    fn size(self) -> usize {
        match self {
            Kind::Caps => CAPS_BYTES,
            Kind::Hart => HART_BYTES,
            Kind::File => SETTINGS_BYTES,
        }
    }

    /// Where the word of this name stands among the image's words.
    fn place(self, name: &str) -> Option<usize> {
        match self {
            Kind::Caps | Kind::File => CapsWord::ALL.iter().position(|word| word.name() == name),
            Kind::Hart => match Word::ALL.iter().find(|w| w.name() == name) {
                Some(word) => Some(*word as usize),
                None => (0..32).find(|n| format!("x{n}") == name),
            },
        }
    }

    /// Where the word of this name stands among the image's bytes, or what stands before the words
    /// of a file.
    fn bytes(self, name: &str) -> Option<Range<usize>> {
        let start = match (self, name) {
            (Kind::File, "mark") => return Some(0..3),
            (Kind::File, "version") => return Some(3..5),
            (Kind::File, "sixth") => return Some(5..6),
            (Kind::File, _) => SETTINGS_BYTES - CAPS_BYTES,
            (Kind::Caps | Kind::Hart, _) => 0,
        };
        let at = start + 8 * self.place(name)?;
        Some(at..at + 8)
    }
}

/// What the file has named so far, and the record or the settings file that the case before left.
#[derive(Default)]
struct Images {
    named: HashMap<(Kind, String), Vec<u8>>,
    last: Option<(Kind, Vec<u8>)>,
    /// What `each` calls.
    each: Vec<Call>,
}

impl Images {
    fn by_name(&self, kind: Kind, name: &str) -> Result<Vec<u8>, String> {
        if let Some(image) = self.named.get(&(kind, name.to_string())) {
            return Ok(image.clone());
        }
        match (name, &self.last) {
            ("zero", _) => Ok(vec![0; kind.size()]),
            ("any", _) => Ok(vec![FILLER; kind.size()]),
            ("last", Some((of, last))) if *of == kind => Ok(last.clone()),
            _ => Err(format!("no such image: {name}")),
        }
    }

    /// Reads an image: the one named first, or else the one given, with the words that differ.
    fn read(&self, kind: Kind, given: Option<&[u8]>, text: &str) -> Result<Vec<u8>, String> {
        let mut tokens = text.split_whitespace().peekable();
        let name = tokens.next_if(|token| !token.contains('='));
        let mut image = match (name, given) {
            (Some(name), _) => self.by_name(kind, name)?,
            (None, Some(given)) => given.to_vec(),
            (None, None) => return Err("no image".to_string()),
        };
        for token in tokens {
            let (word, value) = token
                .split_once('=')
                .ok_or(format!("not word=value: {token}"))?;
            let value = number(value)?;
            if word == "length" {
                let length = usize::try_from(value).map_err(|why| why.to_string())?;
                image.resize(length, FILLER);
                continue;
            }
            let bytes = kind.bytes(word).ok_or(format!("no such word: {word}"))?;
            let value = value.to_le_bytes();
            let (value, rest) = value.split_at(bytes.len());
            if rest.iter().any(|byte| *byte != 0) {
                return Err(format!("too large for {word}"));
            }
            let place = image
                .get_mut(bytes)
                .ok_or(format!("image too short for {word}"))?;
            place.copy_from_slice(value);
        }
        Ok(image)
    }

    /// Reads `each CALL`, or the name of a kind with `NAME = IMAGE`.
    fn define(&mut self, line: &str) -> Result<(), String> {
        if let Some(call) = line.strip_prefix("each ") {
            self.each.push(self::call(call)?);
            return Ok(());
        }
        let (name, image) = line.split_once(" = ").ok_or("not a definition")?;
        let (kind, name) = match name.split_once(' ') {
            Some(("caps", name)) => (Kind::Caps, name),
            Some(("hart", name)) => (Kind::Hart, name),
            Some(("file", name)) => (Kind::File, name),
            _ => return Err("neither caps nor hart nor file".to_string()),
        };
        let image = self.read(kind, None, image)?;
        self.named.insert((kind, name.to_string()), image);
        Ok(())
    }

    /// Reads what a case calls: one entry with its numbers, by each engine that has it, or what
    /// `each` does.
    fn calls(&self, text: &str) -> Result<Vec<Call>, String> {
        let each = self.each.iter();
        match text {
            "each" => Ok(each.cloned().collect()),
            "each-but-fresh" => Ok(each.filter(|call| call.entry != "fresh").cloned().collect()),
            _ => Ok(call(text)?.by_each_engine()),
        }
    }

    fn case(&mut self, line: &str) -> Result<Case, String> {
        let columns: Vec<&str> = line.split('|').map(str::trim).collect();
        let [_, caps, hart, call, outcome, after] = columns[..] else {
            return Err("not six columns".to_string());
        };
        let calls = self.calls(call)?;
        let kind = calls.first().map_or(Kind::Hart, Call::kind);
        let caps = self.read(Kind::Caps, None, caps)?;
        let hart = self.read(kind, None, hart)?;
        let after = match after {
            "same" => hart.clone(),
            _ => self.read(kind, Some(&hart), after)?,
        };
        self.last = Some((kind, after.clone()));
        Ok(Case {
            outcome: match outcome.strip_prefix("words ") {
                Some(image) => self.words(image)?,
                None => self::outcome(outcome, caps.len(), hart.len())?,
            },
            caps,
            hart,
            calls,
            after,
        })
    }

    /// Reads the words of a capability image, which a settings file gives.
    fn words(&self, image: &str) -> Result<Outcome, String> {
        let image = self.read(Kind::Caps, None, image)?;
        let caps = Caps::try_from(&image[..]).map_err(|why| why.to_string())?;
        Ok(Outcome::Words(caps.words()))
    }
}

fn number(text: &str) -> Result<u64, String> {
    let value = match text.strip_prefix("0x") {
        Some(digits) => u64::from_str_radix(digits, 16),
        None => text.parse(),
    };
    value.map_err(|why| format!("not a number: {text}: {why}"))
}

/// Reads bytes: `-` where there are none, else parts, each a word or `b` with hex digits, with `*N`
/// behind it N times.
fn bytes(text: &str) -> Result<Vec<u8>, String> {
    let mut all = Vec::new();
    for part in text.split(',').filter(|part| *part != "-") {
        let (part, times) = match part.split_once('*') {
            Some((part, times)) => (part, number(times)?),
            None => (part, 1),
        };
        let one = match part.strip_prefix('b') {
            Some(digits) => (0..digits.len())
                .step_by(2)
                .map(|at| digits.get(at..at + 2).ok_or("half a byte".to_string()))
                .map(|pair| u8::from_str_radix(pair?, 16).map_err(|why| why.to_string()))
                .collect::<Result<Vec<u8>, String>>()?,
            None => number(part)?.to_le_bytes().to_vec(),
        };
        (0..times).for_each(|_| all.extend(&one));
    }
    Ok(all)
}

/// Reads an entry with what it is lent and its numbers.
fn call(text: &str) -> Result<Call, String> {
    let mut tokens = text.split_whitespace();
    let mut call = Call {
        entry: tokens.next().ok_or("no call")?.to_string(),
        runs: Vec::new(),
        numbers: Vec::new(),
    };
    for _ in 0..call.lent() {
        call.runs.push(bytes(tokens.next().ok_or("no bytes")?)?);
    }
    call.numbers = tokens.map(number).collect::<Result<_, String>>()?;
    match call.taken() {
        None => Err(format!("no such entry: {}", call.entry)),
        Some(taken) if call.numbers.len() > taken.len() => {
            Err(format!("too many numbers: {}", call.entry))
        }
        Some(_) => Ok(call),
    }
}

/// The totals that these numbers are: of reasons 1 to 7, writes, lossless. Those left out are 0.
fn totals(numbers: &[u64]) -> Result<Totals, String> {
    let mut all = [0; 9];
    for (total, number) in all.iter_mut().zip(numbers) {
        *total = u32::try_from(*number).map_err(|_| format!("too large for a total: {number}"))?;
    }
    let [lost @ .., writes, lossless] = all;
    Ok(Totals {
        lost,
        writes,
        lossless,
    })
}

/// Reads what must come of a call on images of these lengths.
fn outcome(text: &str, caps: usize, hart: usize) -> Result<Outcome, String> {
    let tokens: Vec<&str> = text.split_whitespace().collect();
    let (value, effect) = match tokens[..] {
        ["refused", n] => return Ok(Outcome::Refused(refusal(n)?)),
        ["legal"] => return Ok(Outcome::Legal),
        ["lost", ref pairs @ ..] => {
            let pairs = pairs.iter().map(|pair| lost(pair));
            return Ok(Outcome::Lost(pairs.collect::<Result<_, String>>()?));
        }
        ["done", "totals", ref all @ ..] if all.len() == 9 => {
            let all = all.iter().map(|total| number(total));
            return Ok(Outcome::Totals(totals(
                &all.collect::<Result<Vec<u64>, String>>()?,
            )?));
        }
        ["done", entries, "wait", wait, "out", out] => {
            return Ok(Outcome::Replayed {
                entries: number(entries)?,
                wait: bytes(wait)?,
                out: bytes(out)?,
            });
        }
        ["fault", n, word, value] => {
            let word = match n {
                "1" => fault_word(Kind::Caps, word, caps)?,
                _ => fault_word(Kind::Hart, word, hart)?,
            };
            return Ok(Outcome::Fault(refusal(n)?, word, number(value)?));
        }
        ["done", value] => (value, Effect::None),
        ["done", value, "set"] => (value, Effect::SetSeip),
        ["done", value, "clear"] => (value, Effect::ClearSeip),
        _ => return Err(format!("not an outcome: {text}")),
    };
    let value = number(value)?;
    Ok(Outcome::Done(Answer { value, effect }))
}

/// Reads a lost bit with its reason: `BIT:REASON`.
fn lost(text: &str) -> Result<(u8, Reason), String> {
    let (bit, reason) = text.split_once(':').ok_or("not BIT:REASON")?;
    let bit = u8::try_from(number(bit)?).map_err(|why| why.to_string())?;
    let reason = Reason::from_number(number(reason)?).ok_or("no such reason")?;
    Ok((bit, reason))
}

fn refusal(text: &str) -> Result<Refusal, String> {
    let n = number(text)?;
    let why = REFUSALS.into_iter().find(|why| why.number() == Some(n));
    why.ok_or(format!("no such refusal: {n}"))
}

/// The word of this name; the number of the image's words stands for its length.
fn fault_word(kind: Kind, name: &str, length: usize) -> Result<FaultWord, String> {
    match (kind, kind.place(name)) {
        (Kind::Caps | Kind::File, Some(place)) => Ok(FaultWord::Caps(CapsWord::ALL[place])),
        (Kind::Hart, Some(place @ 0..=31)) => Ok(FaultWord::X(X(place as u64))),
        (Kind::Hart, Some(place)) => Ok(FaultWord::Hart(Word::ALL[place - 32])),
        (_, None) if number(name)? == kind.size() as u64 / 8 => Ok(FaultWord::Length(length)),
        (_, None) => Err(format!("no such word: {name}")),
    }
}

impl Case {
    /// Makes one of its calls; what came otherwise.
    fn run(&self, call: &Call) -> Result<(), String> {
        let mut caps = Lent::new(&self.caps);
        let mut hart = Lent::new(&self.hart);
        let came = call.by_slices(caps.bytes(), hart.bytes());
        self.compare("slices", call, &came, hart.bytes())?;
        let mut hart = Lent::new(&self.hart);
        let Ok(caps) = Caps::try_from(&self.caps[..]) else {
            return Ok(());
        };
        if call.kind() == Kind::File {
            if let Some(came) = call.by_settings(&caps, hart.bytes()) {
                self.compare("settings", call, &came, hart.bytes())?;
            }
        } else if let (Ok(hart), true) = (Hart::view_mut(hart.bytes()), call.has_method()) {
            let came = call.by_methods(&caps, hart);
            self.compare("methods", call, &came, hart.as_bytes())?;
        }
        Ok(())
    }

    fn compare(&self, by: &str, call: &Call, came: &Outcome, left: &[u8]) -> Result<(), String> {
        if *came != self.outcome {
            let expected = &self.outcome;
            return Err(format!(
                "{} by {by}: expected {expected:?}, came {came:?}",
                call.entry
            ));
        }
        let entry = &call.entry;
        match left.iter().zip(&self.after).position(|(l, a)| l != a) {
            None => Ok(()),
            Some(byte) if call.kind() == Kind::File => {
                Err(format!("{entry} by {by}: byte {byte} differs"))
            }
            Some(byte) => Err(format!("{entry} by {by}: word {} differs", byte / 8)),
        }
    }
}

#[test]
fn shared_cases() -> Result<(), String> {
    let text = fs::read_to_string(CASES).map_err(|why| format!("{CASES}: {why}"))?;
    let mut images = Images::default();
    let mut cases = 0;
    let mut failed = Vec::new();
    for (i, line) in text.lines().enumerate() {
        let at = |why: String| format!("cases.txt:{}: {why}", i + 1);
        if line.is_empty() || line.starts_with('#') {
            continue;
        }
        if !line.contains('|') {
            images.define(line).map_err(at)?;
            continue;
        }
        let case = images.case(line).map_err(at)?;
        failed.extend(
            case.calls
                .iter()
                .filter(|call| call.can_be_made())
                .filter_map(|call| case.run(call).err())
                .map(at),
        );
        cases += 1;
    }
    println!("{cases} cases, {} calls failed", failed.len());
    assert!(cases > 0 && failed.is_empty(), "{}", failed.join("\n"));
    Ok(())
}
