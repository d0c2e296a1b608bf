//! What is told of a log: each entry in words, and at the end what was refused, and the record.

use std::ffi::OsStr;

use vhart::{Effect, Hart, Logged, Refusal};

use crate::fields;
use crate::json::Json;
use crate::log::{self, named, Entry, Made, Refusals};
use crate::outcome::{Line, Report};
use crate::prose::counted;
use crate::record;
use crate::screen::Item;

/// An entry at its place in the log.
pub struct Replayed {
    pub place: u64,
    pub made: Made,
}

impl Replayed {
    /// The call, if the entry is one: that is for the library to say.
    fn call(&self) -> Option<Logged> {
        let Made { entry, came } = self.made;
        entry.call().filter(|_| came != Err(Refusal::BadEntry))
    }

    /// What was read or is written.
    fn value(&self) -> Option<u64> {
        match (self.call()?, self.made.came) {
            (Logged::Read { .. }, Ok(answer)) => Some(answer.value),
            (Logged::Write { value, .. }, _) => Some(value),
            _ => None,
        }
    }

    /// What came of it.
    fn words(&self) -> String {
        let effect = match self.made.came {
            Err(why) => {
                let (about, fact) = named(why);
                return format!("{about}: {fact}");
            }
            Ok(answer) => effect_in_words(answer.effect).map(|effect| format!("effect: {effect}")),
        };
        let csr = self.call().and_then(log::register);
        let fields = csr.zip(self.value());
        let fields = fields.map(|(csr, value)| fields::in_words(csr, value));
        let words = fields.into_iter().chain(effect);
        let words: Vec<_> = words.filter(|words| !words.is_empty()).collect();
        words.join("; ")
    }
}

impl Item for Replayed {
    fn line(&self) -> Line {
        let call = match self.call() {
            Some(call) => {
                let value = self.value().map(|value| format!("{value:#x}"));
                let call = log::in_words(call);
                format!("{call:<20}  {}", value.unwrap_or_default())
            }
            None => {
                let Entry([kind, first, second]) = self.made.entry;
                format!("{kind:#x} {first:#x} {second:#x}")
            }
        };
        let text = format!("{call:<40}  {}", self.words());
        Line::new(&self.place.to_string(), &text)
    }

    fn json(&self) -> Json {
        let Made { entry, came } = self.made;
        let call = self.call();
        let text = |text: Option<String>| text.map_or(Json::Null, Json::Text);
        let answer = match (call, came) {
            (Some(Logged::Read { .. }), Ok(answer)) => Json::word(answer.value),
            _ => Json::Null,
        };
        let effect = came.ok().and_then(|answer| effect_in_words(answer.effect));
        let refusal = came.err().and_then(Refusal::number);
        Json::Object(vec![
            ("entry", Json::Number(self.place)),
            ("words", Json::List(entry.0.map(Json::word).into())),
            ("call", text(call.map(|call| log::verb(call).into()))),
            (
                "register",
                text(call.and_then(log::register).map(|csr| csr.to_string())),
            ),
            ("answer", answer),
            ("effect", text(effect)),
            ("refusal", refusal.map_or(Json::Null, Json::Number)),
        ])
    }
}

/// What the host is asked to do, if anything.
fn effect_in_words(effect: Effect) -> Option<String> {
    match effect {
        Effect::None => None,
        Effect::SetSeip => Some("set SEIP".into()),
        Effect::ClearSeip => Some("clear SEIP".into()),
        other => Some(format!("{other:?}")),
    }
}

/// A log that has ended.
pub struct Whole<'a> {
    pub log: &'a OsStr,
    pub entries: u64,
    pub refused: &'a Refusals,
    /// How many bytes there are of an entry that isn't whole.
    pub waiting: u64,
    /// The record at the end.
    pub hart: &'a Hart,
    pub fresh: &'a Hart,
}

impl Whole<'_> {
    /// What was refused, and the record, which is in a file if it was saved.
    pub fn report(&self, saved: Option<&OsStr>) -> Report {
        let done = self.entries - self.refused.count();
        let record = match saved {
            Some(saved) => record::report(saved, "written", self.hart, self.fresh),
            None => record::said(self.hart, self.fresh),
        };
        let mut lines = vec![Line::head(
            self.log,
            &format!("replayed, {}", counted(self.entries, "entry")),
        )];
        lines.extend(Line::count("done", done, "", ""));
        lines.extend(self.refused.lines("entry"));
        if self.waiting > 0 {
            let bytes = match self.waiting {
                1 => "byte",
                _ => "bytes",
            };
            let words = format!("{bytes} of entry {}, which isn't whole", self.entries + 1);
            lines.extend(Line::count("waiting", self.waiting, "", &words));
        }
        if saved.is_none() {
            lines.push(Line::head(OsStr::new("record"), "at the end"));
        }
        lines.extend(record.lines);
        let fields = vec![
            ("entries", Json::Number(self.entries)),
            ("done", Json::Number(done)),
            ("refused", self.refused.json()),
            ("waiting", Json::Number(self.waiting)),
            ("record", Json::Object(record.fields)),
        ];
        Report { lines, fields }
    }
}

#[cfg(test)]
mod tests {
    use vhart::{Answer, Effect, Refusal};

    use super::{Item, Replayed};
    use crate::log::{Entry, Made};

    fn replayed(words: [u64; 3], came: Result<(u64, Effect), Refusal>) -> Replayed {
        let came = came.map(|(value, effect)| Answer { value, effect });
        let entry = Entry(words);
        Replayed {
            place: 12,
            made: Made { entry, came },
        }
    }

    #[test]
    fn each_entry_is_told_in_words_and_as_an_object() {
        let done = Ok((0, Effect::None));
        for (entry, line, json) in [
            (
                replayed([0, 0x300, 0], Ok((0x1808, Effect::None))),
                "read mstatus          0x1808              MIE MPP=3",
                r#"["0x0","0x300","0x0"],"call":"read","register":"mstatus","answer":"0x1808","effect":null,"refusal":null"#,
            ),
            (
                replayed([1, 0x344, 0x222], Ok((0, Effect::SetSeip))),
                "write mip             0x222               SSIP STIP SEIP; effect: set SEIP",
                r#"["0x1","0x344","0x222"],"call":"write","register":"mip","answer":null,"effect":"set SEIP","refusal":null"#,
            ),
            (
                replayed([1, 0x344, 0], Ok((0, Effect::ClearSeip))),
                "write mip             0x0                 effect: clear SEIP",
                r#"["0x1","0x344","0x0"],"call":"write","register":"mip","answer":null,"effect":"clear SEIP","refusal":null"#,
            ),
            (
                replayed([1, 0x14D, 5], Err(Refusal::CsrAbsent)),
                "write stimecmp        0x5                 refusal 4: this hart lacks the CSR, for want of S or Sstc",
                r#"["0x1","0x14d","0x5"],"call":"write","register":"stimecmp","answer":null,"effect":null,"refusal":4"#,
            ),
            (
                replayed([2, 7, 0], done),
                "inject 7",
                r#"["0x2","0x7","0x0"],"call":"inject","register":null,"answer":null,"effect":null,"refusal":null"#,
            ),
            (
                replayed([4, 0, 0], Err(Refusal::NoSupervisor)),
                "sret                                      refusal 7: sret without S",
                r#"["0x4","0x0","0x0"],"call":"sret","register":null,"answer":null,"effect":null,"refusal":7"#,
            ),
        ] {
            assert_eq!(entry.line().about + &entry.line().text, format!("12          {line}"));
            assert_eq!(entry.json().to_string(), format!(r#"{{"entry":12,"words":{json}}}"#));
        }
    }

    /// Also where its kind is known: it is the library that says what is valid.
    #[test]
    fn what_is_no_entry_is_told_by_its_words() {
        for words in [[9, 0x300, 0], [3, 0x300, 0]] {
            let entry = replayed(words, Err(Refusal::BadEntry));
            let told = format!("  {:#x} 0x300 0x0{:29}refusal 17: ", words[0], "");
            assert!(entry.line().text.starts_with(&told), "{:?}", entry.line());
            assert!(entry
                .json()
                .to_string()
                .contains(r#""call":null,"register":null"#));
        }
    }
}
