//! What is told of a write: the value, what is stored, and each lost bit with the reason.

use vhart::{Reason, Refusal};

use super::case::{bit_of, mask, Case, Stored};
use super::why;
use crate::fields;
use crate::json::Json;
use crate::outcome::{Line, Report};
use crate::prose::counted;

/// A lost bit.
struct Bit {
    number: u8,
    field: Option<fields::Field>,
    written: u64,
    stored: u64,
    reason: Reason,
    why: String,
}

pub fn report(case: &Case) -> Result<Report, Refusal> {
    let stored = case.stored()?;
    let bits = stored.lost.iter().map(|(number, reason)| Bit {
        number,
        field: fields::at(case.csr, number.into()),
        written: u64::from(case.value & bit_of(number) != 0),
        stored: u64::from(stored.word & bit_of(number) != 0),
        reason,
        why: why::sentence(case, &stored, number, reason),
    });
    let bits: Vec<_> = bits.collect();
    let mut lines = words(case, &stored);
    for (place, bit) in bits.iter().enumerate() {
        lines.extend(bit.line(stored.is_read_only));
        // Bits that follow one another have their sentences in common.
        let is_same = |next: &Bit| next.reason == bit.reason && next.why == bit.why;
        if !bits.get(place + 1).is_some_and(is_same) {
            lines.extend(Line::prose(&format!(
                "reason {}: {}",
                bit.reason.number(),
                bit.why
            )));
        }
    }
    let fields = vec![
        ("register", Json::Text(case.csr.to_string())),
        ("address", Json::word(case.csr.0)),
        ("value", Json::word(case.value)),
        ("stored", Json::word(stored.word)),
        ("lost", Json::List(bits.iter().map(Bit::json).collect())),
    ];
    Ok(Report { lines, fields })
}

/// The register, the value and what came of it.
fn words(case: &Case, stored: &Stored) -> Vec<Line> {
    let csr = case.csr;
    let lost = mask(&stored.lost);
    let count = match stored.lost.len() {
        0 => "nothing".into(),
        count => counted(count as u64, "bit"),
    };
    let label = match stored.is_read_only {
        true => "reads",
        false => "stored",
    };
    let mut words = vec![
        ("register", csr.0, csr.to_string()),
        ("value", case.value, fields::in_words(csr, case.value)),
        (label, stored.word, fields::in_words(csr, stored.word)),
        ("lost", lost, count),
    ];
    let outside = (case.value ^ stored.word) & !lost;
    if outside != 0 {
        let text = format!("not bits of {csr}: a write to it leaves these as they are");
        words.push(("outside", outside, text));
    } else if stored.read == !stored.word {
        words.push(("reads", stored.read, "all bits inverted, as always".into()));
    }
    let lines = words.iter();
    lines
        .flat_map(|(label, word, text)| Line::number(label, *word, text))
        .collect()
}

impl Bit {
    fn line(&self, is_read_only: bool) -> Vec<Line> {
        let field = self.field.as_ref();
        let field = field.map_or("no field".into(), |field| field.place());
        let about = format!("bit {}", self.number);
        let then = match is_read_only {
            true => "read",
            false => "stored",
        };
        let text = format!("{} written, {} {then}", self.written, self.stored);
        Line::columns(&about, &field, &text)
    }

    fn json(&self) -> Json {
        let field = self.field.as_ref();
        Json::Object(vec![
            ("bit", Json::Number(self.number.into())),
            (
                "field",
                field.map_or(Json::Null, |field| Json::Text(field.name.clone())),
            ),
            ("written", Json::Number(self.written)),
            ("stored", Json::Number(self.stored)),
            ("reason", Json::Number(self.reason.number())),
            ("why", Json::Text(self.why.clone())),
        ])
    }
}
