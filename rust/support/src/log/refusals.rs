//! What the library refuses of a file, by its numbers.

use vhart::Refusal;

use crate::json::Json;
use crate::outcome::Line;

/// The refusals of a run, by number.
#[derive(Debug, Default, PartialEq)]
pub struct Refusals(Vec<Refused>);

/// The entries that were refused for the same reason.
#[derive(Debug, PartialEq)]
struct Refused {
    why: Refusal,
    count: u64,
    /// The place of the first of them.
    first: u64,
}

impl Refusals {
    pub fn note(&mut self, place: u64, why: Refusal) {
        match self.0.iter_mut().find(|refused| refused.why == why) {
            Some(refused) => refused.count += 1,
            None => {
                self.0.push(Refused {
                    why,
                    count: 1,
                    first: place,
                });
                self.0.sort_by_key(|refused| refused.why.number());
            }
        }
    }

    pub fn count(&self) -> u64 {
        self.0.iter().map(|refused| refused.count).sum()
    }

    /// How many there are, and below it those of each number, with the first place, which is called
    /// so.
    pub fn lines(&self, noun: &str) -> Vec<Line> {
        let mut lines = Line::count("refused", self.count(), "", "");
        for Refused { why, count, first } in &self.0 {
            let (about, fact) = named(*why);
            let words = format!("{fact}; first at {noun} {first}");
            lines.extend(Line::count(&about, *count, "", &words));
        }
        lines
    }

    pub fn json(&self) -> Json {
        let refused = self.0.iter().map(|Refused { why, count, first }| {
            Json::Object(vec![
                ("refusal", why.number().map_or(Json::Null, Json::Number)),
                ("count", Json::Number(*count)),
                ("first", Json::Number(*first)),
            ])
        });
        Json::List(refused.collect())
    }
}

/// A refusal's number, and what was wrong. What a monitor is to do about it isn't asked here.
pub fn named(why: Refusal) -> (String, String) {
    let text = why.to_string();
    let fact = text.split(';').next().unwrap_or_default();
    let (about, fact) = fact.split_once(": ").unwrap_or(("refused", fact));
    (about.into(), fact.into())
}

#[cfg(test)]
mod tests {
    use vhart::Refusal;

    use super::{named, Refusals};
    use crate::json::Json;

    #[test]
    fn each_number_has_its_count_and_its_first_place() {
        let mut refusals = Refusals::default();
        for (place, why) in [
            (2, Refusal::BadInterrupt),
            (3, Refusal::NoSuchCsr),
            (9, Refusal::BadInterrupt),
        ] {
            refusals.note(place, why);
        }
        assert_eq!(refusals.count(), 3);
        let lines = refusals.lines("entry").into_iter();
        let lines: Vec<_> = lines.map(|line| line.about + &line.text).collect();
        assert_eq!(
            lines,
            [
                "refused               3",
                "refusal 3             1         no CSR has this address; first at entry 3",
                "refusal 8             2         no interrupt of this hart; first at entry 2",
            ]
        );
        let refused = |refusal, count, first| {
            let fields = [("refusal", refusal), ("count", count), ("first", first)];
            Json::Object(fields.map(|(key, n)| (key, Json::Number(n))).into())
        };
        let all = vec![refused(3, 1, 3), refused(8, 2, 2)];
        assert_eq!(refusals.json(), Json::List(all));
    }

    #[test]
    fn a_refusal_is_told_without_what_to_do() {
        let (about, fact) = named(Refusal::NoSuchCsr);
        assert_eq!([about, fact], ["refusal 3", "no CSR has this address"]);
        let (about, _) = named(Refusal::NotAligned);
        assert_eq!(about, "refused by the binding");
    }
}
