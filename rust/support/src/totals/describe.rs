//! What is told of totals: the reasons with the most lost bits first, the writes, and what was
//! refused.

use vhart::{Reason, Totals};

use super::entries::Form;
use crate::json::Json;
use crate::log::Refusals;
use crate::outcome::{Line, Report};
use crate::reason;

/// What came to nothing in a run.
pub struct Run<'a> {
    pub refused: &'a Refusals,
    /// Of the file in which it stands.
    pub form: Form,
}

/// The totals below a head, and of a run what it refused.
pub fn report(head: Line, totals: &Totals, run: Option<Run>) -> Report {
    let mut lines = vec![head];
    lines.extend(table(totals));
    if let Some(run) = &run {
        lines.extend(run.refused.lines(run.form.noun()));
    }
    let refused = run.map(|run| run.refused.json());
    let count = |count: u32| Json::Number(count.into());
    let fields = vec![
        ("lost", Json::List(totals.lost.map(count).into())),
        ("writes", count(totals.writes)),
        ("lossless", count(totals.lossless)),
        ("refused", refused.unwrap_or(Json::List(vec![]))),
    ];
    Report { lines, fields }
}

fn table(totals: &Totals) -> Vec<Line> {
    let all = totals.lost.iter().map(|lost| u64::from(*lost)).sum();
    let bits = match all {
        1 => "bit",
        _ => "bits",
    };
    let mut lines = Line::count("lost", all, "", bits);
    for (reason, lost) in by_share(totals) {
        let about = format!("reason {}", reason.number());
        let words = reason::words(reason);
        lines.extend(Line::count(
            &about,
            lost.into(),
            &share(lost.into(), all),
            &words,
        ));
    }
    let (writes, lossless) = (totals.writes.into(), totals.lossless.into());
    let of_writes = share(lossless, writes);
    lines.extend(Line::count("writes", writes, "", ""));
    lines.extend(Line::count(
        "lossless",
        lossless,
        &of_writes,
        "without a lost bit",
    ));
    lines
}

/// The reasons for which bits were lost, those with the most first.
fn by_share(totals: &Totals) -> Vec<(Reason, u32)> {
    let reasons = reason::all().map(|reason| (reason, totals.lost_for(reason)));
    let mut reasons: Vec<_> = reasons.filter(|(_, lost)| *lost > 0).collect();
    // It leaves equal ones in the order of their numbers.
    reasons.sort_by_key(|(_, lost)| u32::MAX - lost);
    reasons
}

/// A part in percent, rounded to one decimal. Of nothing there are no parts.
fn share(part: u64, all: u64) -> String {
    match (part * 2000 + all).checked_div(all * 2) {
        Some(tenths) => format!("{}.{}%", tenths / 10, tenths % 10),
        None => String::new(),
    }
}

#[cfg(test)]
mod tests {
    use vhart::Totals;

    use super::{by_share, share};

    #[test]
    fn shares_are_rounded_to_one_decimal() {
        for (part, all, text) in [
            (0, 0, ""),
            (0, 7, "0.0%"),
            (1, 2001, "0.0%"),
            (1, 2000, "0.1%"),
            (1, 3, "33.3%"),
            (2, 3, "66.7%"),
            (7, 7, "100.0%"),
            (u32::MAX.into(), 7 * u64::from(u32::MAX), "14.3%"),
        ] {
            assert_eq!(share(part, all), text, "{part} of {all}");
        }
    }

    #[test]
    fn the_reason_with_the_most_bits_comes_first() {
        let totals = Totals {
            lost: [2, 0, 5, 2, u32::MAX, 0, 2],
            ..Totals::default()
        };
        let order = by_share(&totals).into_iter();
        let order: Vec<_> = order.map(|(reason, _)| reason.number()).collect();
        assert_eq!(order, [5, 3, 1, 4, 7]);
    }
}
