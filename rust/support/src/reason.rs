//! The reasons in a few words, under which docs/WHY.md explains them.

use vhart::Reason;

/// All of them, in the order of their numbers.
pub fn all() -> impl Iterator<Item = Reason> {
    (1..).map_while(Reason::from_number)
}

pub fn words(reason: Reason) -> String {
    let words = match reason {
        Reason::ReadOnly => "a write to the register stores nothing",
        Reason::NeverCopied => "no hart takes the bit from a value",
        Reason::OtherExtensions => "a board with other extensions or interrupts would store it",
        Reason::Reserved => "the value of the field is reserved",
        Reason::Forced => "the field is derived or forced",
        Reason::Ignored => "the whole write is ignored",
        Reason::Driven => "stimecmp drives the bit",
        _ => return reason.to_string(),
    };
    words.into()
}

#[cfg(test)]
mod tests {
    use super::{all, words};
    use crate::explain::EXPLAIN;

    #[test]
    fn they_are_the_words_of_the_help_and_of_the_document() {
        let document = include_str!("../../../docs/WHY.md");
        for reason in all() {
            let (number, words) = (reason.number(), words(reason));
            assert!(EXPLAIN.help.contains(&format!("\n  {number}  {words}\n")));
            assert!(document.contains(&format!("\n### {number}: {words}\n")));
        }
        assert_eq!(all().count(), 7);
    }
}
