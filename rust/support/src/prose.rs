//! Prose: lists, sentences, and lines that aren't too wide.

/// The widest line.
pub const COLUMNS: usize = 100;

/// The lines of a text, broken at spaces. One word alone may be wider.
pub fn wrapped(text: &str, width: usize) -> Vec<String> {
    let mut lines = Vec::new();
    let mut line = String::new();
    for word in text.split(' ') {
        if !line.is_empty() && line.chars().count() + 1 + word.chars().count() > width {
            lines.push(line);
            line = String::new();
        }
        if !line.is_empty() {
            line += " ";
        }
        line += word;
    }
    lines.push(line);
    lines
}

/// Texts with commas between, and before the last one a word: `a, b or c`.
pub fn listed(texts: &[String], last: &str) -> String {
    match texts {
        [] => String::new(),
        [only] => only.clone(),
        [first @ .., end] => format!("{} {last} {end}", first.join(", ")),
    }
}

/// Which of what a command takes is missing.
pub fn not_given(names: &[&str]) -> String {
    let verb = match names.len() {
        1 => "isn't",
        _ => "aren't",
    };
    let names: Vec<_> = names.iter().map(|name| name.to_string()).collect();
    format!("{} {verb} given", listed(&names, "and"))
}

/// A number of things, which are named as one of them is.
pub fn counted(count: u64, name: &str) -> String {
    match (count, name.strip_suffix('y')) {
        (1, _) => format!("1 {name}"),
        (_, Some(name)) => format!("{count} {name}ies"),
        (_, None) => format!("{count} {name}s"),
    }
}

/// The text with a capital at its start.
pub fn capital(text: &str) -> String {
    let mut letters = text.chars();
    let first = letters.next().map(|first| first.to_ascii_uppercase());
    first.into_iter().chain(letters).collect()
}

#[cfg(test)]
mod tests {
    use super::{capital, counted, listed, not_given, wrapped};

    #[test]
    fn a_text_is_broken_at_spaces() {
        assert_eq!(wrapped("", 5), [""]);
        assert_eq!(wrapped("ab cd", 5), ["ab cd"]);
        assert_eq!(wrapped("ab cd e", 5), ["ab cd", "e"]);
        assert_eq!(wrapped("ab longer é", 5), ["ab", "longer", "é"]);
        assert_eq!(wrapped("éé éé", 5), ["éé éé"]);
    }

    #[test]
    fn a_list_has_a_word_before_its_end() {
        let list = |texts: &[&str]| {
            let texts: Vec<_> = texts.iter().map(|text| text.to_string()).collect();
            listed(&texts, "or")
        };
        assert_eq!(list(&[]), "");
        assert_eq!(list(&["a"]), "a");
        assert_eq!(list(&["a", "b"]), "a or b");
        assert_eq!(list(&["a", "b", "c"]), "a, b or c");
    }

    #[test]
    fn what_is_missing_is_named() {
        assert_eq!(not_given(&["A"]), "A isn't given");
        assert_eq!(not_given(&["A", "B", "C"]), "A, B and C aren't given");
    }

    #[test]
    fn things_are_one_or_several() {
        let counted = [0, 1, 2].map(|count| counted(count, "bit"));
        assert_eq!(counted, ["0 bits", "1 bit", "2 bits"]);
        let counted = [1, 2].map(|count| super::counted(count, "entry"));
        assert_eq!(counted, ["1 entry", "2 entries"]);
    }

    #[test]
    fn a_sentence_starts_with_a_capital() {
        assert_eq!([capital(""), capital("this S")], ["", "This S"]);
    }
}
