//! JSON, as much of it as is printed: on one line, the keys in the order given.

use std::ffi::OsStr;
use std::fmt;

#[derive(Clone, Debug, PartialEq)]
pub enum Json {
    Null,
    Text(String),
    /// A small number, such as a refusal's. Words go as text, since readers of JSON round them.
    Number(u64),
    List(Vec<Json>),
    Object(Vec<(&'static str, Json)>),
}

impl Json {
    /// All 64 bits of a word.
    pub fn word(value: u64) -> Json {
        Json::Text(format!("{value:#x}"))
    }

    /// The name of a file, as text.
    pub fn name(name: &OsStr) -> Json {
        Json::Text(name.to_string_lossy().into())
    }

    pub fn texts<T: Into<String>>(texts: impl IntoIterator<Item = T>) -> Json {
        Json::List(
            texts
                .into_iter()
                .map(|text| Json::Text(text.into()))
                .collect(),
        )
    }
}

impl fmt::Display for Json {
    fn fmt(&self, f: &mut fmt::Formatter<'_>) -> fmt::Result {
        match self {
            Json::Null => f.write_str("null"),
            Json::Text(text) => quoted(f, text),
            Json::Number(number) => write!(f, "{number}"),
            Json::List(items) => {
                f.write_str("[")?;
                for (place, item) in items.iter().enumerate() {
                    write!(f, "{}{item}", between(place))?;
                }
                f.write_str("]")
            }
            Json::Object(fields) => {
                f.write_str("{")?;
                for (place, (key, value)) in fields.iter().enumerate() {
                    f.write_str(between(place))?;
                    quoted(f, key)?;
                    write!(f, ":{value}")?;
                }
                f.write_str("}")
            }
        }
    }
}

fn between(place: usize) -> &'static str {
    match place {
        0 => "",
        _ => ",",
    }
}

fn quoted(f: &mut fmt::Formatter<'_>, text: &str) -> fmt::Result {
    f.write_str("\"")?;
    for c in text.chars() {
        match c {
            '"' | '\\' => write!(f, "\\{c}")?,
            c if c.is_control() => write!(f, "\\u{:04x}", u32::from(c))?,
            c => write!(f, "{c}")?,
        }
    }
    f.write_str("\"")
}

#[cfg(test)]
mod tests {
    use super::Json;

    #[test]
    fn it_is_on_one_line_and_escaped() {
        let json = Json::Object(vec![
            ("a", Json::Text("\"\\\n\u{1b}\u{9b}é/".into())),
            ("b", Json::texts(["x", ""])),
            ("c", Json::List(vec![])),
            ("d", Json::word(u64::MAX)),
            (
                "e",
                Json::Object(vec![("f", Json::Null), ("g", Json::Number(12))]),
            ),
        ]);
        assert_eq!(
            json.to_string(),
            "{\"a\":\"\\\"\\\\\\u000a\\u001b\\u009bé/\",\"b\":[\"x\",\"\"],\"c\":[],\
             \"d\":\"0xffffffffffffffff\",\"e\":{\"f\":null,\"g\":12}}"
        );
    }
}
