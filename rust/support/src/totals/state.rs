//! The state file: the totals of a month, as text. It is read to the byte, so that a file that was
//! cut or changed isn't counted on.

use std::ffi::OsStr;
use std::str;

use vhart::Totals;

use crate::arguments::shown;
use crate::file;
use crate::outcome::Stop;
use crate::prose::counted;

/// The first line, before the version, which is 1.
const NAME: &str = "vhart totals, version ";

/// So much of a wrong line is told.
const TOLD: usize = 60;

/// The totals of a file.
pub fn load(name: &OsStr) -> Result<Totals, Stop> {
    read(name, &file::read(name)?)
}

/// The same, or nothing if there is no such file.
pub fn load_if_there(name: &OsStr) -> Result<Option<Totals>, Stop> {
    let bytes = file::read_if_there(name)?;
    bytes.map(|bytes| read(name, &bytes)).transpose()
}

/// Replaces the totals that were loaded, if no other run has done so since.
pub fn save(name: &OsStr, before: Option<Totals>, totals: &Totals) -> Result<(), Stop> {
    if load_if_there(name)? != before {
        let text = "another run has changed it meanwhile, so nothing is counted; run this again";
        return Err(Stop::refused(name, None, text.into()));
    }
    file::replace(name, text(totals).as_bytes())
}

fn read(name: &OsStr, bytes: &[u8]) -> Result<Totals, Stop> {
    let refused = |why| Stop::refused(name, None, format!("not a file of totals: {why}"));
    parse(bytes).map_err(refused)
}

fn text(totals: &Totals) -> String {
    let lost = totals.lost.map(|count| count.to_string()).join(" ");
    format!(
        "{NAME}1\nlost {lost}\nwrites {}\nlossless {}\n",
        totals.writes, totals.lossless
    )
}

/// The totals of which `text` makes these bytes, and no others.
fn parse(bytes: &[u8]) -> Result<Totals, String> {
    let text = str::from_utf8(bytes).map_err(|_| "it isn't text in UTF-8")?;
    let mut lines = text.split_inclusive('\n');
    let mut next = || lines.next().unwrap_or_default();
    let first = next();
    match (
        first.strip_prefix(NAME),
        first.trim_end().strip_prefix(NAME),
    ) {
        (Some("1\n"), _) => {}
        (_, None | Some("1")) => return Err(wrong(1, &format!("{NAME}1"), first)),
        (_, Some(other)) => {
            let other = told(other);
            return Err(format!(
                "its version is {other}, and version 1 alone is known"
            ));
        }
    }
    let lost = numbers(2, "lost", next())?;
    let [writes] = numbers(3, "writes", next())?;
    let [lossless] = numbers(4, "lossless", next())?;
    match next() {
        "" => Ok(Totals {
            lost,
            writes,
            lossless,
        }),
        more => Err(format!(
            "behind line 4 there is more: {}",
            told(more.trim_end())
        )),
    }
}

/// The numbers behind a name, as many as are wanted, which end the line.
fn numbers<const N: usize>(place: u64, name: &str, line: &str) -> Result<[u32; N], String> {
    let all = || {
        let numbers = line.strip_prefix(name)?.strip_prefix(' ')?;
        let numbers = numbers.strip_suffix('\n')?.split(' ').map(number);
        let numbers: Vec<_> = numbers.collect::<Option<_>>()?;
        <[u32; N]>::try_from(numbers).ok()
    };
    all().ok_or_else(|| {
        let what = counted(N as u64, "number");
        wrong(
            place,
            &format!("{name} and {what} up to {}", u32::MAX),
            line,
        )
    })
}

/// What a line must be, and what it is.
fn wrong(place: u64, must: &str, line: &str) -> String {
    let is = match line.strip_suffix('\n') {
        Some(line) => format!("is {}", told(line)),
        None if line.is_empty() => "isn't there".into(),
        None => format!("is cut: {}", told(line)),
    };
    format!("line {place} must be {must}, but {is}")
}

/// A number as it is printed, without a sign or zeros before it.
fn number(text: &str) -> Option<u32> {
    let number: u32 = text.parse().ok()?;
    (number.to_string() == text).then_some(number)
}

/// A line as messages show it, if it is long the start of it.
fn told(line: &str) -> String {
    let line = shown(line);
    match line.char_indices().nth(TOLD) {
        Some((end, _)) => format!("{}..", &line[..end]),
        None => line,
    }
}

#[cfg(test)]
mod tests {
    use vhart::Totals;

    use super::{parse, text};

    const MOST: Totals = Totals {
        lost: [u32::MAX; 7],
        writes: u32::MAX,
        lossless: u32::MAX,
    };

    const SOME: Totals = Totals {
        lost: [0, 0, 2, 0, 1, 0, 10],
        writes: 3,
        lossless: 1,
    };

    #[test]
    fn totals_are_read_as_they_are_written() {
        for totals in [Totals::default(), SOME, MOST] {
            assert_eq!(parse(text(&totals).as_bytes()), Ok(totals));
        }
        assert_eq!(
            text(&SOME),
            "vhart totals, version 1\nlost 0 0 2 0 1 0 10\nwrites 3\nlossless 1\n"
        );
    }

    /// Whatever is read is what would be written, byte for byte.
    #[test]
    fn a_file_that_is_cut_or_changed_is_refused() {
        let whole = text(&SOME).into_bytes();
        for end in 0..whole.len() {
            assert!(parse(&whole[..end]).is_err(), "{end}");
        }
        for place in 0..whole.len() {
            for byte in 0..=255 {
                let mut bytes = whole.clone();
                bytes[place] = byte;
                if let Ok(totals) = parse(&bytes) {
                    assert_eq!(text(&totals).into_bytes(), bytes);
                }
            }
        }
    }

    #[test]
    fn what_is_wrong_is_told() {
        let whole = text(&SOME);
        let seven = "line 2 must be lost and 7 numbers up to 4294967295, but";
        for (from, to, why) in [
            (
                "vhart totals",
                "vhart",
                "line 1 must be vhart totals, version 1, but is vhart, version 1",
            ),
            (
                "1\nlost",
                "1\r\nlost",
                "line 1 must be vhart totals, version 1, but is vhart totals, version 1\\r",
            ),
            (
                "version 1",
                "version 2",
                "its version is 2, and version 1 alone is known",
            ),
            (
                "version 1",
                "version 10",
                "its version is 10, and version 1 alone is known",
            ),
            ("0 0 2", "0 2", &format!("{seven} is lost 0 2 0 1 0 10")),
            (
                "0 0 2",
                "0 0 0 2",
                &format!("{seven} is lost 0 0 0 2 0 1 0 10"),
            ),
            (
                "0 0 2",
                "0 0  2",
                &format!("{seven} is lost 0 0  2 0 1 0 10"),
            ),
            (
                "0 0 2",
                "0 +0 2",
                &format!("{seven} is lost 0 +0 2 0 1 0 10"),
            ),
            (
                "lost ",
                "lostX ",
                &format!("{seven} is lostX 0 0 2 0 1 0 10"),
            ),
            (
                "writes 3\n",
                "",
                "line 3 must be writes and 1 number up to 4294967295, but is lossless 1",
            ),
            (
                "writes 3",
                "writes 4294967296",
                "line 3 must be writes and 1 number up to 4294967295, but is writes 4294967296",
            ),
            (
                "lossless 1\n",
                "",
                "line 4 must be lossless and 1 number up to 4294967295, but isn't there",
            ),
            (
                "lossless 1\n",
                "lossless 1",
                "line 4 must be lossless and 1 number up to 4294967295, but is cut: lossless 1",
            ),
            (
                "lossless 1\n",
                "lossless 1\nmore\n",
                "behind line 4 there is more: more",
            ),
            (
                "lossless 1\n",
                "lossless 1\n\n",
                "behind line 4 there is more: ''",
            ),
        ] {
            let changed = whole.replace(from, to);
            assert_eq!(parse(changed.as_bytes()), Err(why.into()));
        }
        assert_eq!(parse(b"\xff"), Err("it isn't text in UTF-8".into()));
        let long = "x".repeat(1000);
        let told = parse(long.as_bytes()).unwrap_err();
        assert!(told.ends_with("xx..") && told.len() < 200, "{told}");
    }
}
