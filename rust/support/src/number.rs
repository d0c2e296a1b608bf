//! Numbers as people write them: decimal, 0x or 0b, with _ between digits.

use std::fmt;

#[derive(Debug, PartialEq)]
pub enum Wrong {
    NoNumber,
    TooGreat,
}

impl fmt::Display for Wrong {
    fn fmt(&self, f: &mut fmt::Formatter<'_>) -> fmt::Result {
        f.write_str(match self {
            Wrong::NoNumber => "no number; a number is decimal, 0x.. or 0b..",
            Wrong::TooGreat => {
                "the number doesn't fit in 64 bits; the greatest is 0xffff_ffff_ffff_ffff"
            }
        })
    }
}

pub fn parse(text: &str) -> Result<u64, Wrong> {
    let text = text.to_ascii_lowercase();
    let (digits, radix) = match (text.strip_prefix("0x"), text.strip_prefix("0b")) {
        (Some(digits), _) => (digits, 16),
        (_, Some(digits)) => (digits, 2),
        _ => (text.as_str(), 10),
    };
    let digits = digits.replace('_', "");
    if digits.is_empty() || !digits.chars().all(|c| c.is_digit(radix)) {
        return Err(Wrong::NoNumber);
    }
    u64::from_str_radix(&digits, radix).map_err(|_| Wrong::TooGreat)
}

/// The value that is written to a register, or what is wrong with it.
pub fn parse_value(text: &str) -> Result<u64, String> {
    parse(text).map_err(|why| match why {
        Wrong::NoNumber => format!("VALUE is {why}"),
        Wrong::TooGreat => why.to_string(),
    })
}

#[cfg(test)]
mod tests {
    use super::{parse, Wrong};

    #[test]
    fn numbers_are_read_as_written() {
        for (text, number) in [
            ("0", 0),
            ("007", 7),
            ("18446744073709551615", u64::MAX),
            ("0x80_0000_0000", 0x80_0000_0000),
            ("0XfFfF_ffff_ffff_ffff", u64::MAX),
            ("0x_1_", 1),
            ("0b1010_1010", 0xAA),
            ("0B1", 1),
            ("0x00000000000000000001", 1),
        ] {
            assert_eq!(parse(text), Ok(number), "{text}");
        }
    }

    #[test]
    fn others_are_no_numbers() {
        for text in [
            "", "_", "0x", "0b", "0x_", "-1", "+1", "1.0", "1e3", "0b2", "12a", "0xg", "0o7", " 1",
            "1 ", "٣", "0x-1",
        ] {
            assert_eq!(parse(text), Err(Wrong::NoNumber), "{text}");
        }
    }

    #[test]
    fn a_number_has_64_bits_at_most() {
        let long = "9".repeat(1000);
        for text in ["18446744073709551616", "0x1_0000_0000_0000_0000", &long] {
            assert_eq!(parse(text), Err(Wrong::TooGreat), "{text}");
        }
    }
}
