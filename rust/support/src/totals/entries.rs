//! The entries of a file, one after the other: it is text or a log, and may be longer than memory.

use std::ffi::{OsStr, OsString};
use std::io::{self, BufRead, BufReader, Cursor, Read};

use vhart::ENTRY_BYTES;

use super::lines;
use crate::file;
use crate::log::Entry;
use crate::outcome::Stop;

/// So many bytes are looked through for a NUL, which a log has and text hasn't.
const LOOKED_AT: u64 = 0x10000;

/// The longest line, in bytes.
const LONGEST: usize = 1000;

pub struct Entries {
    name: OsString,
    input: Box<dyn BufRead>,
    pub form: Form,
    /// The number of the line or entry that was read last, from 1 on.
    place: u64,
}

#[derive(Clone, Copy, Debug, PartialEq)]
pub enum Form {
    Text,
    Log,
}

impl Form {
    /// What its places are called.
    pub fn noun(self) -> &'static str {
        match self {
            Form::Text => "line",
            Form::Log => "entry",
        }
    }

    pub fn place(self, number: u64) -> String {
        format!("{} {number}", self.noun())
    }
}

/// What stands at a place.
#[derive(Debug, PartialEq)]
pub struct Found {
    pub place: u64,
    pub entry: Entry,
}

impl Entries {
    pub fn open(name: &OsStr) -> Result<Entries, Stop> {
        let input = file::open(name);
        let entries = input.and_then(|input| Entries::of(name, input));
        entries.map_err(|why| file::unreadable(name, &why))
    }

    fn of(name: &OsStr, mut input: impl Read + 'static) -> io::Result<Entries> {
        let mut head = Vec::new();
        input.by_ref().take(LOOKED_AT).read_to_end(&mut head)?;
        Ok(Entries {
            name: name.into(),
            form: match head.contains(&0) {
                true => Form::Log,
                false => Form::Text,
            },
            input: Box::new(Cursor::new(head).chain(BufReader::new(input))),
            place: 0,
        })
    }

    pub fn next(&mut self) -> Result<Option<Found>, Stop> {
        match self.form {
            Form::Text => self.next_of_text(),
            Form::Log => self.next_of_log(),
        }
    }

    fn next_of_log(&mut self) -> Result<Option<Found>, Stop> {
        let mut bytes = [0; ENTRY_BYTES];
        let mut count = 0;
        while count < bytes.len() {
            match file::read_more(&self.name, &mut self.input, &mut bytes[count..])? {
                0 => break,
                more => count += more,
            }
        }
        if count == 0 {
            return Ok(None);
        }
        self.place += 1;
        if count < bytes.len() {
            return Err(self.refused(&format!(
                "the log ends in the middle of it: {count} of {} bytes are there (a file with a \
                 NUL byte is a log)",
                ENTRY_BYTES
            )));
        }
        Ok(Some(Found {
            place: self.place,
            entry: Entry::from(&bytes[..]),
        }))
    }

    fn next_of_text(&mut self) -> Result<Option<Found>, Stop> {
        loop {
            let mut line = Vec::new();
            let mut input = self.input.by_ref().take(LONGEST as u64 + 1);
            let count = input.read_until(b'\n', &mut line);
            if count.map_err(|why| file::unreadable(&self.name, &why))? == 0 {
                return Ok(None);
            }
            self.place += 1;
            if line.len() > LONGEST {
                return Err(self.refused(&format!("it has more than {LONGEST} bytes")));
            }
            // What is no text is no register either, and may stand in a comment.
            let line = String::from_utf8_lossy(&line);
            let entry = lines::parse(&line).map_err(|why| self.refused(&why))?;
            if let Some(entry) = entry {
                return Ok(Some(Found {
                    place: self.place,
                    entry,
                }));
            }
        }
    }

    /// Why the file isn't read on behind this place.
    fn refused(&self, why: &str) -> Stop {
        let text = format!("{}: {why}", self.form.place(self.place));
        Stop::refused(&self.name, None, text)
    }
}

#[cfg(test)]
mod tests {
    use std::ffi::OsStr;
    use std::io::{self, Read};

    use vhart::Csr;

    use super::{Entries, Entry, Form, LONGEST, LOOKED_AT};
    use crate::outcome::Stop;

    /// A pipe into which its writer puts one byte after the other.
    struct Slow(io::Cursor<Vec<u8>>);

    impl Read for Slow {
        fn read(&mut self, bytes: &mut [u8]) -> io::Result<usize> {
            let most = bytes.len().min(1);
            self.0.read(&mut bytes[..most])
        }
    }

    type All = (Form, Vec<(u64, Entry)>, Option<String>);

    /// The form of what is read, all places of it, and what is wrong at the end.
    fn read(bytes: impl Into<Vec<u8>>) -> All {
        let slow = Slow(io::Cursor::new(bytes.into()));
        let mut entries = Entries::of(OsStr::new("writes"), slow).unwrap();
        let mut all = Vec::new();
        let wrong = loop {
            match entries.next() {
                Ok(Some(found)) => all.push((found.place, found.entry)),
                Ok(None) => break None,
                Err(Stop::Refused { text, .. }) => break Some(text),
                Err(other) => panic!("{other:?}"),
            }
        };
        (entries.form, all, wrong)
    }

    const WRITE: Entry = Entry([1, Csr::MSCRATCH.0, 1]);

    fn log(kind: u8) -> Vec<u8> {
        let mut bytes = vec![0; 24];
        (bytes[0], bytes[8], bytes[9], bytes[16]) = (kind, 0x40, 0x03, 1);
        bytes
    }

    #[test]
    fn text_is_read_line_by_line() {
        for text in [
            "mscratch 1\n\n# no\nmscratch 1",
            "mscratch 1\r\n\r\n\r\nmscratch 1\r\n",
        ] {
            assert_eq!(read(text), (Form::Text, vec![(1, WRITE), (4, WRITE)], None));
        }
        assert_eq!(read(""), (Form::Text, vec![], None));
        let (_, all, wrong) = read("mscratch 1\n\nmscratc 1\nmscratch 1");
        assert_eq!(all, [(1, WRITE)]);
        let told = "line 3: mscratc: no such register; is it mscratch?";
        assert_eq!(wrong.as_deref(), Some(told));
    }

    #[test]
    fn a_line_has_an_end() {
        for (more, is_read) in [(0, true), (1, false)] {
            for end in ["", "\n", "\r\n"] {
                let length = LONGEST - end.len() + more;
                let line = format!("{:<length$}{end}", "mscratch 1");
                let (_, all, wrong) = read(line);
                assert_eq!((all == [(1, WRITE)], wrong.is_none()), (is_read, is_read));
            }
        }
    }

    #[test]
    fn a_log_is_read_entry_by_entry() {
        let bytes = [log(1), log(9), log(1)].concat();
        let other = Entry([9, Csr::MSCRATCH.0, 1]);
        let all = vec![(1, WRITE), (2, other), (3, WRITE)];
        assert_eq!(read(bytes.clone()), (Form::Log, all, None));
        for cut in 1..24 {
            let (form, all, wrong) = read(&bytes[..72 - cut]);
            let told = format!(
                "entry 3: the log ends in the middle of it: {} of 24 ",
                24 - cut
            );
            assert_eq!((form, all.len()), (Form::Log, 2));
            assert!(wrong.is_some_and(|wrong| wrong.starts_with(&told)), "{cut}");
        }
    }

    #[test]
    fn a_log_is_told_by_a_nul_in_its_head() {
        let no_kind = vec![0xFF; 24];
        let (form, all, _) = read([no_kind, log(1)].concat());
        let other = Entry([u64::MAX; 3]);
        assert_eq!((form, all), (Form::Log, vec![(1, other), (2, WRITE)]));
        for (before, form) in [(LOOKED_AT - 1, Form::Log), (LOOKED_AT, Form::Text)] {
            let mut bytes = vec![b'\n'; before as usize];
            bytes.push(0);
            assert_eq!(read(bytes).0, form);
        }
    }
}
