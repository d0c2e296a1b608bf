//! Files: read as far as is needed, and replaced whole, so that no reader finds half of one.

use std::ffi::{OsStr, OsString};
use std::fs::{self, File, OpenOptions, Permissions};
use std::io::{self, Read, Write};
use std::os::unix::fs::{fchown, MetadataExt, OpenOptionsExt, PermissionsExt};
use std::path::{Path, PathBuf};
use std::process;

use crate::arguments::shown;
use crate::outcome::Stop;

/// Enough to tell how long a file is that is taken for one of ours.
const MOST: usize = 0x10000;

/// The name that stands for standard input.
pub const STANDARD: &str = "-";

/// The bytes of a file, or of standard input, but no more than the most that are wanted: it may
/// have no end.
pub fn read(name: &OsStr) -> Result<Vec<u8>, Stop> {
    read_some(name).map_err(|why| unreadable(name, &why))
}

/// The same, or nothing if there is no such file.
pub fn read_if_there(name: &OsStr) -> Result<Option<Vec<u8>>, Stop> {
    match read_some(name) {
        Ok(bytes) => Ok(Some(bytes)),
        Err(why) if why.kind() == io::ErrorKind::NotFound => Ok(None),
        Err(why) => Err(unreadable(name, &why)),
    }
}

fn read_some(name: &OsStr) -> io::Result<Vec<u8>> {
    let mut bytes = Vec::new();
    open(name)?.take(MOST as u64).read_to_end(&mut bytes)?;
    Ok(bytes)
}

/// A file, or standard input, to be read piece by piece.
pub fn open(name: &OsStr) -> io::Result<Box<dyn Read>> {
    match name == STANDARD {
        true => Ok(Box::new(io::stdin().lock())),
        false => Ok(Box::new(File::open(name)?)),
    }
}

/// Reads what there is of it, up to so many bytes. There are none at its end alone.
pub fn read_more(name: &OsStr, input: &mut impl Read, bytes: &mut [u8]) -> Result<usize, Stop> {
    loop {
        match input.read(bytes) {
            Err(why) if why.kind() == io::ErrorKind::Interrupted => {}
            read => return read.map_err(|why| unreadable(name, &why)),
        }
    }
}

pub fn unreadable(name: &OsStr, why: &io::Error) -> Stop {
    Stop::File(format!("{}: can't be read: {why}", shown(name)))
}

/// Standard input can be read once.
pub fn check_standard(names: &[&OsString]) -> Result<(), Stop> {
    match names.iter().filter(|name| **name == STANDARD).count() {
        0 | 1 => Ok(()),
        _ => Err(no_file(
            STANDARD.as_ref(),
            "standard input can be read once",
        )),
    }
}

/// How many bytes these are, of a file that was read.
pub fn length(bytes: &[u8]) -> String {
    match bytes.len() {
        1 => "1 byte".into(),
        MOST => format!("{MOST} bytes or more"),
        length => format!("{length} bytes"),
    }
}

/// Standard output is no file that can be written.
pub fn check_writable(name: &OsStr) -> Result<(), Stop> {
    match name == STANDARD {
        true => Err(no_file(name, "standard output can't be replaced whole")),
        false => Ok(()),
    }
}

/// Why a name is taken for no file's, and how to say that it is one's.
pub fn no_file(name: &OsStr, why: &str) -> Stop {
    let name = shown(name);
    Stop::Usage(format!(
        "{name}: {why}; for a file of this name say ./{name}"
    ))
}

/// Makes the file hold these bytes and no others. It has them all at once, or on an error stays as
/// it was. One that was there keeps its mode and, as far as we may, its owner.
pub fn replace(name: &OsStr, bytes: &[u8]) -> Result<(), Stop> {
    replace_whole(Path::new(name), bytes).map_err(|why| unwritable(name, &why))
}

/// Says before long work what `replace` would say of the file behind it.
pub fn check_replaceable(name: &OsStr) -> Result<(), Stop> {
    let old = behind_links(Path::new(name)).and_then(|path| replaceable(&path));
    old.map(drop).map_err(|why| unwritable(name, &why))
}

fn unwritable(name: &OsStr, why: &io::Error) -> Stop {
    Stop::File(format!("{}: can't be written: {why}", shown(name)))
}

/// The plain file that is there, if any, and that we may write.
fn replaceable(path: &Path) -> io::Result<Option<fs::Metadata>> {
    match fs::metadata(path) {
        Ok(old) if !old.is_file() => Err(io::Error::other("it isn't a plain file")),
        // Renaming asks for no right to the file itself.
        Ok(old) => OpenOptions::new().write(true).open(path).map(|_| Some(old)),
        Err(why) if why.kind() == io::ErrorKind::NotFound => Ok(None),
        Err(why) => Err(why),
    }
}

fn replace_whole(path: &Path, bytes: &[u8]) -> io::Result<()> {
    let path = &behind_links(path)?;
    let old = replaceable(path)?;
    let folder = match path.parent() {
        Some(folder) if !folder.as_os_str().is_empty() => folder,
        _ => Path::new("."),
    };
    let (beside, file) = create_in(folder)?;
    let done = fill(file, bytes, old.as_ref()).and_then(|()| fs::rename(&beside, path));
    if done.is_err() {
        // The first error is the one to tell.
        let _ = fs::remove_file(&beside);
        return done;
    }
    // The file is there. Not every file system can be told to keep a folder's names.
    let _ = File::open(folder).and_then(|folder| folder.sync_all());
    Ok(())
}

/// The file that a link leads to, so that the link stays.
fn behind_links(path: &Path) -> io::Result<PathBuf> {
    match fs::symlink_metadata(path) {
        Ok(found) if found.is_symlink() => fs::canonicalize(path).map_err(|why| {
            io::Error::other(format!("it is a link, to what can't be found: {why}"))
        }),
        _ => Ok(path.into()),
    }
}

/// A new file under a name that nobody has.
fn create_in(folder: &Path) -> io::Result<(PathBuf, File)> {
    let mut number = 0;
    loop {
        let path = folder.join(format!(".vhart-{}-{number}.tmp", process::id()));
        match OpenOptions::new()
            .write(true)
            .create_new(true)
            .mode(0o666)
            .open(&path)
        {
            Err(why) if why.kind() == io::ErrorKind::AlreadyExists && number < 1000 => number += 1,
            made => return made.map(|file| (path, file)),
        }
    }
}

fn fill(mut file: File, bytes: &[u8], old: Option<&fs::Metadata>) -> io::Result<()> {
    file.write_all(bytes)?;
    if let Some(old) = old {
        // Root alone may give a file away.
        let _ = fchown(&file, Some(old.uid()), Some(old.gid()));
        file.set_permissions(Permissions::from_mode(old.mode() & 0o777))?;
    }
    file.sync_all()
}
