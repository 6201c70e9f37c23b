//! Inputs and outputs: FILE or `-`; a dump or a book; an output that exists is kept unless forced.

use crate::error::Error;
use crate::escape::plain;
use crate::refusal::{of_book, of_dump};
use adarbukoi::{read, write, Refusal};
use std::fs::{self, File, OpenOptions};
use std::io::{self, Read, Write};
use std::path::{Path, PathBuf};

const DUMP_MOST: usize = 32_768;
const BOOK_MOST: usize = 131_072;
/// What is longer than every dump and every book is read no further.
const READ_MOST: u64 = 1 << 20;

#[derive(Clone, Copy, Debug, PartialEq, Eq)]
pub enum Kind {
    Dump,
    Book,
}

/// An accepted card: its dump and its book.
#[derive(Debug)]
pub struct Opened {
    pub name: String,
    pub kind: Kind,
    pub dump: Vec<u8>,
    pub book: Vec<u8>,
}

/// The name of a file as it is shown.
pub fn shown(path: &str) -> String {
    match path {
        "-" => "standard input".to_string(),
        _ => plain(path),
    }
}

fn failed(verb: &str, path: &str, error: &io::Error) -> Error {
    Error::Files(format!("{} can't be {verb}: {error}", plain(path)))
}

/// The bytes of a file, or of standard input.
pub fn bytes(path: &str) -> Result<Vec<u8>, Error> {
    let mut all = Vec::new();
    let done = match path {
        "-" => io::stdin().lock().take(READ_MOST).read_to_end(&mut all),
        _ => File::open(path).and_then(|file| file.take(READ_MOST).read_to_end(&mut all)),
    };
    done.map_err(|error| failed("read", &shown(path), &error))?;
    Ok(all)
}

/// A dump or a book, by the first record's kind. What is neither is looked at as a dump, and refused as one.
pub fn kind_of(bytes: &[u8]) -> Kind {
    match bytes.get(2..4) {
        Some([0x01, 0x01]) => Kind::Book,
        _ => Kind::Dump,
    }
}

/// The book of a dump.
pub fn book_of(dump: &[u8]) -> Result<Vec<u8>, Refusal> {
    let mut book = vec![0; BOOK_MOST];
    let length = read(dump, &mut book)?;
    book.truncate(length);
    Ok(book)
}

/// The dump of a book.
pub fn dump_of(book: &[u8]) -> Result<Vec<u8>, Refusal> {
    let mut dump = vec![0; DUMP_MOST];
    let length = write(book, &mut dump)?;
    dump.truncate(length);
    Ok(dump)
}

/// Reads a dump or a book and has the proved library accept it.
pub fn open(path: &str) -> Result<Opened, Error> {
    accept(&shown(path), bytes(path)?)
}

/// Has the proved library accept a dump or a book.
pub fn accept(name: &str, bytes: Vec<u8>) -> Result<Opened, Error> {
    let kind = kind_of(&bytes);
    let (dump, book) = match kind {
        Kind::Dump => {
            let book = book_of(&bytes).map_err(|refusal| Error::Refused(Box::new(of_dump(name, &bytes, refusal))))?;
            (bytes, book)
        }
        Kind::Book => {
            let dump = dump_of(&bytes).map_err(|refusal| Error::Refused(Box::new(of_book(name, &bytes, refusal))))?;
            (dump, bytes)
        }
    };
    Ok(Opened { name: name.to_string(), kind, dump, book })
}

/// Prints on standard output, whole.
pub fn print(text: &[u8]) -> Result<(), Error> {
    let mut out = io::stdout().lock();
    out.write_all(text).and_then(|()| out.flush()).map_err(|error| failed("written", "standard output", &error))
}

/// Says something on standard error; where that is closed or full, nothing can be said.
pub fn say(text: &str) {
    let _ = io::stderr().lock().write_all(text.as_bytes());
}

/// Refuses an output that exists, unless it is forced; looked at before any work is done.
pub fn may_write(path: &str, force: bool) -> Result<(), Error> {
    if path == "-" || force || fs::symlink_metadata(path).is_err() {
        return Ok(());
    }
    Err(Error::Files(format!("{} exists; --force writes over it", plain(path))))
}

/// Writes an output: to a temporary file beside it, which then takes its name.
pub fn save(path: &str, bytes: &[u8], force: bool) -> Result<(), Error> {
    if path == "-" {
        return print(bytes);
    }
    may_write(path, force)?;
    let fail = |error: io::Error| failed("written", path, &error);
    match fs::metadata(path) {
        // a device takes the bytes itself: no file is put in its place
        Ok(there) if !there.is_file() => straight(Path::new(path), bytes).map_err(fail),
        Ok(there) => {
            let target = fs::canonicalize(path).map_err(fail)?;
            beside(&target, bytes, Some(there.permissions())).map_err(fail)
        }
        Err(_) => beside(Path::new(path), bytes, None).map_err(fail),
    }
}

fn straight(path: &Path, bytes: &[u8]) -> io::Result<()> {
    let mut file = OpenOptions::new().write(true).open(path)?;
    file.write_all(bytes)?;
    file.flush()
}

/// Writes a new file beside the target, and renames it when all of it is on the disk.
fn beside(target: &Path, bytes: &[u8], permissions: Option<fs::Permissions>) -> io::Result<()> {
    let temporary = temporary(target)?;
    let file = OpenOptions::new().write(true).create_new(true).open(&temporary)?;
    let done = fill(file, bytes, permissions).and_then(|()| fs::rename(&temporary, target));
    if done.is_err() {
        let _ = fs::remove_file(&temporary);
    }
    done
}

fn temporary(target: &Path) -> io::Result<PathBuf> {
    let name = target.file_name().ok_or_else(|| io::Error::new(io::ErrorKind::InvalidInput, "it names no file"))?;
    let mut hidden = std::ffi::OsString::from(".");
    hidden.push(name);
    hidden.push(format!(".{}.new", std::process::id()));
    Ok(target.with_file_name(hidden))
}

fn fill(mut file: File, bytes: &[u8], permissions: Option<fs::Permissions>) -> io::Result<()> {
    file.write_all(bytes)?;
    if let Some(permissions) = permissions {
        file.set_permissions(permissions)?;
    }
    file.sync_all()
}
