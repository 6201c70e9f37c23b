//! A refusal in words: number, name, the file and the offset in it, and the bytes around the place.

use crate::book::{records, Record};
use crate::escape::hex;
use adarbukoi::Refusal;
use std::fmt;

/// How many bytes are shown before the place, and from it on.
const BEFORE: usize = 8;
const BEHIND: usize = 8;
/// The refusal of a container that ends early.
const MISSING: u32 = 5;

/// A place in a dump: the file that it falls into, and the offset there.
#[derive(Clone, Debug, PartialEq, Eq)]
pub struct FilePlace {
    pub file: String,
    pub offset: usize,
}

/// The bytes around a place, with the place's own byte between marks.
#[derive(Clone, Debug, PartialEq, Eq)]
pub struct Excerpt {
    pub from: usize,
    pub before: Vec<u8>,
    pub byte: Option<u8>,
    pub behind: Vec<u8>,
}

/// A refusal with all that is told of it.
#[derive(Clone, Debug)]
pub struct Told {
    pub input: String,
    pub refusal: Refusal,
    pub place: Option<FilePlace>,
    pub excerpt: Option<Excerpt>,
    /// What is known of a book.
    pub more: Option<String>,
}

/// A refused dump.
pub fn of_dump(input: &str, dump: &[u8], refusal: Refusal) -> Told {
    let at = usize::try_from(refusal.place).ok().filter(|_| has_place(refusal.number));
    Told {
        input: input.to_string(),
        refusal,
        place: at.map(|at| file_place(dump, at, refusal.number)),
        excerpt: at.map(|at| excerpt(dump, at)),
        more: None,
    }
}

/// A refused book.
pub fn of_book(input: &str, book: &[u8], refusal: Refusal) -> Told {
    let more = Some(explain(book));
    Told { input: input.to_string(), refusal, place: None, excerpt: None, more }
}

/// Why a book is refused: the one place where this is told.
pub fn explain(_book: &[u8]) -> String {
    "No accepted dump has this book.".to_string()
}

/// Whether a refusal's place is an offset into the dump: of 14 it is a size, of 1, 15 and 16 there is none.
fn has_place(number: u32) -> bool {
    !matches!(number, 1 | 14 | 15 | 16)
}

/// The file of a dump that a place falls into. Of 5 the place is the end of what lacks something, so a file's end is
/// in it; of others it is what stands behind.
pub fn file_place(dump: &[u8], at: usize, number: u32) -> FilePlace {
    let mut files = 0;
    for record in records(dump) {
        files += usize::from(matches!(record.kind, 0x0003 | 0x0004));
        let end = record.offset + 4 + record.payload.len() + usize::from(number == MISSING);
        match file_of(&record, files) {
            Some((file, start)) if (start..end).contains(&at) => return FilePlace { file, offset: at - start },
            _ => {}
        }
    }
    FilePlace { file: "between the dump's files".to_string(), offset: at }
}

/// The name of the file in a dump record, and the dump offset of its first byte.
pub fn file_of(record: &Record, number: usize) -> Option<(String, usize)> {
    let start = record.offset + 4;
    match (record.kind, record.payload) {
        (0x0005, _) => Some(("EF.DIR".to_string(), start)),
        (0x0001, _) => Some(("CIAInfo".to_string(), start)),
        (0x0002, _) => Some(("EF.OD".to_string(), start)),
        (0x0003 | 0x0004, [length, rest @ ..]) => {
            let length = usize::from(*length);
            let path = rest.get(..length)?;
            Some((format!("directory file {} (file {number})", hex(path)), start + 1 + length))
        }
        _ => None,
    }
}

/// The bytes around a place.
pub fn excerpt(bytes: &[u8], at: usize) -> Excerpt {
    let at = at.min(bytes.len());
    let from = at.saturating_sub(BEFORE);
    let end = bytes.len().min(at + BEHIND);
    Excerpt {
        from,
        before: bytes[from..at].to_vec(),
        byte: bytes.get(at).copied(),
        behind: bytes.get(at + 1..end).unwrap_or(&[]).to_vec(),
    }
}

impl fmt::Display for Excerpt {
    fn fmt(&self, f: &mut fmt::Formatter<'_>) -> fmt::Result {
        let spaced = |bytes: &[u8]| bytes.iter().map(|byte| format!("{byte:02X} ")).collect::<String>();
        let byte = self.byte.map_or_else(|| "end".to_string(), |byte| format!("{byte:02X}"));
        let line = format!("{}: {}[{byte}] {}", self.from, spaced(&self.before), spaced(&self.behind));
        write!(f, "{}", line.trim_end())
    }
}

impl fmt::Display for Told {
    fn fmt(&self, f: &mut fmt::Formatter<'_>) -> fmt::Result {
        let Refusal { number, place } = self.refusal;
        write!(f, "{} is refused: {number} {}", self.input, self.refusal.name())?;
        if self.place.is_some() {
            write!(f, ", at {place}")?;
        }
        write!(f, "\n    {}", self.more.as_deref().unwrap_or(self.refusal.meaning()))?;
        if let Some(place) = &self.place {
            write!(f, "\n    {}, offset {}", place.file, place.offset)?;
        }
        match &self.excerpt {
            Some(excerpt) => write!(f, "\n    {excerpt}"),
            None => Ok(()),
        }
    }
}
