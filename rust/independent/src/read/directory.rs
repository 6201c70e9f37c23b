//! EF.OD's entries, and the files that they name.

use super::element::Element;
use super::frames::File;
use super::inside::Inside;
use super::{fill, sealed, values, Reader};
use crate::refusal::{Refusal, TAG};

/// An EF.OD entry that names a path: its place, its tag, the path.
pub struct PathEntry<'a> {
    pub at: usize,
    pub tag: u8,
    pub path: &'a [u8],
}

impl<'a> Reader<'a> {
    /// Reads EF.OD with its fill and tells the entries that name a path.
    pub fn directory(&mut self, file: File) -> Result<Vec<PathEntry<'a>>, Refusal> {
        self.from = file.from;
        let mut paths = Vec::new();
        let mut inside = Inside::new(self.dump, file.from, file.end);
        while inside.more() && !fill::begins(&inside) {
            let entry = inside.any()?;
            match entry.tag {
                0xA0..=0xA8 => paths.extend(self.known_entry(entry)?),
                0x80..=0xBF => self.unknown_entry(entry)?,
                _ => return Err((TAG, entry.at)),
            }
        }
        self.fill(&inside, 0x0107)?;
        Ok(paths)
    }

    /// "Any other context-specific tag: 0110 with first tag byte, 02, the sealed element."
    fn unknown_entry(&mut self, entry: Element) -> Result<(), Refusal> {
        sealed::nesting(self.dump, entry, 1)?;
        let payload = [&[entry.tag, 2], entry.whole(self.dump)].concat();
        self.record(0x0110, &payload);
        Ok(())
    }

    /// "Inside is a Path 30 or objects A0."
    fn known_entry(&mut self, entry: Element) -> Result<Option<PathEntry<'a>>, Refusal> {
        let mut inside = Inside::of(self.dump, entry);
        let inner = inside.any()?;
        let path = match inner.tag {
            0x30 => Some(self.named_path(entry, inner)?),
            0xA0 => {
                self.inline_objects(entry, inner)?;
                None
            }
            _ => return Err((TAG, inner.at)),
        };
        inside.finish()?;
        Ok(path)
    }

    /// "An EF.OD path holds one OCTET STRING of 1 to 64 bytes and nothing more (house)."
    fn named_path(&mut self, entry: Element, sequence: Element) -> Result<PathEntry<'a>, Refusal> {
        let mut inside = Inside::of(self.dump, sequence);
        let octets = inside.required(0x04)?;
        let path = octets.contents(self.dump);
        values::octets(path, 1, 64).map_err(|no| (no, octets.at))?;
        inside.finish()?;
        let payload = [&[entry.tag, 0], path].concat();
        self.record(0x0110, &payload);
        Ok(PathEntry { at: entry.at, tag: entry.tag, path })
    }

    fn inline_objects(&mut self, entry: Element, list: Element) -> Result<(), Refusal> {
        self.record(0x0110, &[entry.tag, 1]);
        let mut inside = Inside::of(self.dump, list);
        while inside.more() {
            self.object(entry.tag, &mut inside)?;
        }
        Ok(())
    }

    /// A directory file, which takes the next number; its dump kind says which of the two it is.
    pub fn file(&mut self, entry_tag: u8, file: File) -> Result<(), Refusal> {
        self.files += 1;
        self.from = file.from;
        if file.kind == 4 {
            self.linear_file(entry_tag, file)
        } else {
            self.transparent_file(entry_tag, file)
        }
    }

    /// "0118, its objects, its fill"
    fn transparent_file(&mut self, entry_tag: u8, file: File) -> Result<(), Refusal> {
        self.record(0x0118, &[]);
        let mut inside = Inside::new(self.dump, file.from, file.end);
        while inside.more() && !fill::begins(&inside) {
            self.object(entry_tag, &mut inside)?;
        }
        self.fill(&inside, 0x0107)
    }
}
