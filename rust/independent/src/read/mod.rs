//! Reading a dump into a book, in document 01's order.

mod class;
mod common;
mod component;
mod condition;
mod directory;
pub mod element;
mod fill;
mod frames;
mod info;
pub mod inside;
pub mod linear;
mod object;
mod path;
mod sealed;
pub mod templates;
mod type_attributes;
pub mod values;

use crate::refusal::{Refusal, PATHS, SIZE, TWICE};
use directory::PathEntry;
use frames::{frames, File};
use std::mem;

/// "Dump, at most 32,768 bytes (house)"
const LARGEST_DUMP: usize = 32_768;

/// What a reading has gathered so far.
pub struct Reader<'a> {
    dump: &'a [u8],
    book: Vec<u8>,
    /// How many directory files have begun: the number of the file that is being read, 0 being EF.OD's.
    files: u16,
    /// Where that file starts.
    from: usize,
    /// How many objects have begun.
    objects: usize,
    /// Own authId of each authentication object that has one, with the object's place.
    own: Vec<(usize, &'a [u8])>,
}

impl<'a> Reader<'a> {
    pub fn new(dump: &'a [u8]) -> Self {
        Reader { dump, book: Vec::new(), files: 0, from: 0, objects: 0, own: Vec::new() }
    }
}

/// "Order: 1; all frames; CIAInfo; EF.OD; 12; files in turn; 13"; 14 is the caller's, who knows the room.
/// "EF.DIR is read before CIAInfo", and its book records "come after all others".
pub fn read(dump: &[u8]) -> Result<Vec<u8>, Refusal> {
    if dump.len() > LARGEST_DUMP {
        return Err((SIZE, 0));
    }
    let frames = frames(dump)?;
    let mut reader = Reader::new(dump);
    if let Some(file) = frames.templates {
        reader.templates(file)?;
    }
    let last = mem::take(&mut reader.book);
    reader.info(frames.info)?;
    let entries = reader.directory(frames.directory)?;
    repeated_path(&entries)?;
    files_follow(&entries, &frames.files, dump.len())?;
    for (entry, file) in entries.iter().zip(&frames.files) {
        reader.file(entry.tag, *file)?;
    }
    repeated_own(&reader.own)?;
    reader.book.extend(last);
    Ok(reader.book)
}

/// "repeated path, at its second entry"
fn repeated_path(entries: &[PathEntry]) -> Result<(), Refusal> {
    for (index, entry) in entries.iter().enumerate() {
        if entries[..index].iter().any(|earlier| earlier.path == entry.path) {
            return Err((PATHS, entry.at));
        }
    }
    Ok(())
}

/// "then first file that differs, dump's end if one lacks, first extra"
fn files_follow(entries: &[PathEntry], files: &[File], dump_end: usize) -> Result<(), Refusal> {
    for (entry, file) in entries.iter().zip(files) {
        if entry.path != file.path {
            return Err((PATHS, file.record));
        }
    }
    if files.len() < entries.len() {
        return Err((PATHS, dump_end));
    }
    match files.get(entries.len()) {
        Some(extra) => Err((PATHS, extra.record)),
        None => Ok(()),
    }
}

/// "two authentication objects with equal own authId; place is the first object that repeats one"
fn repeated_own(own: &[(usize, &[u8])]) -> Result<(), Refusal> {
    for (index, (place, identifier)) in own.iter().enumerate() {
        if own[..index].iter().any(|(_, earlier)| earlier == identifier) {
            return Err((TWICE, *place));
        }
    }
    Ok(())
}
