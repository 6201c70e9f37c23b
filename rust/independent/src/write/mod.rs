//! Writing a book into a dump.
//!
//! DER has one encoding for each value, so a book has at most one dump. It is put together here from the records
//! without judging them; the book is accepted exactly if reading that dump gives the book back.

mod condition;
pub mod element;
mod object;
mod records;
mod templates;

use crate::book;
use crate::read::read;
use crate::refusal::{Refusal, BOOK};
use element::{element, flags, integer, octets};
use records::Records;

/// The dump of this book, or 15 at 0.
pub fn write(book: &[u8]) -> Result<Vec<u8>, Refusal> {
    match compose(book) {
        Some(dump) if read(&dump).as_deref() == Ok(book) => Ok(dump),
        _ => Err((BOOK, 0)),
    }
}

/// The only dump that this book can have; none if its records are in no possible order.
pub(crate) fn compose(book: &[u8]) -> Option<Vec<u8>> {
    let mut records = Records::of(book)?;
    let info = info(&mut records)?;
    let (directory, paths) = directory(&mut records)?;
    let mut behind = Vec::new();
    frame(&mut behind, 1, &info)?;
    frame(&mut behind, 2, &directory)?;
    for (tag, path) in paths {
        let (kind, file) = directory_file(&mut records, tag)?;
        frame(&mut behind, kind, &[&[path.len() as u8], path, &file].concat())?;
    }
    // EF.DIR's records are the last of the book, and the dump begins with it
    let mut dump = Vec::new();
    if records.take(0x0200).is_some() {
        frame(&mut dump, 5, &templates::templates(&mut records)?)?;
    }
    dump.extend(behind);
    if records.done() {
        Some(dump)
    } else {
        None
    }
}

/// Adds one record of the dump.
fn frame(dump: &mut Vec<u8>, kind: u16, payload: &[u8]) -> Option<()> {
    if payload.len() > 65_533 {
        return None;
    }
    book::add(dump, kind, payload);
    Some(())
}

fn info(records: &mut Records) -> Option<Vec<u8>> {
    let mut inside = integer(0x02, records.number(0x0101)?);
    inside.extend(records.take(0x0102).map(|bytes| octets(0x04, bytes)).unwrap_or_default());
    inside.extend(records.take(0x0103).map(|bytes| octets(0x0C, bytes)).unwrap_or_default());
    inside.extend(records.take(0x0104).map(|bytes| octets(0x80, bytes)).unwrap_or_default());
    inside.extend(flags(0x03, records.number(0x0105)?));
    inside.extend(records.take(0x0106).unwrap_or_default());
    let mut file = element(0x30, &inside);
    file.extend(fill(records, 0x0108)?);
    Some(file)
}

/// Tag and path of an entry that names one.
type PathEntry<'a> = (u8, &'a [u8]);

/// EF.OD with its fill, and its entries that name a path.
fn directory<'a>(records: &mut Records<'a>) -> Option<(Vec<u8>, Vec<PathEntry<'a>>)> {
    let mut file = Vec::new();
    let mut paths = Vec::new();
    while let Some(payload) = records.take(0x0110) {
        match payload {
            [tag, 0, path @ ..] => {
                paths.push((*tag, path));
                file.extend(element(*tag, &element(0x30, &octets(0x04, path))));
            }
            [tag, 1] => file.extend(element(*tag, &element(0xA0, &objects(records, *tag)?))),
            [_, 2, sealed @ ..] => file.extend(sealed),
            _ => return None,
        }
    }
    file.extend(fill(records, 0x0107)?);
    Some((file, paths))
}

/// A directory file and its dump kind: 0118 opens a transparent file, 0119 one of records.
fn directory_file(records: &mut Records, tag: u8) -> Option<(u16, Vec<u8>)> {
    if records.take(0x0119).is_some() {
        return Some((4, linear_file(records, tag)?));
    }
    records.take(0x0118)?;
    Some((3, filled(records, tag)?))
}

/// "records, each a 2-byte length and its bytes"; none if one is too long for that.
fn linear_file(records: &mut Records, tag: u8) -> Option<Vec<u8>> {
    let mut file = Vec::new();
    while records.take(0x011A).is_some() {
        let bytes = filled(records, tag)?;
        file.extend(u16::try_from(bytes.len()).ok()?.to_le_bytes());
        file.extend(bytes);
    }
    Some(file)
}

/// Objects, then fill: a transparent file, or one record.
fn filled(records: &mut Records, tag: u8) -> Option<Vec<u8>> {
    let mut bytes = objects(records, tag)?;
    bytes.extend(fill(records, 0x0107)?);
    Some(bytes)
}

/// All objects that follow here. Where a 0120 says that its object stands is not looked at; the reader will tell.
fn objects(records: &mut Records, entry_tag: u8) -> Option<Vec<u8>> {
    let mut all = Vec::new();
    while let Some(payload) = records.take(0x0120) {
        let object_tag = *payload.get(1)?;
        all.extend(object::object(records, entry_tag, object_tag)?);
    }
    Some(all)
}

/// The fill's bytes; no record, no bytes.
fn fill(records: &mut Records, kind: u16) -> Option<Vec<u8>> {
    match records.take(kind) {
        None => Some(Vec::new()),
        Some([byte, low, high]) => Some(vec![*byte; u16::from_le_bytes([*low, *high]) as usize]),
        Some(_) => None,
    }
}
