//! Safe calls of the proved codec for smart-card directories (ISO/IEC 7816-15).
//!
//! A dump holds the files of one card's cryptographic information application, a book the same content in house
//! records. On a refusal nothing is written; on an acceptance nothing past the length that is told.

pub mod raw;
mod refusal;
mod why;

pub use refusal::Refusal;
pub use why::{why, Why};

/// Accepted with a number, or a refusal with its place in that number's stead.
fn answer(number: u32, told: u64) -> Result<usize, Refusal> {
    match number {
        0 => Ok(told as usize),
        _ => Err(Refusal { number, place: told }),
    }
}

/// Reads a dump into `book` and tells the book's length.
pub fn read(dump: &[u8], book: &mut [u8]) -> Result<usize, Refusal> {
    let mut told = 0;
    // SAFETY: both slices are lent with their own lengths, and they do not overlap.
    let number = unsafe { raw::adarbukoi_read(dump.as_ptr(), dump.len(), book.as_mut_ptr(), book.len(), &mut told) };
    answer(number, told)
}

/// Writes a book into `dump` and tells the dump's length.
pub fn write(book: &[u8], dump: &mut [u8]) -> Result<usize, Refusal> {
    let mut told = 0;
    // SAFETY: both slices are lent with their own lengths, and they do not overlap.
    let number = unsafe { raw::adarbukoi_write(book.as_ptr(), book.len(), dump.as_mut_ptr(), dump.len(), &mut told) };
    answer(number, told)
}

/// Lists a book's links into `rows`, four numbers a row, and tells how many numbers.
pub fn list(book: &[u8], rows: &mut [u32]) -> Result<usize, Refusal> {
    let mut told = 0;
    // SAFETY: both slices are lent with their own lengths, and they do not overlap.
    let number = unsafe { raw::adarbukoi_list(book.as_ptr(), book.len(), rows.as_mut_ptr(), rows.len(), &mut told) };
    answer(number, told)
}

/// Tells the book offset and the length of the first record's payload of this object and kind.
pub fn field_place(book: &[u8], object: u32, kind: u32) -> Result<(usize, usize), Refusal> {
    let mut told = 0;
    let mut length = 0;
    // SAFETY: the book is lent with its own length.
    let number = unsafe { raw::adarbukoi_field(book.as_ptr(), book.len(), object, kind, &mut told, &mut length) };
    Ok((answer(number, told)?, length as usize))
}

/// Hands back the first record's payload of this object and kind, a part of `book` and no copy.
pub fn field(book: &[u8], object: u32, kind: u32) -> Result<&[u8], Refusal> {
    let (offset, length) = field_place(book, object, kind)?;
    Ok(&book[offset..offset + length])
}
