//! An independent reader of card directories: document 01, and items 1 to 8 of document 02, in plain Rust, written
//! from their words alone.
//!
//! Nothing here is proved and nothing here is fast. It exists to be compared with the proved library.

pub mod book;
pub mod field;
pub mod generate;
pub mod links;
pub mod read;
pub mod refusal;
pub mod why;
pub mod write;

use refusal::Refusal;
use why::Why;

/// Reads a dump into its book.
pub fn read(dump: &[u8]) -> Result<Vec<u8>, Refusal> {
    read::read(dump)
}

/// Writes a book into its dump, or refuses with 15.
pub fn write(book: &[u8]) -> Result<Vec<u8>, Refusal> {
    write::write(book)
}

/// Lists the links of a book, four numbers a row, or refuses with 15.
pub fn links(book: &[u8]) -> Result<Vec<[u32; 4]>, Refusal> {
    write(book)?;
    Ok(links::of_accepted(book))
}

/// Tells the book offset and the length of a field's payload, or refuses with 15, then 16.
pub fn field(book: &[u8], object: u32, kind: u32) -> Result<(usize, usize), Refusal> {
    write(book)?;
    field::of_accepted(book, object, kind)
}

/// Tells why a row, from 0, of a book's list is as it is, or refuses with 15, then 16.
pub fn why(book: &[u8], row: u64) -> Result<Why, Refusal> {
    write(book)?;
    why::of_accepted(book, row)
}
