//! Why a link is missing.

use crate::{answer, raw, Refusal};

/// Why a row of the list is as it is. A record is told by its book offset and its kind.
#[derive(Clone, Copy, Debug, PartialEq, Eq)]
pub enum Why {
    /// The link is answered: the record in which that row's answering object bears the identifier.
    Met(usize, u32),
    /// The book has no object of the class that answers the link.
    NoObject,
    /// The first record with the identifier that does not state a link of the same number.
    Elsewhere(usize, u32),
    /// There is no such record.
    Nowhere,
}

/// Tells why row number `row`, from 0, of a book's list is as it is.
pub fn why(book: &[u8], row: u64) -> Result<Why, Refusal> {
    let (mut said, mut told, mut kind) = (0, 0, 0);
    // SAFETY: the book is lent with its own length.
    let number = unsafe { raw::adarbukoi_why(book.as_ptr(), book.len(), row, &mut said, &mut told, &mut kind) };
    let offset = answer(number, told)?;
    Ok(match said {
        1 => Why::Met(offset, kind),
        2 => Why::NoObject,
        3 => Why::Elsewhere(offset, kind),
        _ => Why::Nowhere,
    })
}
