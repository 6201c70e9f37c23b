//! `card why`: missing links in sentences.

use crate::arguments::Arguments;
use crate::error::Error;
use crate::escape::plain;
use crate::files::{open, print};
use crate::links::{capital, reason, sentence};
use crate::view::{view, View};
use adarbukoi::Why;

pub fn why(arguments: &Arguments) -> Result<u8, Error> {
    arguments.only(false, false)?;
    let (file, row) = match arguments.operands.as_slice() {
        [file] => (file, None),
        [file, row] => (file, Some(row)),
        _ => return Err(arguments.usage()),
    };
    let opened = open(file)?;
    let view = view(&opened)?;
    match row {
        Some(row) => one(&view, row),
        None => all(&view),
    }
}

/// Each missing link.
fn all(view: &View) -> Result<u8, Error> {
    let lines = view.missing().map(|link| format!("Row {}: {}\n", link.row, sentence(&view.card, link)));
    let mut text: String = lines.collect();
    if text.is_empty() {
        text = "No link is missing.\n".to_string();
    }
    print(text.as_bytes())?;
    Ok(view.status())
}

/// One row, missing or not.
fn one(view: &View, row: &str) -> Result<u8, Error> {
    let number = row.parse::<usize>().map_err(|_| Error::Usage(format!("{} is no row's number", plain(row))))?;
    let Some(link) = view.links.get(number) else {
        let count = view.links.len();
        return Err(Error::Usage(format!("there is no row {number}: the list has {count}, counted from 0")));
    };
    let mut text = format!("Row {number}: {}\n", sentence(&view.card, link));
    if let Ok(met @ Why::Met(..)) = adarbukoi::why(&view.opened.book, number as u64) {
        text += &format!("    {}.\n", capital(&reason(&view.card, link, &met)));
    }
    print(text.as_bytes())?;
    Ok(u8::from(link.answer.is_none()))
}
