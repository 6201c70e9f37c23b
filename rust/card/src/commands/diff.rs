//! `card diff`: what differs between two cards.

use crate::arguments::Arguments;
use crate::card::card;
use crate::compare::differences;
use crate::error::Error;
use crate::files::{open, print, Opened};

pub fn diff(arguments: &Arguments) -> Result<u8, Error> {
    arguments.only(false, false)?;
    let [first, second] = arguments.exactly(2)? else {
        return Err(arguments.usage());
    };
    if first == "-" && second == "-" {
        return Err(Error::Usage("only one of the two can be standard input".to_string()));
    }
    let (first, second) = (open(first)?, open(second)?);
    if first.book == second.book {
        return Ok(0);
    }
    print(lines(&first, &second).as_bytes())?;
    Ok(1)
}

/// The differences of two books that are not the same: at least one line.
fn lines(first: &Opened, second: &Opened) -> String {
    let mut lines = differences(&card(&first.book), &card(&second.book));
    if lines.is_empty() {
        let same = first.book.iter().zip(&second.book).take_while(|(one, other)| one == other).count();
        lines.push(format!("Objects or files stand in another order; the books differ from offset {same} on"));
    }
    lines.join("\n") + "\n"
}
