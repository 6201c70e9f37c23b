//! `card read` and `card write`: a dump into its book, a book into its dump.

use crate::arguments::Arguments;
use crate::error::Error;
use crate::files::{accept, bytes, may_write, save, shown, Kind};

pub fn read(arguments: &Arguments) -> Result<u8, Error> {
    turn(arguments, Kind::Dump)
}

pub fn write(arguments: &Arguments) -> Result<u8, Error> {
    turn(arguments, Kind::Book)
}

fn turn(arguments: &Arguments, due: Kind) -> Result<u8, Error> {
    arguments.only(false, true)?;
    let input = &arguments.exactly(1)?[0];
    let output = arguments.needs_output()?;
    may_write(output, arguments.force)?;
    let opened = accept(&shown(input), bytes(input)?)?;
    if opened.kind != due {
        let (is, command) = match opened.kind {
            Kind::Dump => ("a dump", "read"),
            Kind::Book => ("a book", "write"),
        };
        return Err(Error::Usage(format!("{} is {is}: card {command} takes it", opened.name)));
    }
    let bytes = match due {
        Kind::Dump => &opened.book,
        Kind::Book => &opened.dump,
    };
    save(output, bytes, arguments.force)?;
    Ok(0)
}
