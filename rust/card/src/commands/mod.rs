//! The commands.

mod diff;
mod list;
mod place;
mod set;
mod turn;
mod why;

use crate::arguments::Arguments;
use crate::error::Error;
use crate::escape::plain;
use crate::files::{open, print};
use crate::view::view;
use crate::{help, show, show_json};

pub use place::object_start;

/// Does what was asked for, and tells the status to end with.
pub fn run(arguments: &Arguments) -> Result<u8, Error> {
    if arguments.version {
        print(concat!("card ", env!("CARGO_PKG_VERSION"), "\n").as_bytes())?;
        return Ok(0);
    }
    if arguments.help || arguments.command == "help" {
        let asked = arguments.operands.first().filter(|_| arguments.command == "help").unwrap_or(&arguments.command);
        print(help::of(asked).unwrap_or(help::ALL).as_bytes())?;
        return Ok(0);
    }
    match arguments.command.as_str() {
        "show" => show_card(arguments),
        "list" => list::list(arguments),
        "why" => why::why(arguments),
        "where" => place::place(arguments),
        "diff" => diff::diff(arguments),
        "set" => set::set(arguments),
        "read" => turn::read(arguments),
        "write" => turn::write(arguments),
        "" => Err(arguments.usage()),
        other => Err(Error::Usage(format!("there is no command {}; see card --help", plain(other)))),
    }
}

fn show_card(arguments: &Arguments) -> Result<u8, Error> {
    arguments.only(true, false)?;
    let opened = open(&arguments.exactly(1)?[0])?;
    let view = view(&opened)?;
    let text = match arguments.json {
        true => show_json::show(&view),
        false => show::show(&view),
    };
    print(text.as_bytes())?;
    Ok(view.status())
}
