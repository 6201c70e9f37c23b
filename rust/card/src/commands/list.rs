//! `card list`: the links, a row each.

use crate::arguments::Arguments;
use crate::error::Error;
use crate::files::{open, print};
use crate::links::{link_name, object_name, Link};
use crate::view::{view, View};
use crate::words::octets;

pub fn list(arguments: &Arguments) -> Result<u8, Error> {
    arguments.only(false, false)?;
    let opened = open(&arguments.exactly(1)?[0])?;
    let view = view(&opened)?;
    let mut text = format!("links {}\n", view.links.len());
    view.links.iter().for_each(|link| text += &row(&view, link));
    print(text.as_bytes())?;
    Ok(view.status())
}

fn row(view: &View, link: &Link) -> String {
    let answer = link.answer.map_or_else(|| "MISSING".to_string(), |answer| object_name(&view.card, answer));
    let (row, name, offset) = (link.row, link_name(link.link), link.offset);
    let (object, asked) = (object_name(&view.card, link.object), octets(&link.identifier));
    format!("{row} {name}, {object}, at {offset}, {asked}: {answer}\n")
}
