//! An accepted card with its tree and its links: what every output is made from.

use crate::card::{card, Card};
use crate::error::Error;
use crate::files::Opened;
use crate::links::{links, Link};
use crate::refusal::of_book;

pub struct View<'a> {
    pub opened: &'a Opened,
    pub card: Card<'a>,
    pub links: Vec<Link>,
}

/// The view of a card.
pub fn view(opened: &Opened) -> Result<View<'_>, Error> {
    let refused = |refusal| Error::Refused(Box::new(of_book(&opened.name, &opened.book, refusal)));
    let links = links(&opened.book).map_err(refused)?;
    Ok(View { opened, card: card(&opened.book), links })
}

impl View<'_> {
    /// The links that are missing.
    pub fn missing(&self) -> impl Iterator<Item = &Link> {
        self.links.iter().filter(|link| link.answer.is_none())
    }

    /// 1 where a link is missing, else 0.
    pub fn status(&self) -> u8 {
        u8::from(self.missing().next().is_some())
    }

    /// The links that a record states.
    pub fn stated(&self, offset: usize) -> impl Iterator<Item = &Link> {
        let from = self.links.partition_point(|link| link.offset < offset);
        self.links[from..].iter().take_while(move |link| link.offset == offset)
    }

    /// The links that an object answers.
    pub fn answered(&self, object: usize) -> impl Iterator<Item = &Link> {
        self.links.iter().filter(move |link| link.answer == Some(object))
    }
}
