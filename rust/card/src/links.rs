//! The links of a book, as the proved library lists them, and why one is missing.

use crate::book;
use crate::card::Card;
use crate::escape::quoted;
use crate::table::{class, name};
use crate::words::octets;
use adarbukoi::{list, why, Refusal, Why};
use std::collections::HashMap;

/// The refusal whose place is the room that is needed.
const ROOM: u32 = 14;
const UNANSWERED: u32 = u32::MAX;
pub const AUTH: u32 = 1;
pub const CONDITION: u32 = 2;
pub const CERT: u32 = 3;

/// A row of the list.
#[derive(Clone, Debug, PartialEq, Eq)]
pub struct Link {
    pub row: usize,
    pub link: u32,
    pub object: usize,
    /// Book offset of the stating record.
    pub offset: usize,
    /// The identifier that is asked for.
    pub identifier: Vec<u8>,
    pub answer: Option<usize>,
    /// Why it is missing, of one that is.
    pub missing: Option<Why>,
}

/// The list's numbers, however many they are.
fn numbers(book: &[u8]) -> Result<Vec<u32>, Refusal> {
    let mut rows = vec![0; 4096];
    let count = match list(book, &mut rows) {
        Err(Refusal { number: ROOM, place }) => {
            rows = vec![0; place as usize];
            list(book, &mut rows)?
        }
        other => other?,
    };
    rows.truncate(count);
    Ok(rows)
}

/// The links of an accepted book. Why one is missing depends on link and identifier alone, so it is asked once for each.
pub fn links(book: &[u8]) -> Result<Vec<Link>, Refusal> {
    let mut known: HashMap<(u32, Vec<u8>), Why> = HashMap::new();
    let mut found = Vec::new();
    for (row, numbers) in numbers(book)?.chunks_exact(4).enumerate() {
        let identifier = identifier(book, numbers[2] as usize).to_vec();
        let mut link = Link {
            row,
            link: numbers[0],
            object: numbers[1] as usize,
            offset: numbers[2] as usize,
            answer: (numbers[3] != UNANSWERED).then_some(numbers[3] as usize),
            missing: None,
            identifier,
        };
        if link.answer.is_none() {
            let asked = (link.link, link.identifier.clone());
            let reason = match known.get(&asked) {
                Some(reason) => *reason,
                None => why(book, row as u64)?,
            };
            known.insert(asked, reason);
            link.missing = Some(reason);
        }
        found.push(link);
    }
    Ok(found)
}

/// The payload of the record at this book offset.
fn identifier(book: &[u8], offset: usize) -> &[u8] {
    let record = book.get(offset..).and_then(book::head);
    record.and_then(|(length, _)| book.get(offset + 4..offset + length)).unwrap_or(&[])
}

/// The name of a link's number.
pub fn link_name(link: u32) -> String {
    match link {
        AUTH => "auth".to_string(),
        CONDITION => "condition".to_string(),
        CERT => "cert".to_string(),
        other => format!("link {other}"),
    }
}

/// An object by its number, and its label or else its class.
pub fn object_name(card: &Card, number: usize) -> String {
    let Some(object) = card.objects.get(number) else {
        return format!("object {number}");
    };
    match (object.label(), class(object.entry_tag)) {
        (Some(label), _) => format!("object {number} {}", quoted(label)),
        (None, Some((class, _))) => format!("object {number} ({class})"),
        (None, None) => format!("object {number}"),
    }
}

/// The object whose records hold this book offset.
fn object_at(card: &Card, offset: usize) -> Option<usize> {
    card.objects.iter().rev().find(|object| object.offset <= offset).map(|object| object.number)
}

/// A record by the object that has it, its name and its book offset.
fn record_name(card: &Card, offset: usize, kind: u32) -> String {
    let name = u16::try_from(kind).map_or_else(|_| kind.to_string(), name);
    match object_at(card, offset) {
        Some(number) => format!("the {name} of {} (book offset {offset})", object_name(card, number)),
        None => format!("the {name} at book offset {offset}"),
    }
}

/// Why a link is missing, as the end of a sentence.
pub fn reason(card: &Card, link: &Link, why: &Why) -> String {
    let asked = spoken(&link.identifier);
    match why {
        Why::Met(offset, kind) => format!("it is met by {}", record_name(card, *offset, *kind)),
        Why::NoObject if link.link == CERT => "the card has no certificate at all".to_string(),
        Why::NoObject => "the card has no authentication object at all".to_string(),
        Why::Elsewhere(offset, kind) => format!("{asked} is {}", record_name(card, *offset, *kind)),
        Why::Nowhere => format!("no other identifier on the card is {asked}, but for those that ask for the same"),
    }
}

/// An identifier inside a sentence.
fn spoken(identifier: &[u8]) -> String {
    match identifier {
        [] => "the empty identifier".to_string(),
        _ => octets(identifier),
    }
}

/// What a link asks for, as the start of a sentence.
fn asks(card: &Card, link: &Link) -> String {
    let (object, asked) = (object_name(card, link.object), spoken(&link.identifier));
    match link.link {
        AUTH => format!("{object} is guarded by {asked}"),
        CONDITION => format!("{object} has {asked} in a condition"),
        _ => format!("{object} has {asked} as its iD"),
    }
}

/// Who answers a link, or that nobody does and why.
fn answers(card: &Card, link: &Link) -> String {
    let reason = link.missing.as_ref().map_or_else(String::new, |why| format!(": {}", reason(card, link, why)));
    match (link.answer, link.link) {
        (Some(answer), CERT) => format!("its certificate is {}", object_name(card, answer)),
        (Some(answer), _) => format!("that is the own authId of {}", object_name(card, answer)),
        (None, CERT) => format!("its certificate is MISSING, for none has the same iD{reason}"),
        (None, _) => format!("the guard is MISSING, for no authentication object has that own authId{reason}"),
    }
}

/// A row in a sentence.
pub fn sentence(card: &Card, link: &Link) -> String {
    capital(&format!("{}; {}.", asks(card, link), answers(card, link)))
}

/// A sentence with its first letter as a capital.
pub fn capital(words: &str) -> String {
    let mut letters = words.chars();
    letters.next().map_or_else(String::new, |first| first.to_uppercase().chain(letters).collect())
}
