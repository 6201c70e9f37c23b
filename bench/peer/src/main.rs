//! The same dumps, decoded and encoded with the asn1 crate: typed, with all bounds. It knows no EF.DIR, record files and fill; the cards have none.
mod forms;
mod objects;

use asn1::{Asn1Readable, ParseResult};
use forms::bad;
use objects::{Class, Entry, Info, Object};
use std::collections::HashSet;
use std::hint::black_box;
use std::time::Instant;

/// A dump: CIAInfo, EF.OD's entries, and for each path among them its objects.
struct Card<'a> {
    info: Info<'a>,
    entries: Vec<Entry<'a>>,
    files: Vec<(&'a [u8], Vec<Object<'a>>)>,
}

/// The payload of the next record, if it is of this kind.
fn record<'a>(dump: &mut &'a [u8], kind: u16) -> ParseResult<&'a [u8]> {
    let s = *dump;
    if s.len() < 4 || u16::from_le_bytes([s[2], s[3]]) != kind {
        return bad();
    }
    let end = 2 + usize::from(u16::from_le_bytes([s[0], s[1]]));
    if end < 4 || s.len() < end {
        return bad();
    }
    *dump = &s[end..];
    Ok(&s[4..end])
}

/// A directory file, behind its path.
fn file<'a>(payload: &'a [u8], path: &[u8], entry: u8) -> ParseResult<(&'a [u8], Vec<Object<'a>>)> {
    let (length, name) = payload.split_first().map_or((0, payload), |(x, more)| (usize::from(*x), more));
    if length != path.len() || !name.starts_with(path) {
        return bad();
    }
    let (name, body) = name.split_at(length);
    Ok((name, asn1::parse(body, |p| objects::objects(p, entry))?))
}

impl<'a> Card<'a> {
    fn decode(mut dump: &'a [u8]) -> ParseResult<Self> {
        let info = asn1::parse_single(record(&mut dump, 1)?)?;
        let entries = asn1::parse(record(&mut dump, 2)?, |p| {
            let mut all = Vec::new();
            while !p.is_empty() {
                all.push(Entry::parse(p)?);
            }
            ParseResult::Ok(all)
        })?;
        let mut files = Vec::new();
        let mut paths = HashSet::new();
        for entry in &entries {
            if let Entry::Path(tag, named) = entry {
                if !paths.insert(named.path.0) {
                    return bad();
                }
                files.push(file(record(&mut dump, 3)?, named.path.0, tag.as_u8().unwrap_or(0))?);
            }
        }
        let card = Card { info, entries, files };
        if dump.is_empty() && card.is_sound() {
            return Ok(card);
        }
        bad()
    }

    fn objects(&self) -> impl Iterator<Item = &Object<'a>> {
        let inside = self.entries.iter().flat_map(|entry| match entry {
            Entry::Objects(_, all) => &all[..],
            _ => &[],
        });
        inside.chain(self.files.iter().flat_map(|(_, all)| all))
    }

    /// At most 128 objects, no two with the same own authId.
    fn is_sound(&self) -> bool {
        let mut seen = HashSet::new();
        let differ = self.objects().all(|object| match &object.class {
            Class::Authentication(x) => x.auth_id.as_ref().map_or(true, |id| seen.insert(id.0)),
            _ => true,
        });
        differ && self.objects().count() <= 128
    }

    fn encode(&self) -> Vec<u8> {
        let mut out = Vec::new();
        put(&mut out, 1, &[], &asn1::write_single(&self.info).unwrap());
        put(&mut out, 2, &[], &asn1::write(|w| self.entries.iter().try_for_each(|x| w.write_element(x))).unwrap());
        for (path, all) in &self.files {
            put(&mut out, 3, path, &asn1::write(|w| all.iter().try_for_each(|x| w.write_element(x))).unwrap());
        }
        out
    }
}

/// A record of the dump: a file, behind its path if it has one.
fn put(out: &mut Vec<u8>, kind: u16, path: &[u8], body: &[u8]) {
    let front = if path.is_empty() { 0 } else { 1 + path.len() };
    out.extend_from_slice(&((2 + front + body.len()) as u16).to_le_bytes());
    out.extend_from_slice(&kind.to_le_bytes());
    if front != 0 {
        out.push(path.len() as u8);
        out.extend_from_slice(path);
    }
    out.extend_from_slice(body);
}

/// The best of 40 batches, each long enough for some milliseconds.
fn best(mut f: impl FnMut()) -> f64 {
    let mut batch = |turns: u32| {
        let start = Instant::now();
        (0..turns).for_each(|_| f());
        start.elapsed().as_nanos() as f64
    };
    let mut turns = 1;
    while batch(turns) <= 3e6 {
        turns *= 2;
    }
    (0..40).map(|_| batch(turns) / f64::from(turns)).fold(f64::INFINITY, f64::min)
}

fn main() {
    let cards: Vec<_> = std::env::args().skip(1).map(|name| (std::fs::read(&name).unwrap(), name)).collect();
    let mut low = vec![[f64::INFINITY; 2]; cards.len()];
    for _round in 0..3 {
        for ((dump, name), low) in cards.iter().zip(&mut low) {
            let card = Card::decode(dump).unwrap_or_else(|e| panic!("{name}: {e:?}"));
            assert!(card.encode() == *dump, "{name}: other bytes");
            low[0] = low[0].min(best(|| drop(black_box(Card::decode(black_box(dump))))));
            low[1] = low[1].min(best(|| drop(black_box(Card::decode(black_box(dump)).map(|card| card.encode())))));
        }
    }
    println!("| card | bytes | decode | decode and encode |\n|---|---|---|---|");
    for ((dump, name), [decode, both]) in cards.iter().zip(low) {
        let title = name.rsplit('/').next().unwrap_or(name).trim_end_matches(".dump");
        println!("| {title} | {} | {decode:.0} | {both:.0} |", dump.len());
    }
}
