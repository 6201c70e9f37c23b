//! `card set`: changes fields by name.

use crate::arguments::Arguments;
use crate::compare::differences;
use crate::edit::edited;
use crate::error::Error;
use crate::files::{accept, may_write, open, print, save, say, Kind};
use crate::links::{sentence, Link};
use crate::show::counted;
use crate::view::{view, View};
use std::collections::BTreeMap;

pub fn set(arguments: &Arguments) -> Result<u8, Error> {
    arguments.only(false, true)?;
    let [input, changes @ ..] = arguments.operands.as_slice() else {
        return Err(arguments.usage());
    };
    if changes.is_empty() {
        return Err(arguments.usage());
    }
    let output = arguments.needs_output()?;
    may_write(output, arguments.force)?;
    let before = open(input)?;
    let after = accept("the changed card", edited(&before.book, changes)?)?;
    let (old, new) = (view(&before)?, view(&after)?);
    let report = report(&old, &new);
    let bytes = match before.kind {
        Kind::Dump => &after.dump,
        Kind::Book => &after.book,
    };
    save(output, bytes, arguments.force)?;
    match output {
        "-" => say(&report),
        _ => print(report.as_bytes())?,
    }
    Ok(new.status())
}

/// What has changed, and which links that mends or breaks.
fn report(old: &View, new: &View) -> String {
    let mut lines = differences(&old.card, &new.card);
    if lines.is_empty() {
        lines.push("Nothing changes".to_string());
    }
    let (before, after) = (stated(old), stated(new));
    for (key, links) in &after {
        if let Some(word) = word(before.get(key), links) {
            lines.extend(links.iter().map(|link| format!("{word}: {}", sentence(&new.card, link))));
        }
    }
    let gone = before.iter().filter(|(key, _)| !after.contains_key(*key)).flat_map(|(_, links)| links);
    lines.extend(gone.map(|link| format!("No longer asked for: {}", sentence(&old.card, link))));
    lines.push(format!("{}, {} missing", counted(new.links.len(), "link", "links"), new.missing().count()));
    lines.join("\n") + "\n"
}

/// What has become of the links that one record states; none where they are answered as before.
fn word(before: Option<&Vec<&Link>>, after: &[&Link]) -> Option<&'static str> {
    let answers = |links: &[&Link]| links.iter().filter_map(|link| link.answer).collect::<Vec<usize>>();
    let new = answers(after);
    let Some(before) = before else {
        return Some("New");
    };
    let old = answers(before);
    match (old.is_empty(), new.is_empty()) {
        _ if old == new => None,
        (true, _) => Some("Mended"),
        (_, true) => Some("Broken"),
        _ => Some("Answered otherwise"),
    }
}

/// The links by stating object, link, and which of the object's stating records it is.
fn stated<'a>(view: &'a View) -> BTreeMap<(usize, u32, usize), Vec<&'a Link>> {
    let mut found: BTreeMap<_, Vec<&Link>> = BTreeMap::new();
    let mut last = (usize::MAX, 0, usize::MAX, 0);
    for link in &view.links {
        let (object, number, offset, nth) = last;
        let nth = match (object == link.object && number == link.link, offset == link.offset) {
            (true, true) => nth,
            (true, false) => nth + 1,
            _ => 0,
        };
        last = (link.object, link.link, link.offset, nth);
        found.entry((link.object, link.link, nth)).or_default().push(link);
    }
    found
}
