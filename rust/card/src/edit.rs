//! Changes of a book: OBJECT.FIELD=VALUE.

use crate::book::{put, records};
use crate::error::Error;
use crate::escape::plain;
use crate::layout::{end, renumber, Piece};
use crate::table::{row, Need, Row, TABLE};
use crate::values::{parse, Wanted};

/// Where the records that may be changed stand.
struct Range {
    from: usize,
    to: usize,
    /// Of an object, its entry tag and its own.
    tags: Option<(u8, u8)>,
}

/// A book with these changes, each as OBJECT.FIELD=VALUE. Whether it is accepted is not yet known.
pub fn edited(book: &[u8], changes: &[String]) -> Result<Vec<u8>, Error> {
    let all = records(book);
    let mut pieces: Vec<Piece> =
        all.iter().map(|record| Piece { kind: record.kind, payload: record.payload.to_vec() }).collect();
    for change in changes {
        apply(&mut pieces, change).map_err(|words| Error::Usage(format!("{}: {words}", plain(change))))?;
    }
    renumber(&mut pieces);
    let mut out = Vec::new();
    let fits = pieces.iter().all(|piece| put(&mut out, piece.kind, &piece.payload));
    match fits {
        true => Ok(out),
        false => Err(Error::Usage("a record would be too long".to_string())),
    }
}

fn apply(pieces: &mut Vec<Piece>, change: &str) -> Result<(), String> {
    let (place, value) = change.split_once('=').ok_or("it is not of the form OBJECT.FIELD=VALUE")?;
    let (object, field) = place.split_once('.').ok_or("it is not of the form OBJECT.FIELD=VALUE")?;
    let range = range(pieces, object)?;
    let row = field_row(pieces, &range, field)?;
    let wanted = parse(row, value)?;
    if wanted == Wanted::Absent && is_needed(range.tags, row) {
        return Err(format!("{} has to be there", row.name));
    }
    change_record(pieces, &range, row.kind, wanted);
    Ok(())
}

/// The records of CIAInfo, or of an object by its number.
fn range(pieces: &[Piece], object: &str) -> Result<Range, String> {
    if plainly(object) == "ciainfo" {
        let to = pieces.iter().take_while(|piece| (0x0101..=0x0106).contains(&piece.kind)).count();
        return Ok(Range { from: 0, to, tags: None });
    }
    let number: usize = object.parse().map_err(|_| format!("{} is no object's number", plain(object)))?;
    let openings = pieces.iter().enumerate().filter(|(_, piece)| piece.kind == 0x0120);
    let (at, opening) = openings
        .clone()
        .nth(number)
        .ok_or_else(|| format!("there is no object {number}: the card has {}, counted from 0", openings.count()))?;
    let tags = match opening.payload.as_slice() {
        [entry, tag, ..] => Some((*entry, *tag)),
        _ => None,
    };
    Ok(Range { from: at + 1, to: end(pieces, at + 1), tags })
}

/// A name without spaces, dashes and capitals, so that `own-authId` is `own authId`.
fn plainly(name: &str) -> String {
    name.chars().filter(|c| !matches!(c, ' ' | '-')).collect::<String>().to_lowercase()
}

/// Whether a record has to be there: a Path's first component has to, but a password may have no Path.
fn is_needed(tags: Option<(u8, u8)>, row: &Row) -> bool {
    let may_lack_path = matches!(tags, Some((0xA8, _))) && row.kind == 0x0180;
    row.need == Need::Required && !may_lack_path
}

/// Whether an object of these tags, or CIAInfo, may have a record of this kind.
fn may_have(tags: Option<(u8, u8)>, kind: u16) -> bool {
    let Some((entry, tag)) = tags else {
        return (0x0101..=0x0106).contains(&kind);
    };
    match kind {
        0x0121..=0x012F => true,
        0x0130..=0x013F => matches!(entry, 0xA0..=0xA3),
        0x0140..=0x014F => matches!(entry, 0xA4..=0xA6),
        0x0150..=0x015F => entry == 0xA8,
        0x0180..=0x0182 => tag == 0x30 && matches!(entry, 0xA0 | 0xA4..=0xA6 | 0xA8),
        0x0183 => tag == 0x30 && entry == 0xA0,
        0x0190..=0x019F => tag == 0x30 && entry == 0xA8,
        _ => false,
    }
}

/// The row of a field by its name.
fn field_row(pieces: &[Piece], range: &Range, field: &str) -> Result<&'static Row, String> {
    let name = plainly(field);
    if name == "authid" {
        return Err("authId is two fields: `guarded by`, what guards the object, and `own authId`, what an \
                    authentication object bears"
            .to_string());
    }
    // a certificate that has its value has no Path
    let sealed = pieces[range.from..range.to].iter().any(|piece| piece.kind == 0x0184);
    let may = |row: &&Row| may_have(range.tags, row.kind) && !(sealed && (0x0180..=0x0182).contains(&row.kind));
    let mut known = TABLE.iter().filter(may);
    if let Some(row) = known.clone().find(|row| plainly(row.name) == name) {
        return match row.set {
            true => Ok(row),
            false => Err(format!("{} can't be changed", row.name)),
        };
    }
    let there = pieces[range.from..range.to].iter().filter_map(|piece| row(piece.kind));
    if let Some(row) = there.clone().find(|row| plainly(row.name) == name) {
        return Err(format!("{} can't be changed", row.name));
    }
    let names: Vec<&str> = known.by_ref().filter(|row| row.set).map(|row| row.name).collect();
    Err(format!("there is no such field; there are {}", names.join(", ")))
}

/// Where a kind stands among an object's records: a password's Path is behind its other components.
fn rank(tags: Option<(u8, u8)>, kind: u16) -> u16 {
    match (tags, kind) {
        (Some((0xA8, _)), 0x0180..=0x0182) => kind + 0x18,
        _ => kind,
    }
}

/// Puts a record in the place of the one of its kind, or where it belongs; or takes it away.
fn change_record(pieces: &mut Vec<Piece>, range: &Range, kind: u16, wanted: Wanted) {
    let inside = &pieces[range.from..range.to];
    let there = inside.iter().position(|piece| piece.kind == kind).map(|at| range.from + at);
    let behind = |piece: &Piece| rank(range.tags, piece.kind) > rank(range.tags, kind);
    let free = inside.iter().position(behind).map_or(range.to, |at| range.from + at);
    match (there, wanted) {
        (Some(at), Wanted::Payload(payload)) => pieces[at].payload = payload,
        (Some(at), Wanted::Absent) => {
            pieces.remove(at);
        }
        (None, Wanted::Payload(payload)) => pieces.insert(free, Piece { kind, payload }),
        (None, Wanted::Absent) => {}
    }
}
