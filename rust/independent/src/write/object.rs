//! An object from its records.

use super::condition::condition;
use super::element::{boolean, element, flags, integer, octets};
use super::records::Records;

/// Puts the next record, if it is of this kind, behind `out` in the form that `form` gives it.
pub fn optional(out: &mut Vec<u8>, records: &mut Records, kind: u16, tag: u8, form: fn(u8, &[u8]) -> Vec<u8>) {
    if let Some(payload) = records.take(kind) {
        out.extend(form(tag, payload));
    }
}

/// As `optional`, for numbers.
fn optional_number(
    out: &mut Vec<u8>,
    records: &mut Records,
    kind: u16,
    tag: u8,
    form: fn(u8, u32) -> Vec<u8>,
) -> Option<()> {
    if let Some(value) = records.optional_number(kind)? {
        out.extend(form(tag, value));
    }
    Some(())
}

/// Puts the next record, if it is of this kind, behind `out` as it stands.
pub fn rest(out: &mut Vec<u8>, records: &mut Records, kind: u16) {
    out.extend(records.take(kind).unwrap_or_default());
}

pub fn object(records: &mut Records, entry_tag: u8, object_tag: u8) -> Option<Vec<u8>> {
    let mut inside = element(0x30, &common(records)?);
    inside.extend(element(0x30, &class(records, entry_tag)?));
    if let Some(sealed) = records.take(0x0170) {
        inside.extend(element(0xA0, sealed));
    }
    inside.extend(element(0xA1, &type_attributes(records, entry_tag, object_tag)?));
    Some(element(object_tag, &inside))
}

fn common(records: &mut Records) -> Option<Vec<u8>> {
    let mut out = Vec::new();
    optional(&mut out, records, 0x0121, 0x0C, octets);
    optional_number(&mut out, records, 0x0122, 0x03, flags)?;
    optional(&mut out, records, 0x0123, 0x04, octets);
    optional_number(&mut out, records, 0x0124, 0x02, integer)?;
    let rules = rules(records)?;
    if !rules.is_empty() {
        out.extend(element(0x30, &rules));
    }
    rest(&mut out, records, 0x012F);
    Some(out)
}

fn rules(records: &mut Records) -> Option<Vec<u8>> {
    let mut all = Vec::new();
    while let Some(access_mode) = records.optional_number(0x0125)? {
        let mut rule = flags(0x03, access_mode);
        rule.extend(condition(records, 8)?);
        rest(&mut rule, records, 0x012C);
        all.extend(element(0x30, &rule));
    }
    Some(all)
}

fn class(records: &mut Records, entry_tag: u8) -> Option<Vec<u8>> {
    match entry_tag {
        0xA0..=0xA3 => key_class(records),
        0xA4..=0xA6 => certificate_class(records),
        0xA7 => records.take(0x0160).map(<[u8]>::to_vec),
        0xA8 => authentication_class(records),
        _ => None,
    }
}

fn key_class(records: &mut Records) -> Option<Vec<u8>> {
    let mut out = octets(0x04, records.take(0x0130)?);
    out.extend(flags(0x03, records.number(0x0131)?));
    optional(&mut out, records, 0x0132, 0x01, boolean);
    optional_number(&mut out, records, 0x0133, 0x03, flags)?;
    optional_number(&mut out, records, 0x0134, 0x02, integer)?;
    optional(&mut out, records, 0x0135, 0x18, octets);
    optional(&mut out, records, 0x0136, 0x80, octets);
    rest(&mut out, records, 0x013F);
    Some(out)
}

fn certificate_class(records: &mut Records) -> Option<Vec<u8>> {
    let mut out = octets(0x04, records.take(0x0140)?);
    optional(&mut out, records, 0x0141, 0x01, boolean);
    rest(&mut out, records, 0x014F);
    Some(out)
}

fn authentication_class(records: &mut Records) -> Option<Vec<u8>> {
    let mut out = Vec::new();
    optional(&mut out, records, 0x0150, 0x04, octets);
    optional_number(&mut out, records, 0x0151, 0x02, integer)?;
    optional_number(&mut out, records, 0x0152, 0x80, integer)?;
    rest(&mut out, records, 0x015F);
    Some(out)
}

/// What stands inside the A1.
fn type_attributes(records: &mut Records, entry_tag: u8, object_tag: u8) -> Option<Vec<u8>> {
    let contents = match (entry_tag, object_tag) {
        (0xA0, 0x30) => private_key(records)?,
        (0xA4..=0xA6, 0x30) => certificate(records)?,
        (0xA8, 0x30) => password(records)?,
        _ => return records.take(0x01A0).map(<[u8]>::to_vec),
    };
    Some(element(0x30, &contents))
}

fn private_key(records: &mut Records) -> Option<Vec<u8>> {
    let mut out = path(records)?;
    out.extend(integer(0x02, records.number(0x0183)?));
    rest(&mut out, records, 0x018F);
    Some(out)
}

fn certificate(records: &mut Records) -> Option<Vec<u8>> {
    let mut out = match records.take(0x0184) {
        Some(sealed) => sealed.to_vec(),
        None => path(records)?,
    };
    rest(&mut out, records, 0x018F);
    Some(out)
}

fn password(records: &mut Records) -> Option<Vec<u8>> {
    let mut out = flags(0x03, records.number(0x0190)?);
    out.extend(integer(0x0A, records.number(0x0191)?));
    out.extend(integer(0x02, records.number(0x0192)?));
    out.extend(integer(0x02, records.number(0x0193)?));
    optional_number(&mut out, records, 0x0194, 0x02, integer)?;
    optional_number(&mut out, records, 0x0195, 0x80, integer)?;
    optional(&mut out, records, 0x0196, 0x04, octets);
    optional(&mut out, records, 0x0197, 0x18, octets);
    if records.kind() == Some(0x0180) {
        out.extend(path(records)?);
    }
    rest(&mut out, records, 0x019F);
    Some(out)
}

fn path(records: &mut Records) -> Option<Vec<u8>> {
    path_of_kinds(records, 0x30, 0x0180)
}

/// A Path with this tag from a record of this kind and the next two.
pub fn path_of_kinds(records: &mut Records, tag: u8, kind: u16) -> Option<Vec<u8>> {
    let mut inside = octets(0x04, records.take(kind)?);
    optional_number(&mut inside, records, kind + 1, 0x02, integer)?;
    optional_number(&mut inside, records, kind + 2, 0x80, integer)?;
    Some(element(tag, &inside))
}
