//! Values in words.

use crate::book::Record;
use crate::escape::{hex, quoted};
use crate::table::{row, Form};

/// A sealed part is shown up to so many bytes.
const SEALED_SHOWN: usize = 32;

/// A payload's number; none where it has not four bytes.
pub fn number(payload: &[u8]) -> Option<u32> {
    payload.try_into().ok().map(u32::from_le_bytes)
}

/// The names of the bits that are set, from bit 0 on.
pub fn flags(names: &[&str], value: u32) -> Vec<String> {
    let named = |bit: u32| names.get(bit as usize).map_or_else(|| format!("bit{bit}"), |name| name.to_string());
    (0..32).filter(|bit| value >> bit & 1 == 1).map(named).collect()
}

/// An identifier or other octets in hex; none at all are `empty`.
pub fn octets(payload: &[u8]) -> String {
    match payload {
        [] => "empty".to_string(),
        _ => hex(payload),
    }
}

/// Octets in hex, and as text where two or more are all printable.
fn octets_and_text(payload: &[u8]) -> String {
    let printable = payload.len() > 1 && payload.iter().all(|byte| matches!(byte, 0x20..=0x7E));
    match printable {
        true => format!("{} {}", hex(payload), quoted(payload)),
        false => octets(payload),
    }
}

/// `YYYYMMDDhhmmssZ` as `2026-11-18 09:30:00 UTC`; none where it is not so.
pub fn time(payload: &[u8]) -> Option<String> {
    let text = std::str::from_utf8(payload).ok()?;
    let digits = text.strip_suffix('Z')?;
    if digits.len() != 14 || !digits.bytes().all(|byte| byte.is_ascii_digit()) {
        return None;
    }
    let part = |from: usize, to: usize| &digits[from..to];
    let (day, hour) = ([part(0, 4), part(4, 6), part(6, 8)], [part(8, 10), part(10, 12), part(12, 14)]);
    Some(format!("{} {} UTC", day.join("-"), hour.join(":")))
}

/// Sealed elements in hex, long ones cut.
fn sealed(payload: &[u8]) -> String {
    match payload.get(..SEALED_SHOWN) {
        Some(start) if payload.len() > SEALED_SHOWN => format!("{}.. ({} bytes)", hex(start), payload.len()),
        _ => octets(payload),
    }
}

fn fill(payload: &[u8]) -> Option<String> {
    let [byte, low, high] = *payload else {
        return None;
    };
    let count = u16::from_le_bytes([low, high]);
    Some(format!("{byte:02X}, {count} {}", if count == 1 { "byte" } else { "bytes" }))
}

fn boolean(payload: &[u8]) -> Option<String> {
    match payload {
        [0] => Some("false".to_string()),
        [1] => Some("true".to_string()),
        _ => None,
    }
}

/// A value in its form; none where the payload is not of that form.
fn formed(form: Form, payload: &[u8]) -> Option<String> {
    match form {
        Form::Number(..) => number(payload).map(|value| value.to_string()),
        Form::Signed(..) => number(payload).map(|value| (value as i32).to_string()),
        Form::Flags(names) => number(payload).map(|value| match value {
            0 => "none".to_string(),
            _ => flags(names, value).join(", "),
        }),
        Form::Choice(names) => number(payload)
            .map(|value| names.get(value as usize).map_or_else(|| value.to_string(), |name| name.to_string())),
        Form::Boolean => boolean(payload),
        Form::Octets(..) => Some(octets_and_text(payload)),
        Form::Text(..) => std::str::from_utf8(payload).ok().map(|_| quoted(payload)),
        Form::Time => time(payload),
        Form::Sealed => Some(sealed(payload)),
        Form::Fill => fill(payload),
        Form::Count => payload.try_into().ok().map(|count| u16::from_le_bytes(count).to_string()),
        Form::Empty => payload.is_empty().then(String::new),
        Form::Entry | Form::Object => None,
    }
}

/// A record's value in words; what is not of its form, or of no known kind, in hex.
pub fn value(record: &Record) -> String {
    row(record.kind).and_then(|row| formed(row.form, record.payload)).unwrap_or_else(|| octets(record.payload))
}
