//! Values from words, as `show` prints them: the way back of words.rs.

use crate::escape::unescape;
use crate::table::{Form, Need, Row};

/// What a field is to become.
#[derive(Clone, Debug, PartialEq, Eq)]
pub enum Wanted {
    Payload(Vec<u8>),
    /// No record: it was said so, or the value is the default.
    Absent,
}

/// The value of a field, or what is wrong with it.
pub fn parse(row: &Row, words: &str) -> Result<Wanted, String> {
    if words == "absent" {
        return Ok(Wanted::Absent);
    }
    let payload = match row.form {
        Form::Number(low, high) | Form::Signed(low, high) => number(row, words, low, high)?,
        Form::Flags(names) => flags(row, words, names)?,
        Form::Choice(names) => choice(row, words, names)?,
        Form::Boolean => boolean(row, words)?,
        Form::Octets(low, high) => octets(row, words, low, high)?,
        Form::Text(_, high) => text(row, words, high)?,
        Form::Time => time(row, words)?,
        _ => return Err(format!("{} can't be changed", row.name)),
    };
    Ok(match row.need {
        Need::Default(default) if is_default(&payload, default) => Wanted::Absent,
        _ => Wanted::Payload(payload),
    })
}

fn is_default(payload: &[u8], default: u32) -> bool {
    let bytes = default.to_le_bytes();
    payload == &bytes[..payload.len().min(bytes.len())]
}

fn number(row: &Row, words: &str, low: i64, high: i64) -> Result<Vec<u8>, String> {
    let value = words.parse::<i64>().ok().filter(|value| (low..=high).contains(value));
    let value = value.ok_or_else(|| format!("{} is a number from {low} to {high}", row.name))?;
    Ok((value as i32).to_le_bytes().to_vec())
}

/// The bit of a name, or of `bit17`.
fn bit(names: &[&str], word: &str) -> Option<u32> {
    let named = names.iter().position(|name| *name == word).map(|at| at as u32);
    named.or_else(|| word.strip_prefix("bit")?.parse().ok()).filter(|bit| *bit < 32)
}

fn flags(row: &Row, words: &str, names: &[&str]) -> Result<Vec<u8>, String> {
    let mut value = 0u32;
    let parts = words.split([',', ' ']).filter(|word| !word.is_empty());
    let parts: Vec<&str> = parts.collect();
    if parts.is_empty() {
        return Err(format!("{} is none, or some of {}", row.name, names.join(", ")));
    }
    for word in parts.into_iter().filter(|word| *word != "none") {
        let bit = bit(names, word).ok_or_else(|| format!("{} is none, or some of {}", row.name, names.join(", ")))?;
        value |= 1 << bit;
    }
    Ok(value.to_le_bytes().to_vec())
}

fn choice(row: &Row, words: &str, names: &[&str]) -> Result<Vec<u8>, String> {
    let at = names.iter().position(|name| *name == words);
    let at = at.ok_or_else(|| format!("{} is one of {}", row.name, names.join(", ")))?;
    Ok((at as u32).to_le_bytes().to_vec())
}

fn boolean(row: &Row, words: &str) -> Result<Vec<u8>, String> {
    match words {
        "true" => Ok(vec![1]),
        "false" => Ok(vec![0]),
        _ => Err(format!("{} is true or false", row.name)),
    }
}

/// What stands between double quotes, its escapes as characters.
fn between_quotes(words: &str) -> Option<String> {
    unescape(words.strip_prefix('"')?.strip_suffix('"')?)
}

fn hex(words: &str) -> Option<Vec<u8>> {
    let digits: Vec<u8> = words.bytes().filter(|byte| *byte != b' ').collect();
    if digits.len() % 2 == 1 || !digits.iter().all(u8::is_ascii_hexdigit) {
        return None;
    }
    let digit = |byte: u8| (byte as char).to_digit(16).unwrap_or(0) as u8;
    Some(digits.chunks(2).map(|pair| digit(pair[0]) << 4 | digit(pair[1])).collect())
}

fn octets(row: &Row, words: &str, low: i64, high: i64) -> Result<Vec<u8>, String> {
    let found = match words {
        "empty" => Some(Vec::new()),
        _ if words.starts_with('"') => between_quotes(words).map(String::into_bytes),
        // show prints octets that are text as `4331 "C1"`
        _ => hex(words.split('"').next().unwrap_or(words)),
    };
    let fits = |bytes: &Vec<u8>| (low..=high).contains(&(bytes.len() as i64));
    found.filter(fits).ok_or_else(|| format!("{} is {low} to {high} bytes in hex, or text in quotes", row.name))
}

fn text(row: &Row, words: &str, high: i64) -> Result<Vec<u8>, String> {
    let found = match words.starts_with('"') {
        true => between_quotes(words),
        false => Some(words.to_string()),
    };
    let found = found.ok_or_else(|| format!("{} is not a text in quotes as show prints it", row.name))?;
    match found.chars().count() as i64 > high {
        true => Err(format!("{} has at most {high} characters", row.name)),
        false => Ok(found.into_bytes()),
    }
}

/// `2026-11-18 09:30:00 UTC`; whether there is such a day is the library's to say.
fn time(row: &Row, words: &str) -> Result<Vec<u8>, String> {
    let wrong = || format!("{} is a time as 2026-11-18 09:30:00 UTC", row.name);
    let form = "0000-00-00 00:00:00 UTC";
    let same = |(given, due): (u8, u8)| if due == b'0' { given.is_ascii_digit() } else { given == due };
    if words.len() != form.len() || !words.bytes().zip(form.bytes()).all(same) {
        return Err(wrong());
    }
    let mut digits: Vec<u8> = words.bytes().filter(u8::is_ascii_digit).collect();
    digits.push(b'Z');
    Ok(digits)
}
