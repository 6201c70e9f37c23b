//! A record as JSON: kind, name, offset and value.

use crate::book::Record;
use crate::escape::hex;
use crate::json::Json;
use crate::table::{name, row, Form};
use crate::words::{flags, number, time};

/// A record. What is not of its form has its bytes alone.
pub fn record(record: &Record) -> Json {
    let mut parts = vec![
        ("offset", Json::count(record.offset)),
        ("kind", Json::Text(format!("{:04X}", record.kind))),
        ("name", Json::Text(name(record.kind))),
    ];
    let formed = row(record.kind).and_then(|row| formed(row.form, record.payload));
    parts.extend(formed.unwrap_or_else(|| vec![("value", Json::Null), ("bytes", Json::Text(hex(record.payload)))]));
    Json::Object(parts)
}

pub fn records(all: &[Record]) -> Json {
    Json::List(all.iter().map(record).collect())
}

type Parts = Vec<(&'static str, Json)>;

fn formed(form: Form, payload: &[u8]) -> Option<Parts> {
    let value = match form {
        Form::Number(..) => Json::Number(i64::from(number(payload)?)),
        Form::Signed(..) => Json::Number(i64::from(number(payload)? as i32)),
        Form::Flags(names) => return flag_parts(names, number(payload)?),
        Form::Choice(names) => return choice_parts(names, number(payload)?),
        Form::Boolean => match payload {
            [0] => Json::Bool(false),
            [1] => Json::Bool(true),
            _ => return None,
        },
        Form::Octets(..) | Form::Sealed => Json::Text(hex(payload)),
        Form::Text(..) => Json::text(std::str::from_utf8(payload).ok()?),
        Form::Time => Json::Text(time(payload)?),
        Form::Fill => return fill_parts(payload),
        Form::Count => Json::Number(i64::from(u16::from_le_bytes(payload.try_into().ok()?))),
        Form::Empty if payload.is_empty() => Json::Null,
        Form::Empty => return None,
        Form::Entry | Form::Object => Json::Text(hex(payload)),
    };
    Some(vec![("value", value)])
}

fn flag_parts(names: &[&str], value: u32) -> Option<Parts> {
    let set = flags(names, value).into_iter().map(Json::Text).collect();
    Some(vec![("value", Json::List(set)), ("number", Json::Number(i64::from(value)))])
}

fn choice_parts(names: &[&str], value: u32) -> Option<Parts> {
    let named = Json::or_null(names.get(value as usize), |name| Json::text(name));
    Some(vec![("value", named), ("number", Json::Number(i64::from(value)))])
}

fn fill_parts(payload: &[u8]) -> Option<Parts> {
    let [byte, low, high] = *payload else {
        return None;
    };
    let count = i64::from(u16::from_le_bytes([low, high]));
    Some(vec![("value", Json::Text(format!("{byte:02X}"))), ("count", Json::Number(count))])
}
