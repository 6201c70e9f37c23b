//! An object's records as the fields that a reader sees: a rule is one field, every other record is one.

use crate::book::Record;
use crate::condition::condition;
use crate::table::name;
use crate::words::value;

pub struct Field<'a, 'b> {
    pub name: String,
    pub value: String,
    /// What it is made of, at least one record.
    pub records: &'b [Record<'a>],
}

/// The fields of an object, of CIAInfo or of a template.
pub fn fields<'a, 'b>(records: &'b [Record<'a>]) -> Vec<Field<'a, 'b>> {
    let mut found = Vec::new();
    let mut rules = 0;
    let mut at = 0;
    while let Some(record) = records.get(at) {
        let field = match record.kind {
            0x0125 => {
                rules += 1;
                rule(rules, &records[at..])
            }
            kind => Field { name: name(kind), value: value(record), records: &records[at..at + 1] },
        };
        at += field.records.len();
        found.push(field);
    }
    found
}

/// A rule: what it allows, its condition, its rest.
fn rule<'a, 'b>(number: usize, records: &'b [Record<'a>]) -> Field<'a, 'b> {
    let (words, used) = condition(&records[1..]);
    let mut value = format!("{}: {words}", value(&records[0]));
    let mut count = 1 + used;
    if let Some(rest) = records.get(count).filter(|record| record.kind == 0x012C) {
        value += &format!("; rest {}", crate::words::value(rest));
        count += 1;
    }
    Field { name: format!("rule {number}"), value, records: &records[..count] }
}
