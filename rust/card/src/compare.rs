//! What differs between two cards, by object and field.

use crate::card::{Card, Object};
use crate::parts::{object, parts, Part, Value};

/// The differences, a line each.
pub fn differences(a: &Card, b: &Card) -> Vec<String> {
    let mut lines = Vec::new();
    let (left, right) = (parts(a), parts(b));
    for part in &left {
        match right.iter().find(|other| other.key == part.key) {
            Some(other) => lines.extend(changes(part, other)),
            None => lines.push(format!("{} is in the first alone", part.title)),
        }
    }
    let known = |part: &&Part| !left.iter().any(|other| other.key == part.key);
    lines.extend(right.iter().filter(known).map(|part| format!("{} is in the second alone", part.title)));
    let (pairs, first, second) = pairs(a, b);
    for (one, other) in pairs {
        lines.extend(changes(&object(a, &a.objects[one]), &object(b, &b.objects[other])));
    }
    lines.extend(first.iter().map(|one| format!("{} is in the first alone", object(a, &a.objects[*one]).title)));
    lines.extend(second.iter().map(|one| format!("{} is in the second alone", object(b, &b.objects[*one]).title)));
    lines
}

/// The fields of a part that differ.
fn changes(a: &Part, b: &Part) -> Vec<String> {
    let find = |values: &[Value], name: &str| values.iter().find(|value| value.name == name).cloned();
    let mut lines = Vec::new();
    for value in &a.values {
        let other = find(&b.values, &value.name);
        match other {
            Some(other) if other.bytes == value.bytes => {}
            Some(other) => lines.push(format!("{}, {}", a.title, change(value, &other))),
            None => lines.push(format!("{}, {}: {} becomes absent", a.title, value.name, shown(value))),
        }
    }
    let added = b.values.iter().filter(|value| find(&a.values, &value.name).is_none());
    lines.extend(added.map(|value| format!("{}, {}: absent becomes {}", a.title, value.name, shown(value))));
    lines
}

/// A value that may have no words: then its being there is all.
fn shown(value: &Value) -> &str {
    match value.words.as_str() {
        "" => "there",
        words => words,
    }
}

fn change(a: &Value, b: &Value) -> String {
    if a.words != b.words {
        return format!("{}: {} becomes {}", a.name, shown(a), shown(b));
    }
    let same = a.bytes.iter().zip(&b.bytes).take_while(|(one, other)| one == other).count();
    // two bytes of the kind stand before a payload
    format!("{}: it differs from its byte {} on", a.name, same.saturating_sub(2))
}

type Key = fn(&Object) -> Option<Vec<u8>>;

/// What an object is found by again: its identifier, else its label, else that it is there.
const FOUND_BY: [Key; 3] = [
    |object| [0x0130, 0x0140, 0x0150].iter().find_map(|kind| object.first(*kind)).map(|it| it.payload.to_vec()),
    |object| object.label().map(<[u8]>::to_vec),
    |_| Some(Vec::new()),
];

type Pairs = (Vec<(usize, usize)>, Vec<usize>, Vec<usize>);

/// Objects of one class that are the same in both cards; those of the first alone; those of the second alone.
fn pairs(a: &Card, b: &Card) -> Pairs {
    let mut first: Vec<usize> = (0..a.objects.len()).collect();
    let mut second: Vec<usize> = (0..b.objects.len()).collect();
    let mut found = Vec::new();
    for key in FOUND_BY {
        let mut left = Vec::new();
        for one in first {
            let due = key(&a.objects[one]);
            let same = |other: &usize| {
                let other = &b.objects[*other];
                due.is_some() && other.entry_tag == a.objects[one].entry_tag && key(other) == due
            };
            match second.iter().position(same) {
                Some(at) => found.push((one, second.remove(at))),
                None => left.push(one),
            }
        }
        first = left;
    }
    found.sort_unstable();
    (found, first, second)
}
