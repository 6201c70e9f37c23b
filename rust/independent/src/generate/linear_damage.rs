//! Damage to record files. The lengths of the dump's records are right afterwards, those inside the file not always.

use super::bytes;
use super::node::{places, with_length, Record};
use super::rng::Rng;
use crate::read::linear;

/// Records to add: of nothing, of fill, of fill that differs, and of what begins no object.
const MORE: [&[u8]; 6] = [b"", b"\x00\x00\x00", b"\xFF\xFF\xFF", b"\x00\xFF", b"\x30", b"\x1F"];

/// Bytes to add: a single one where a record length would start, and lengths that run over, by one and by many.
const ENDS: [&[u8]; 6] = [b"\x00", b"\xFF", b"\x30", b"\x01\x00", b"\xFF\xFF", b"\x05\x00\x00\x00\x00\x00"];

/// Damages one of the files among these records of a dump, mostly a record file.
pub fn damage(rng: &mut Rng, dump: &mut [Record]) {
    let (linear, any) = (places(dump, &[4]), places(dump, &[3, 4]));
    if linear.is_empty() {
        return;
    }
    let file = &mut dump[rng.pick(&linear)];
    match rng.below(20) {
        0 => file.payload[0] = rng.pick(&[0, 1, 2, 3, 64, 65, 255]),
        1 => file.kind = rng.pick(&[5, 6, 5, 0, 2, 0x0104, 0x0400]),
        2 => file.kind = 3,
        3 => {
            let other = &mut dump[rng.pick(&any)];
            // 3 becomes 4, and 4 becomes 3
            other.kind = 7 - other.kind;
        }
        4..=9 => damage_lengths(rng, &mut file.payload),
        _ => damage_list(rng, &mut file.payload),
    }
}

/// Path length and path, and the bytes of each record; none if the record lengths do not fit.
fn take_apart(payload: &[u8]) -> Option<(Vec<u8>, Vec<Vec<u8>>)> {
    let head = payload.get(..1 + usize::from(*payload.first()?))?;
    let spans = linear::records(payload, head.len(), payload.len())?;
    let records = spans.iter().map(|(from, end)| payload[*from..*end].to_vec());
    Some((head.to_vec(), records.collect()))
}

/// Drops, doubles, swaps, joins, splits, adds or changes records; all record lengths are right.
fn damage_list(rng: &mut Rng, payload: &mut Vec<u8>) {
    let Some((head, mut records)) = take_apart(payload) else {
        return bytes::damage(rng, payload);
    };
    if records.is_empty() {
        records.push(vec![]);
    }
    let at = rng.below(records.len());
    let other = rng.below(records.len());
    match rng.below(9) {
        0 => {
            records.remove(at);
        }
        1 => records.insert(other, records[at].clone()),
        2 => records.swap(at, other),
        3 => join_two(&mut records, at),
        4 => split(rng, &mut records, at),
        5 | 6 => shift(rng, &mut records, at),
        7 => records.insert(at, rng.pick(&MORE).to_vec()),
        _ => bytes::damage(rng, &mut records[at]),
    }
    *payload = head;
    payload.extend(records.iter().flat_map(|record| with_length(record)));
}

/// One record of two neighbours.
fn join_two(records: &mut Vec<Vec<u8>>, at: usize) {
    if at + 1 < records.len() {
        let next = records.remove(at + 1);
        records[at].extend(next);
    }
}

/// Two records of one.
fn split(rng: &mut Rng, records: &mut Vec<Vec<u8>>, at: usize) {
    let place = rng.below(records[at].len() + 1);
    let rest = records[at].split_off(place);
    records.insert(at + 1, rest);
}

/// The end of a record goes over to its neighbour, so that an object runs over its record but not over the file.
fn shift(rng: &mut Rng, records: &mut Vec<Vec<u8>>, at: usize) {
    if at + 1 == records.len() {
        records.push(vec![]);
    }
    let length = records[at].len();
    let count = rng.pick(&[1, 1, 2, length / 2, length]).min(length);
    let mut moved = records[at].split_off(length - count);
    moved.extend(&records[at + 1]);
    records[at + 1] = moved;
}

/// Makes a record length wrong, or what it counts.
fn damage_lengths(rng: &mut Rng, payload: &mut Vec<u8>) {
    let Some((head, records)) = take_apart(payload) else {
        return bytes::damage(rng, payload);
    };
    if records.is_empty() || rng.chance(30) {
        return payload.extend(rng.pick(&ENDS));
    }
    let index = if rng.chance(50) { records.len() - 1 } else { rng.below(records.len()) };
    let place = head.len() + records[..index].iter().map(|record| record.len() + 2).sum::<usize>();
    let length = records[index].len();
    let left = payload.len() - place - 2;
    let wrong = match rng.below(8) {
        0 | 1 => left + 1,
        2 => left + rng.between(2, 300),
        3 => 0xFFFF,
        4 => left,
        5 => length.saturating_sub(1),
        6 => length + 1,
        _ => return payload.truncate(rng.between(head.len(), payload.len())),
    };
    payload[place..place + 2].copy_from_slice(&(wrong as u16).to_le_bytes());
}
