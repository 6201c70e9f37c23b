//! Damage to the records of a book that open a file or a record, and to the fill beside them.

use super::node::{places, Record};
use super::rng::Rng;

/// What opens a file.
const FILES: [u16; 2] = [0x0118, 0x0119];
/// What opens a record of a record file.
const RECORD: u16 = 0x011A;
const FILL: u16 = 0x0107;

/// How many of a hundred damaged copies of this book are damaged here.
pub fn percent(all: &[Record]) -> usize {
    let has = |kind: u16| all.iter().any(|record| record.kind == kind);
    match (has(0x0118), has(0x0119)) {
        (_, true) => 45,
        (true, false) => 15,
        (false, false) => 0,
    }
}

/// Damages a book that has a file.
pub fn damage(rng: &mut Rng, all: &mut Vec<Record>) {
    let file = rng.pick(&places(all, &FILES));
    let records = places(all, &[RECORD]);
    let fills = places(all, &[FILL]);
    let anywhere = rng.between(file, all.len());
    match rng.below(13) {
        0 | 1 => all[file].kind ^= 1,
        2 | 3 => turn(all, file),
        4 if !records.is_empty() => {
            all.remove(rng.pick(&records));
        }
        5 if !records.is_empty() => {
            let at = rng.pick(&records);
            all.insert(at, all[at].clone());
        }
        6 if !records.is_empty() => {
            let at = rng.pick(&records);
            move_by(rng, all, at);
        }
        7 => {
            let at = rng.pick(&places(all, &[FILES[0], FILES[1], RECORD]));
            all[at].payload = rng.pick(&[vec![0], vec![0, 0], vec![0xA7], vec![1, 0, 0, 0]]);
        }
        8 | 9 if !fills.is_empty() => {
            let at = rng.pick(&fills);
            move_by(rng, all, at);
        }
        10 | 11 => {
            let payload = rng.pick(&[[0x00, 1, 0], [0xFF, 1, 0], [0x00, 0, 0], [0xFF, 0, 1], [0x30, 1, 0]]).to_vec();
            all.insert(anywhere, Record { kind: FILL, payload });
        }
        _ => all.insert(anywhere, Record { kind: RECORD, payload: vec![] }),
    }
}

/// Moves a record of the book by one or a few places.
fn move_by(rng: &mut Rng, all: &mut Vec<Record>, at: usize) {
    let moved = all.remove(at);
    let count = if rng.chance(60) { 1 } else { rng.between(2, 12) };
    let to = if rng.chance(50) { at + count } else { at.saturating_sub(count) };
    all.insert(to.min(all.len()), moved);
}

/// Makes a record file of a transparent one, with each object in a record, and the reverse.
fn turn(all: &mut Vec<Record>, file: usize) {
    let end = (file + 1..all.len()).find(|at| FILES.contains(&all[*at].kind)).unwrap_or(all.len());
    let mut inside = all.split_off(file + 1);
    let behind = inside.split_off(end - file - 1);
    for record in inside {
        if record.kind == 0x0120 && all[file].kind == 0x0118 {
            all.push(Record { kind: RECORD, payload: vec![] });
        }
        if record.kind != RECORD {
            all.push(record);
        }
    }
    all.extend(behind);
    all[file].kind ^= 1;
}
