//! The records of a dump: 0005 (EF.DIR), which may lack, 0001 (CIAInfo), 0002 (EF.OD), then records 0003 and 0004 (path
//! length, path, directory file).

use super::linear;
use crate::refusal::{Refusal, FRAME};

/// "A file is at most 16,383 bytes."
const LARGEST_FILE: usize = 16_383;

/// A file of the dump: the place of its record, its kind, its path (empty for EF.DIR, CIAInfo and EF.OD), where it
/// starts and ends.
#[derive(Clone, Copy, Debug)]
pub struct File<'a> {
    pub record: usize,
    pub kind: u16,
    pub path: &'a [u8],
    pub from: usize,
    pub end: usize,
}

pub struct Frames<'a> {
    /// EF.DIR, if the dump has it.
    pub templates: Option<File<'a>>,
    pub info: File<'a>,
    pub directory: File<'a>,
    pub files: Vec<File<'a>>,
}

/// Checks all frames, the first bad record being the refusal.
pub fn frames(dump: &[u8]) -> Result<Frames<'_>, Refusal> {
    let first = file(dump, 0, &[5, 1])?;
    // "a dump record 0005, allowed once, before 0001"
    let (templates, info) = match first.kind {
        5 => (Some(first), file(dump, first.end, &[1])?),
        _ => (None, first),
    };
    let directory = file(dump, info.end, &[2])?;
    let mut files = Vec::new();
    let mut at = directory.end;
    while at < dump.len() {
        let next = file(dump, at, &[3, 4])?;
        at = next.end;
        files.push(next);
    }
    Ok(Frames { templates, info, directory, files })
}

/// The record at `at`, which has to be of one of these kinds.
fn file<'a>(dump: &'a [u8], at: usize, kinds: &[u16]) -> Result<File<'a>, Refusal> {
    allowed(dump, at, kinds).ok_or((FRAME, at))
}

fn allowed<'a>(dump: &'a [u8], at: usize, due: &[u16]) -> Option<File<'a>> {
    let head = dump.get(at..at + 4)?;
    let length = u16::from_le_bytes([head[0], head[1]]) as usize;
    let kind = u16::from_le_bytes([head[2], head[3]]);
    if length < 2 || !due.contains(&kind) {
        return None;
    }
    let end = at + 2 + length;
    let payload = dump.get(at + 4..end)?;
    let named = matches!(kind, 3 | 4);
    let path = if named { path(payload)? } else { &[] };
    let from = if named { at + 5 + path.len() } else { at + 4 };
    if end - from > LARGEST_FILE {
        return None;
    }
    // "2 also covers a record length that runs over, at the dump record"
    if kind == 4 {
        linear::records(dump, from, end)?;
    }
    Some(File { record: at, kind, path, from, end })
}

/// "one byte of path length 1 to 64, path"
fn path(payload: &[u8]) -> Option<&[u8]> {
    let length = *payload.first()? as usize;
    if !(1..=64).contains(&length) {
        return None;
    }
    payload.get(1..1 + length)
}
