//! Conditions from their records, which come in prefix order.

use super::element::{element, octets};
use super::records::Records;

/// The next condition, with `levels` left; none if it is deeper or no condition.
pub fn condition(records: &mut Records, levels: usize) -> Option<Vec<u8>> {
    if levels == 0 {
        return None;
    }
    let kind = records.kind()?;
    let payload = records.take(kind)?;
    match kind {
        0x0126 => Some(element(0x05, payload)),
        0x0127 => Some(octets(0x04, payload)),
        0x0128 => Some(payload.to_vec()),
        0x0129 => Some(element(0xA0, &condition(records, levels - 1)?)),
        0x012A => Some(element(0xA1, &list(records, payload, levels)?)),
        0x012B => Some(element(0xA2, &list(records, payload, levels)?)),
        _ => None,
    }
}

fn list(records: &mut Records, count: &[u8], levels: usize) -> Option<Vec<u8>> {
    let count = u16::from_le_bytes(count.try_into().ok()?);
    let mut inside = Vec::new();
    for _ in 0..count {
        inside.extend(condition(records, levels - 1)?);
    }
    Some(inside)
}
