//! EF.DIR from its records.

use super::element::{element, octets};
use super::fill;
use super::object::{optional, path_of_kinds, rest};
use super::records::Records;

/// EF.DIR with its fill; its 0200 is taken already.
pub fn templates(records: &mut Records) -> Option<Vec<u8>> {
    let mut file = Vec::new();
    loop {
        if let Some(sealed) = records.take(0x0211) {
            file.extend(sealed);
        } else if records.take(0x0201).is_some() {
            file.extend(template(records)?);
        } else {
            file.extend(fill(records, 0x0212)?);
            return Some(file);
        }
    }
}

/// A template; its 0201 is taken already, and the reader will tell whether it is ours.
fn template(records: &mut Records) -> Option<Vec<u8>> {
    let mut inside = octets(0x4F, records.take(0x0202)?);
    optional(&mut inside, records, 0x0203, 0x50, octets);
    optional(&mut inside, records, 0x0204, 0x51, octets);
    if records.take(0x0205).is_some() {
        inside.extend(element(0x73, &discretionary(records)?));
    }
    rest(&mut inside, records, 0x0210);
    Some(element(0x61, &inside))
}

/// What stands inside the 73.
fn discretionary(records: &mut Records) -> Option<Vec<u8>> {
    let mut inside = Vec::new();
    rest(&mut inside, records, 0x0206);
    for (tag, kind) in [(0x30, 0x0207), (0xA0, 0x020A)] {
        if records.kind() == Some(kind) {
            inside.extend(path_of_kinds(records, tag, kind)?);
        }
    }
    optional(&mut inside, records, 0x020D, 0x4F, octets);
    rest(&mut inside, records, 0x020E);
    rest(&mut inside, records, 0x020F);
    Some(inside)
}
