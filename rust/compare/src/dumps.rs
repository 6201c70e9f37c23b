//! Reading.

use crate::counts::{Counts, Service};
use crate::lent::{byte_pattern, Task};
use crate::Differ;
use independent::generate::Rng;

/// Compares the reading of a dump and hands back its book if it is accepted.
pub fn compare(dump: &[u8], rng: &mut Rng, counts: &mut Counts) -> Result<Option<Vec<u8>>, Differ> {
    let expected = independent::read(dump);
    let book = expected.clone().ok();
    let task = Task { service: Service::Read, input: dump, expected, call: adarbukoi::read, pattern: byte_pattern };
    task.compare(rng, counts)?;
    Ok(book)
}
