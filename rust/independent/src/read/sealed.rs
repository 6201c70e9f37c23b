//! "A sealed part is checked for tags, lengths and exact nesting only, at most 16 deep (house, the outermost counts 1)."

use super::element::{element, Element};
use crate::refusal::{Refusal, DEPTH};

const DEEPEST: usize = 16;

/// Checks what is in a sealed element that stands on `level`; its own tag and length are already read.
pub fn nesting(dump: &[u8], outer: Element, level: usize) -> Result<(), Refusal> {
    if !outer.constructed() {
        return Ok(());
    }
    let mut at = outer.from;
    while at < outer.end {
        if level == DEEPEST {
            return Err((DEPTH, at));
        }
        let inner = element(dump, at, outer.end)?;
        nesting(dump, inner, level + 1)?;
        at = inner.end;
    }
    Ok(())
}
