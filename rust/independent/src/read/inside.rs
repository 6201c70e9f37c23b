//! A walk over the elements of one container.

use super::element::{element, Element};
use crate::refusal::{Refusal, MISSING, TAG};

/// What is left of a container: from `at` to `end`.
pub struct Inside<'a> {
    dump: &'a [u8],
    pub at: usize,
    pub end: usize,
}

impl<'a> Inside<'a> {
    pub fn new(dump: &'a [u8], from: usize, end: usize) -> Self {
        Inside { dump, at: from, end }
    }

    /// The contents of an element.
    pub fn of(dump: &'a [u8], outer: Element) -> Self {
        Inside::new(dump, outer.from, outer.end)
    }

    pub fn more(&self) -> bool {
        self.at < self.end
    }

    /// The byte where the next element would start.
    pub fn first_byte(&self) -> Option<u8> {
        self.dump[self.at..self.end].first().copied()
    }

    /// Tag form and length of the next element, which is not passed yet.
    fn look(&self) -> Result<Element, Refusal> {
        element(self.dump, self.at, self.end)
    }

    /// The next element, which has to be there; its tag is for the caller to judge.
    pub fn any(&mut self) -> Result<Element, Refusal> {
        if !self.more() {
            return Err((MISSING, self.end));
        }
        let next = self.look()?;
        self.at = next.end;
        Ok(next)
    }

    /// The next element, which has to have this tag.
    pub fn required(&mut self, tag: u8) -> Result<Element, Refusal> {
        let next = self.any()?;
        if next.tag == tag {
            Ok(next)
        } else {
            Err((TAG, next.at))
        }
    }

    /// The next element if it has this tag.
    pub fn optional(&mut self, tag: u8) -> Result<Option<Element>, Refusal> {
        if !self.more() || self.look()?.tag != tag {
            return Ok(None);
        }
        self.any().map(Some)
    }

    /// No further element is due.
    pub fn finish(&self) -> Result<(), Refusal> {
        if self.more() {
            Err((TAG, self.look()?.at))
        } else {
            Ok(())
        }
    }
}
