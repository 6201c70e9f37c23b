//! One component of a sequence: value, range, record.

use super::element::Element;
use super::inside::Inside;
use super::{sealed, values, Reader};
use crate::book;
use crate::refusal::{Refusal, DEFAULT, TAG};

impl<'a> Reader<'a> {
    pub fn record(&mut self, kind: u16, payload: &[u8]) {
        book::add(&mut self.book, kind, payload);
    }

    fn number(&mut self, kind: u16, number: u32) {
        self.record(kind, &number.to_le_bytes());
    }

    /// A negative number is recorded as "the two's complement in four bytes", its value modulo 2^32.
    pub fn integer(&mut self, it: Element, kind: u16, low: i64, high: i64) -> Result<i64, Refusal> {
        let value = values::integer(it.contents(self.dump), low, high).map_err(|no| (no, it.at))?;
        self.number(kind, value as u32);
        Ok(value)
    }

    pub fn flags(&mut self, it: Element, kind: u16) -> Result<u32, Refusal> {
        let value = values::flags(it.contents(self.dump)).map_err(|no| (no, it.at))?;
        self.number(kind, value);
        Ok(value)
    }

    pub fn octets(&mut self, it: Element, kind: u16, low: usize, high: usize) -> Result<&'a [u8], Refusal> {
        let contents = it.contents(self.dump);
        values::octets(contents, low, high).map_err(|no| (no, it.at))?;
        self.record(kind, contents);
        Ok(contents)
    }

    /// "Identifiers are 0 to 255 bytes", serial numbers too
    pub fn identifier(&mut self, it: Element, kind: u16) -> Result<&'a [u8], Refusal> {
        self.octets(it, kind, 0, 255)
    }

    pub fn text(&mut self, it: Element, kind: u16) -> Result<(), Refusal> {
        let contents = it.contents(self.dump);
        values::text(contents).map_err(|no| (no, it.at))?;
        self.record(kind, contents);
        Ok(())
    }

    pub fn time(&mut self, it: Element, kind: u16) -> Result<(), Refusal> {
        let contents = it.contents(self.dump);
        values::time(contents).map_err(|no| (no, it.at))?;
        self.record(kind, contents);
        Ok(())
    }

    /// "A component equal to its DEFAULT is not written."
    pub fn boolean(&mut self, it: Element, kind: u16, default: bool) -> Result<(), Refusal> {
        let value = values::boolean(it.contents(self.dump)).map_err(|no| (no, it.at))?;
        if value == default {
            return Err((DEFAULT, it.at));
        }
        self.record(kind, &[u8::from(value)]);
        Ok(())
    }

    /// "Rest means sealed elements after the listed components; the tag of an optional or defaulted component
    /// of that sequence may not occur there." An empty rest has no record.
    pub fn rest(&mut self, inside: &mut Inside, kept_out: &[u8], kind: u16) -> Result<(), Refusal> {
        let from = inside.at;
        while inside.more() {
            let next = inside.any()?;
            if kept_out.contains(&next.tag) {
                return Err((TAG, next.at));
            }
            sealed::nesting(self.dump, next, 1)?;
        }
        if from < inside.end {
            let bytes = &self.dump[from..inside.end];
            self.record(kind, bytes);
        }
        Ok(())
    }

    /// Just one sealed element inside `outer`, kept whole.
    pub fn one_sealed(&mut self, outer: Element, kind: u16) -> Result<(), Refusal> {
        let mut inside = Inside::of(self.dump, outer);
        self.next_sealed(&mut inside, kind)?;
        inside.finish()
    }

    /// The next element, sealed and kept whole.
    pub fn next_sealed(&mut self, inside: &mut Inside, kind: u16) -> Result<(), Refusal> {
        let next = inside.any()?;
        self.sealed(next, kind)
    }

    /// An element whose tag and length are read already, sealed and kept whole.
    pub fn sealed(&mut self, it: Element, kind: u16) -> Result<(), Refusal> {
        sealed::nesting(self.dump, it, 1)?;
        let bytes = it.whole(self.dump);
        self.record(kind, bytes);
        Ok(())
    }
}
