//! A service that writes into a lent slice: the answer, and every byte or number of the slice afterwards.

use crate::counts::{Counts, Service};
use crate::Differ;
use adarbukoi::Refusal;
use independent::generate::Rng;
use std::fmt::Debug;

/// One service and what it has to answer when there is room enough.
pub struct Task<'a, T> {
    pub service: Service,
    pub input: &'a [u8],
    pub expected: Result<Vec<T>, (u32, usize)>,
    pub call: fn(&[u8], &mut [T]) -> Result<usize, Refusal>,
    /// What stands in the lent slice before the call, by index.
    pub pattern: fn(usize) -> T,
}

impl<T: Copy + PartialEq + Debug> Task<'_, T> {
    /// Calls with plenty of room, just enough, one too few, none, and some room between.
    pub fn compare(&self, rng: &mut Rng, counts: &mut Counts) -> Result<(), Differ> {
        let Ok(output) = &self.expected else {
            return self.with_room(rng.pick(&[0, 3, 200]), counts);
        };
        let needed = output.len();
        self.with_room(needed + rng.between(1, 300), counts)?;
        self.with_room(needed, counts)?;
        if needed > 0 {
            self.with_room(needed - 1, counts)?;
            self.with_room(rng.below(needed), counts)?;
        }
        Ok(())
    }

    fn with_room(&self, room: usize, counts: &mut Counts) -> Result<(), Differ> {
        let mut lent: Vec<T> = (0..room).map(self.pattern).collect();
        let due = self.due(room);
        let answer = (self.call)(self.input, &mut lent);
        counts.add(self.service, due.err().map_or(0, |refusal| refusal.number));
        if answer != due {
            return Err(self.differ(room, &format!("answered {answer:?}, due is {due:?}")));
        }
        let written: &[T] = match (&due, &self.expected) {
            (Ok(_), Ok(output)) => output,
            _ => &[],
        };
        let after = written.iter().copied().chain((written.len()..room).map(self.pattern));
        match lent.iter().zip(after).position(|(is, due)| *is != due) {
            Some(at) => Err(self.differ(room, &format!("{due:?}, but the output differs at {at}"))),
            None => Ok(()),
        }
    }

    /// What has to be answered with this room: 14 comes last.
    fn due(&self, room: usize) -> Result<usize, Refusal> {
        match &self.expected {
            Err((number, place)) => Err(Refusal { number: *number, place: *place as u64 }),
            Ok(output) if output.len() > room => Err(Refusal { number: 14, place: output.len() as u64 }),
            Ok(output) => Ok(output.len()),
        }
    }

    fn differ(&self, room: usize, how: &str) -> Differ {
        let what = format!("{} with room {room} {how}", self.service.name());
        Differ { what, input: self.input.to_vec() }
    }
}

/// A byte that is not the same everywhere.
pub fn byte_pattern(index: usize) -> u8 {
    (index * 31 + 165) as u8
}

/// A number that is not the same everywhere, and that no row holds.
pub fn number_pattern(index: usize) -> u32 {
    0xA5A5_0000 + (index as u32 & 0xFFFF)
}
