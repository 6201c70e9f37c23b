//! A card of so many files that their numbers take two bytes; most of them hold no objects.

use super::maker::Maker;
use super::node::{group, leaf, Card};

impl Maker<'_> {
    pub fn crowd_of_files(&mut self) -> Card {
        let mut card = self.empty_card();
        let count = self.rng.pick(&[254, 255, 256, 257, 300, 511, 512, 700]);
        for number in 0..count {
            let tag = self.rng.pick(&[0xA0, 0xA4, 0xA7]);
            let path = vec![(number >> 8) as u8, number as u8];
            card.directory.nodes.push(group(tag, vec![group(0x30, vec![leaf(0x04, path.clone())])]));
            // the last files have objects, some of the others too
            let holds = count - number <= 3 || self.rng.below(100) == 0;
            let objects = if holds { vec![self.short_object(tag)] } else { vec![] };
            let file = self.directory_file(objects);
            card.files.push((path, file));
        }
        card
    }
}
