//! Record files: objects, one a record, with fill behind them, and records that hold none.

use super::flaw::Flaw;
use super::maker::Maker;
use super::node::{raw, DirectoryFile, File, Node};

/// What begins no object: tags and lengths that are bad or cut off.
const NO_OBJECT: [&[u8]; 8] =
    [b"\x1F", b"\x1F\x1E", b"\xBF\x81", b"\x9F\xFF\xFF\xFF", b"\x30", b"\x30\x05", b"\x30\x82\x01", b"\xA0\x80"];

impl Maker<'_> {
    /// A file with these objects: transparent or, on a card that may have them, of records.
    pub fn directory_file(&mut self, objects: Vec<Node>) -> DirectoryFile {
        if self.linear && self.rng.chance(75) {
            return DirectoryFile::Linear(self.records(objects));
        }
        DirectoryFile::Transparent(File { nodes: objects, fill: self.fill() })
    }

    fn records(&mut self, objects: Vec<Node>) -> Vec<File> {
        let mut records = self.spare_records();
        for object in objects {
            let fill = self.fill();
            records.push(File { nodes: vec![object], fill });
            records.extend(self.spare_records());
        }
        if self.rng.chance(30) {
            self.make_equal(&mut records);
        }
        if self.flaw(Flaw::Second) {
            self.spoil_record(&mut records);
        }
        records
    }

    /// Records without an object, mostly none: of no bytes, or of fill only.
    fn spare_records(&mut self) -> Vec<File> {
        let count = match self.rng.below(100) {
            0 => self.rng.between(20, 300),
            1..=19 => self.rng.between(1, 3),
            _ => 0,
        };
        (0..count).map(|_| File { nodes: vec![], fill: self.spare_fill() }).collect()
    }

    fn spare_fill(&mut self) -> (u8, usize) {
        let byte = self.rng.pick(&[0x00, 0xFF]);
        match self.rng.below(10) {
            0..=3 => (byte, 0),
            4 => (byte, self.rng.between(126, 258)),
            _ => (byte, self.rng.between(1, 9)),
        }
    }

    /// Fills all records up to one length, as cards do that have a fixed one.
    fn make_equal(&mut self, records: &mut [File]) {
        let longest = records.iter().map(|record| record.encode().len()).max().unwrap_or_default();
        let usual = self.rng.pick(&[0x00, 0xFF]);
        for record in records {
            if record.fill.1 == 0 {
                record.fill.0 = if self.rng.chance(90) { usual } else { !usual };
            }
            record.fill.1 += longest - record.encode().len();
        }
    }

    /// Puts something behind the object of a record, often of the last that has one.
    fn spoil_record(&mut self, records: &mut [File]) {
        let holding: Vec<usize> = (0..records.len()).filter(|at| !records[*at].nodes.is_empty()).collect();
        let Some(last) = holding.last() else {
            return;
        };
        let at = if self.rng.chance(50) { *last } else { self.rng.pick(&holding) };
        let first = records[at].nodes[0].clone();
        let second = self.second(&first);
        records[at].nodes.extend(second);
    }

    /// A second object, or a third too; what begins none; any bytes; or fill first, which then differs.
    fn second(&mut self, first: &Node) -> Vec<Node> {
        let other = self.short_object(0xA7);
        let any = self.rng.between(0x01, 0xFE) as u8;
        let count = self.rng.between(1, 3);
        match self.rng.below(9) {
            0 => vec![first.clone()],
            1 => vec![other],
            2 => vec![first.clone(), other],
            3 | 4 => vec![raw(self.rng.pick(&NO_OBJECT).to_vec())],
            5 => vec![raw(vec![any])],
            6 => vec![raw([vec![any], self.rng.bytes(count)].concat())],
            7 => vec![raw(vec![0x00; count]), other],
            _ => vec![raw(vec![0xFF; count]), other],
        }
    }
}
