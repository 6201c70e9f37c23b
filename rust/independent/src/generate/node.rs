//! A card as a tree of elements, so that it can be damaged with all enclosing lengths kept right.

use crate::book::{self, add};
use crate::write::element::length;
use std::slice;

/// An element.
#[derive(Clone, Debug)]
pub struct Node {
    pub tag: Vec<u8>,
    /// The length bytes to write in the right ones' stead.
    pub length: Option<Vec<u8>>,
    pub body: Body,
}

#[derive(Clone, Debug)]
pub enum Body {
    Bytes(Vec<u8>),
    Parts(Vec<Node>),
}

/// A file, or one record of a record file: its elements, then `fill.1` bytes `fill.0`.
#[derive(Clone, Debug)]
pub struct File {
    pub nodes: Vec<Node>,
    pub fill: (u8, usize),
}

/// A file that EF.OD names.
#[derive(Clone, Debug)]
pub enum DirectoryFile {
    Transparent(File),
    Linear(Vec<File>),
}

/// A whole card. The files of the EF.OD entries that name a path come with that path.
#[derive(Clone, Debug)]
pub struct Card {
    /// EF.DIR, if the dump has it.
    pub templates: Option<File>,
    pub info: File,
    pub directory: File,
    pub files: Vec<(Vec<u8>, DirectoryFile)>,
}

/// A record of a dump or of a book.
#[derive(Clone, Debug)]
pub struct Record {
    pub kind: u16,
    pub payload: Vec<u8>,
}

/// An element with these contents.
pub fn leaf(tag: u8, contents: Vec<u8>) -> Node {
    Node { tag: vec![tag], length: None, body: Body::Bytes(contents) }
}

/// An element that holds these elements.
pub fn group(tag: u8, parts: Vec<Node>) -> Node {
    Node { tag: vec![tag], length: None, body: Body::Parts(parts) }
}

/// Bytes that are no element and are written as they stand: they have no tag and no length of their own.
pub fn raw(bytes: Vec<u8>) -> Node {
    Node { tag: vec![], length: Some(vec![]), body: Body::Bytes(bytes) }
}

impl Node {
    pub fn encode(&self) -> Vec<u8> {
        let contents = self.contents();
        let mut out = self.tag.clone();
        match &self.length {
            Some(bytes) => out.extend(bytes),
            None => out.extend(length(contents.len())),
        }
        out.extend(contents);
        out
    }

    pub fn contents(&self) -> Vec<u8> {
        match &self.body {
            Body::Bytes(bytes) => bytes.clone(),
            Body::Parts(parts) => parts.iter().flat_map(Node::encode).collect(),
        }
    }
}

impl File {
    pub fn encode(&self) -> Vec<u8> {
        let mut out: Vec<u8> = self.nodes.iter().flat_map(Node::encode).collect();
        out.extend(vec![self.fill.0; self.fill.1]);
        out
    }
}

impl DirectoryFile {
    /// The kind of its record in the dump.
    pub fn kind(&self) -> u16 {
        match self {
            DirectoryFile::Transparent(_) => 3,
            DirectoryFile::Linear(_) => 4,
        }
    }

    pub fn encode(&self) -> Vec<u8> {
        match self {
            DirectoryFile::Transparent(file) => file.encode(),
            DirectoryFile::Linear(records) => records.iter().flat_map(|record| with_length(&record.encode())).collect(),
        }
    }

    /// The file itself, or its records.
    pub fn parts(&mut self) -> &mut [File] {
        match self {
            DirectoryFile::Transparent(file) => slice::from_mut(file),
            DirectoryFile::Linear(records) => records,
        }
    }
}

/// A record of a record file: its 2-byte length and its bytes; one that is too long for that is cut.
pub fn with_length(bytes: &[u8]) -> Vec<u8> {
    let bytes = &bytes[..bytes.len().min(65_535)];
    [&(bytes.len() as u16).to_le_bytes(), bytes].concat()
}

impl Card {
    /// The dump's records.
    pub fn records(&self) -> Vec<Record> {
        let mut all = Vec::new();
        all.extend(self.templates.iter().map(|file| Record { kind: 5, payload: file.encode() }));
        all.push(Record { kind: 1, payload: self.info.encode() });
        all.push(Record { kind: 2, payload: self.directory.encode() });
        for (path, file) in &self.files {
            let payload = [vec![path.len() as u8], path.clone(), file.encode()].concat();
            all.push(Record { kind: file.kind(), payload });
        }
        all
    }

    pub fn encode(&self) -> Vec<u8> {
        join(&self.records())
    }

    /// All that hold elements and fill, in the dump's order: files, and of a record file its records.
    pub fn all_parts(&mut self) -> Vec<&mut File> {
        let mut all: Vec<&mut File> = self.templates.iter_mut().collect();
        all.extend([&mut self.info, &mut self.directory]);
        all.extend(self.files.iter_mut().flat_map(|(_, file)| file.parts()));
        all
    }

    /// The length of each file, in the dump's order, with what ends it: the file itself, or the last record if there is
    /// one.
    pub fn lengths(&mut self) -> Vec<(usize, Option<&mut File>)> {
        let first = self.templates.iter_mut().chain([&mut self.info, &mut self.directory]);
        let mut all: Vec<(usize, Option<&mut File>)> = first.map(|file| (file.encode().len(), Some(file))).collect();
        all.extend(self.files.iter_mut().map(|(_, file)| (file.encode().len(), file.parts().last_mut())));
        all
    }

    /// Whether it has a record file.
    pub fn has_linear(&self) -> bool {
        self.files.iter().any(|(_, file)| file.kind() == 4)
    }
}

/// The records of a dump or of a book; none if they do not fill it exactly.
pub fn split(bytes: &[u8]) -> Vec<Record> {
    let all = book::records(bytes).unwrap_or_default();
    all.iter().map(|record| Record { kind: record.kind, payload: record.payload.to_vec() }).collect()
}

/// Records one after the other; one that is too long for its length is cut.
pub fn join(records: &[Record]) -> Vec<u8> {
    let mut out = Vec::new();
    for record in records {
        let payload = &record.payload[..record.payload.len().min(65_533)];
        add(&mut out, record.kind, payload);
    }
    out
}

/// Where the records of these kinds are.
pub fn places(all: &[Record], kinds: &[u16]) -> Vec<usize> {
    (0..all.len()).filter(|at| kinds.contains(&all[*at].kind)).collect()
}
