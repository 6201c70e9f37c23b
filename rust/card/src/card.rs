//! An accepted book as a tree: CIAInfo, EF.OD's entries, directory files, objects, EF.DIR.

use crate::book::{records, Record};

/// What stands in a container: objects by their numbers, and the fill behind them.
#[derive(Debug, Default)]
pub struct Holding<'a> {
    pub objects: Vec<usize>,
    pub fill: Option<Record<'a>>,
}

/// What an entry of EF.OD says.
#[derive(Debug)]
pub enum Inside<'a> {
    /// Its objects are in the directory file of this path and number.
    Path(&'a [u8], usize),
    /// Its objects stand in EF.OD itself.
    Objects(Vec<usize>),
    /// An unknown entry, or what is not expected.
    Sealed(&'a [u8]),
}

#[derive(Debug)]
pub struct Entry<'a> {
    pub record: Record<'a>,
    pub tag: u8,
    pub inside: Inside<'a>,
}

/// A directory file.
#[derive(Debug)]
pub struct File<'a> {
    pub record: Record<'a>,
    pub number: usize,
    pub path: &'a [u8],
    pub entry_tag: u8,
    pub holds: Held<'a>,
}

#[derive(Debug)]
pub enum Held<'a> {
    Transparent(Holding<'a>),
    /// The card's records, each with the record that opens it.
    Records(Vec<(Record<'a>, Holding<'a>)>),
}

#[derive(Debug)]
pub struct Object<'a> {
    pub number: usize,
    pub offset: usize,
    pub entry_tag: u8,
    pub object_tag: u8,
    pub file: usize,
    pub file_offset: usize,
    /// Its 0120 and the records behind it.
    pub opening: Record<'a>,
    pub records: Vec<Record<'a>>,
}

/// An element of EF.DIR: a template with its records, or another one.
#[derive(Debug)]
pub enum Element<'a> {
    Template(Vec<Record<'a>>),
    Other(Record<'a>),
}

#[derive(Debug)]
pub struct Dir<'a> {
    pub record: Record<'a>,
    pub elements: Vec<Element<'a>>,
    pub fill: Option<Record<'a>>,
}

#[derive(Debug, Default)]
pub struct Card<'a> {
    pub info: Vec<Record<'a>>,
    pub entries: Vec<Entry<'a>>,
    pub entries_fill: Option<Record<'a>>,
    pub files: Vec<File<'a>>,
    pub objects: Vec<Object<'a>>,
    pub dir: Option<Dir<'a>>,
    /// What stands where nothing of its kind is expected.
    pub others: Vec<Record<'a>>,
    /// Whether the last object is still open.
    open: bool,
}

impl<'a> Object<'a> {
    /// The object's first record of a kind.
    pub fn first(&self, kind: u16) -> Option<&Record<'a>> {
        self.records.iter().find(|record| record.kind == kind)
    }

    /// The label, if it has one.
    pub fn label(&self) -> Option<&'a [u8]> {
        self.first(0x0121).map(|record| record.payload)
    }
}

/// The tree of a book.
pub fn card(book: &[u8]) -> Card<'_> {
    let mut card = Card::default();
    for record in records(book) {
        card.take(record);
    }
    card
}

impl<'a> Card<'a> {
    fn take(&mut self, record: Record<'a>) {
        let stays = matches!(record.kind, 0x0121..=0x01FF);
        self.open &= stays;
        match record.kind {
            _ if self.dir.is_some() => self.take_dir(record),
            0x0101..=0x0106 | 0x0108 if self.entries.is_empty() => self.info.push(record),
            0x0107 => self.take_fill(record),
            0x0110 => self.take_entry(record),
            0x0118 | 0x0119 => self.take_file(record),
            0x011A => self.take_card_record(record),
            0x0120 => self.take_object(record),
            0x0121..=0x01FF if self.open => {
                self.objects.iter_mut().last().into_iter().for_each(|it| it.records.push(record))
            }
            0x0200 => self.dir = Some(Dir { record, elements: Vec::new(), fill: None }),
            _ => self.others.push(record),
        }
    }

    fn take_entry(&mut self, record: Record<'a>) {
        let (tag, inside) = match record.payload {
            [tag, 0, path @ ..] => (*tag, Inside::Path(path, self.paths().count() + 1)),
            [tag, 1] => (*tag, Inside::Objects(Vec::new())),
            [tag, 2, element @ ..] => (*tag, Inside::Sealed(element)),
            other => (other.first().copied().unwrap_or(0), Inside::Sealed(other)),
        };
        self.entries.push(Entry { record, tag, inside });
    }

    /// The paths that entries name, with the entries' tags.
    fn paths(&self) -> impl Iterator<Item = (u8, &'a [u8])> + '_ {
        self.entries.iter().filter_map(|entry| match entry.inside {
            Inside::Path(path, _) => Some((entry.tag, path)),
            _ => None,
        })
    }

    fn take_file(&mut self, record: Record<'a>) {
        let number = self.files.len() + 1;
        let (entry_tag, path) = self.paths().nth(number - 1).unwrap_or((0, &[]));
        let holds = match record.kind {
            0x0118 => Held::Transparent(Holding::default()),
            _ => Held::Records(Vec::new()),
        };
        self.files.push(File { record, number, path, entry_tag, holds });
    }

    fn take_card_record(&mut self, record: Record<'a>) {
        match self.files.last_mut().map(|file| &mut file.holds) {
            Some(Held::Records(all)) => all.push((record, Holding::default())),
            _ => self.others.push(record),
        }
    }

    /// What is being filled in the last directory file.
    fn holding(&mut self) -> Option<&mut Holding<'a>> {
        match &mut self.files.last_mut()?.holds {
            Held::Transparent(holding) => Some(holding),
            Held::Records(all) => all.last_mut().map(|(_, holding)| holding),
        }
    }

    fn take_fill(&mut self, record: Record<'a>) {
        let place = match self.files.is_empty() {
            true => Some(&mut self.entries_fill),
            false => self.holding().map(|holding| &mut holding.fill),
        };
        match place {
            Some(fill) if fill.is_none() => *fill = Some(record),
            _ => self.others.push(record),
        }
    }

    fn take_object(&mut self, record: Record<'a>) {
        let [entry_tag, object_tag, file_low, file_high, low, high] = *record.payload else {
            self.others.push(record);
            return;
        };
        let number = self.objects.len();
        self.objects.push(Object {
            number,
            offset: record.offset,
            entry_tag,
            object_tag,
            file: usize::from(u16::from_le_bytes([file_low, file_high])),
            file_offset: usize::from(u16::from_le_bytes([low, high])),
            opening: record,
            records: Vec::new(),
        });
        self.open = true;
        if !self.files.is_empty() {
            if let Some(holding) = self.holding() {
                holding.objects.push(number);
            }
        } else if let Some(Inside::Objects(all)) = self.entries.last_mut().map(|entry| &mut entry.inside) {
            all.push(number);
        }
    }

    fn take_dir(&mut self, record: Record<'a>) {
        let Some(dir) = &mut self.dir else {
            return;
        };
        match (record.kind, dir.elements.last_mut()) {
            (0x0201, _) => dir.elements.push(Element::Template(vec![record])),
            (0x0211, _) => dir.elements.push(Element::Other(record)),
            (0x0212, _) if dir.fill.is_none() => dir.fill = Some(record),
            (0x0202..=0x0210, Some(Element::Template(all))) => all.push(record),
            _ => self.others.push(record),
        }
    }

    /// How many objects there are of each class, in the order of the entries' tags.
    pub fn counts(&self) -> Vec<(u8, usize)> {
        let count = |tag| self.objects.iter().filter(|object| object.entry_tag == tag).count();
        (0..=255).map(|tag| (tag, count(tag))).filter(|(_, count)| *count > 0).collect()
    }
}
