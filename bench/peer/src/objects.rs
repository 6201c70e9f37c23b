//! CIAInfo, the entries of EF.OD and the objects, as Annex A of ISO/IEC 7816-15 and docs/FORMAT.md have them.
use crate::forms::{bad, Choice, Flags, Identifier, Number, Octets, Rest, Sealed, Text};
use asn1::{
    Asn1Read, Asn1Readable, Asn1Writable, Asn1Write, GeneralizedTime, Null, ParseResult, Parser, Sequence,
    SimpleAsn1Readable, SimpleAsn1Writable, Tag, Tlv, WriteBuf, WriteResult, Writer,
};

#[derive(Asn1Read, Asn1Write)]
pub struct Info<'a> {
    version: Number<0, 255>,
    serial_number: Option<Identifier<'a>>,
    manufacturer_id: Option<Text<'a>>,
    #[implicit(0)]
    label: Option<Text<'a>>,
    cardflags: Flags,
    rest: Rest<'a, 0x040c80>,
}

pub enum Condition<'a> {
    Always,
    Identifier(Identifier<'a>),
    Not(Box<Condition<'a>>),
    And(Vec<Condition<'a>>),
    Or(Vec<Condition<'a>>),
    Other(Sealed<'a>),
}

impl<'a> Condition<'a> {
    fn of(t: Tlv<'a>, levels: usize) -> ParseResult<Self> {
        if levels == 0 {
            return bad();
        }
        Ok(match t.tag().as_u8() {
            Some(0x05) => Null::parse_data(t.data()).map(|_| Condition::Always)?,
            Some(0x04) => Condition::Identifier(Identifier::parse_data(t.data())?),
            Some(0xa0) => Condition::Not(Box::new(Condition::of(asn1::parse_single(t.data())?, levels - 1)?)),
            Some(0xa1) => Condition::And(Condition::list(t.data(), levels - 1)?),
            Some(0xa2) => Condition::Or(Condition::list(t.data(), levels - 1)?),
            _ => Condition::Other(Sealed::of(t)?),
        })
    }

    /// 2 to 255 conditions.
    fn list(data: &'a [u8], levels: usize) -> ParseResult<Vec<Self>> {
        let all = asn1::parse(data, |p| {
            let mut all = Vec::new();
            while !p.is_empty() {
                all.push(Condition::of(p.read_element()?, levels)?);
            }
            Ok(all)
        })?;
        if (2..=255).contains(&all.len()) {
            return Ok(all);
        }
        bad()
    }
}

impl<'a> Asn1Readable<'a> for Condition<'a> {
    fn parse(p: &mut Parser<'a>) -> ParseResult<Self> {
        Condition::of(p.read_element()?, 8)
    }
    fn can_parse(_: Tag) -> bool {
        true
    }
}

impl Asn1Writable for Condition<'_> {
    fn write(&self, w: &mut Writer) -> WriteResult {
        match self {
            Condition::Always => w.write_element(&()),
            Condition::Identifier(x) => w.write_element(x),
            Condition::Not(x) => w.write_explicit_element(&**x, 0),
            Condition::And(all) => w.write_tlv(asn1::explicit_tag(1), |dest| write_all(dest, all)),
            Condition::Or(all) => w.write_tlv(asn1::explicit_tag(2), |dest| write_all(dest, all)),
            Condition::Other(x) => w.write_element(x),
        }
    }
}

fn write_all<T: Asn1Writable>(dest: &mut WriteBuf, all: &[T]) -> WriteResult {
    let mut w = Writer::new(dest);
    all.iter().try_for_each(|one| w.write_element(one))
}

#[derive(Asn1Read, Asn1Write)]
struct Rule<'a> {
    access_mode: Flags,
    condition: Condition<'a>,
    rest: Rest<'a, 0>,
}

/// At least one rule.
struct Rules<'a>(Vec<Rule<'a>>);

impl<'a> SimpleAsn1Readable<'a> for Rules<'a> {
    const TAG: Tag = <Sequence as SimpleAsn1Readable>::TAG;
    fn parse_data(data: &'a [u8]) -> ParseResult<Self> {
        asn1::parse(data, |p| {
            let mut all = vec![p.read_element()?];
            while !p.is_empty() {
                all.push(p.read_element()?);
            }
            Ok(Rules(all))
        })
    }
}

impl SimpleAsn1Writable for Rules<'_> {
    const TAG: Tag = <Sequence as SimpleAsn1Writable>::TAG;
    fn write_data(&self, dest: &mut WriteBuf) -> WriteResult {
        write_all(dest, &self.0)
    }
}

#[derive(Asn1Read, Asn1Write)]
struct Common<'a> {
    label: Option<Text<'a>>,
    flags: Option<Flags>,
    auth_id: Option<Identifier<'a>>,
    user_consent: Option<Number<1, 32767>>,
    rules: Option<Rules<'a>>,
    rest: Rest<'a, 0x0c03040230>,
}

#[derive(Asn1Read, Asn1Write)]
pub struct Key<'a> {
    id: Identifier<'a>,
    usage: Flags,
    #[default(true)]
    native: bool,
    access_flags: Option<Flags>,
    key_reference: Option<Number<-128, 255>>,
    start_date: Option<GeneralizedTime>,
    #[implicit(0)]
    end_date: Option<GeneralizedTime>,
    rest: Rest<'a, 0x0103021880>,
}

#[derive(Asn1Read, Asn1Write)]
pub struct CertificateAttributes<'a> {
    id: Identifier<'a>,
    #[default(false)]
    authority: bool,
    rest: Rest<'a, 0x01>,
}

#[derive(Asn1Read, Asn1Write)]
pub struct Authentication<'a> {
    pub auth_id: Option<Identifier<'a>>,
    auth_reference: Option<Number<0, 255>>,
    #[implicit(0)]
    se_identifier: Option<Number<0, 255>>,
    rest: Rest<'a, 0x040280>,
}

#[derive(Asn1Read, Asn1Write)]
pub struct Container<'a> {
    contents: Rest<'a, 0>,
}

#[derive(Asn1Read, Asn1Write)]
struct PathParts<'a> {
    efid_or_path: Octets<'a, 0, 64>,
    index: Option<Number<0, 65535>>,
    #[implicit(0)]
    length: Option<Number<0, 65535>>,
}

/// Index and length both, or neither.
struct Path<'a>(PathParts<'a>);

impl<'a> SimpleAsn1Readable<'a> for Path<'a> {
    const TAG: Tag = <Sequence as SimpleAsn1Readable>::TAG;
    fn parse_data(data: &'a [u8]) -> ParseResult<Self> {
        let parts = PathParts::parse_data(data)?;
        if parts.index.is_some() == parts.length.is_some() {
            return Ok(Path(parts));
        }
        bad()
    }
}

impl SimpleAsn1Writable for Path<'_> {
    const TAG: Tag = <Sequence as SimpleAsn1Writable>::TAG;
    fn write_data(&self, dest: &mut WriteBuf) -> WriteResult {
        self.0.write_data(dest)
    }
}

#[derive(Asn1Read, Asn1Write)]
struct PrivateKey<'a> {
    path: Path<'a>,
    modulus_length: Number<0, 65535>,
    rest: Rest<'a, 0>,
}

/// A Path if the first element has tag 30, else that element.
enum Value<'a> {
    Path(Path<'a>),
    Other(Sealed<'a>),
}

impl<'a> Asn1Readable<'a> for Value<'a> {
    fn parse(p: &mut Parser<'a>) -> ParseResult<Self> {
        match p.read_element::<Option<Path>>()? {
            Some(path) => Ok(Value::Path(path)),
            None => Ok(Value::Other(p.read_element()?)),
        }
    }
    fn can_parse(_: Tag) -> bool {
        true
    }
}

impl Asn1Writable for Value<'_> {
    fn write(&self, w: &mut Writer) -> WriteResult {
        match self {
            Value::Path(x) => w.write_element(x),
            Value::Other(x) => w.write_element(x),
        }
    }
}

#[derive(Asn1Read, Asn1Write)]
struct Certificate<'a> {
    value: Value<'a>,
    rest: Rest<'a, 0>,
}

#[derive(Asn1Read, Asn1Write)]
struct Password<'a> {
    pwd_flags: Flags,
    pwd_type: Choice<4>,
    min_length: Number<4, 8>,
    stored_length: Number<0, 64>,
    max_length: Option<Number<0, 65535>>,
    #[implicit(0)]
    #[default(0u8)]
    pwd_reference: u8,
    pad_char: Option<Octets<'a, 1, 1>>,
    last_password_change: Option<GeneralizedTime>,
    path: Option<Path<'a>>,
    rest: Rest<'a, 0x0280041830>,
}

pub enum Class<'a> {
    Key(Key<'a>),
    Certificate(CertificateAttributes<'a>),
    Container(Container<'a>),
    Authentication(Authentication<'a>),
}

enum Type<'a> {
    PrivateKey(PrivateKey<'a>),
    Certificate(Certificate<'a>),
    Password(Password<'a>),
    Other(Sealed<'a>),
}

pub struct Object<'a> {
    tag: Tag,
    common: Common<'a>,
    pub class: Class<'a>,
    subclass: Option<Sealed<'a>>,
    kind: Type<'a>,
}

impl<'a> Object<'a> {
    pub fn of(t: Tlv<'a>, entry: u8) -> ParseResult<Self> {
        let tag = t.tag();
        if !matches!(tag.as_u8(), Some(0x30 | 0xa0..=0xa7)) {
            return bad();
        }
        asn1::parse(t.data(), |p| {
            Ok(Object {
                tag,
                common: p.read_element()?,
                class: match entry {
                    0xa0..=0xa3 => Class::Key(p.read_element()?),
                    0xa4..=0xa6 => Class::Certificate(p.read_element()?),
                    0xa7 => Class::Container(p.read_element()?),
                    _ => Class::Authentication(p.read_element()?),
                },
                subclass: p.read_optional_explicit_element(0)?,
                kind: match (entry, tag.as_u8()) {
                    (0xa0, Some(0x30)) => Type::PrivateKey(p.read_explicit_element(1)?),
                    (0xa4..=0xa6, Some(0x30)) => Type::Certificate(p.read_explicit_element(1)?),
                    (0xa8, Some(0x30)) => Type::Password(password(p)?),
                    _ => Type::Other(p.read_explicit_element(1)?),
                },
            })
        })
    }
}

/// Not both unblockingPassword and soPassword.
fn password<'a>(p: &mut Parser<'a>) -> ParseResult<Password<'a>> {
    let x = p.read_explicit_element::<Password>(1)?;
    if x.pwd_flags.0 >> 6 & 3 == 3 {
        return bad();
    }
    Ok(x)
}

impl Asn1Writable for Object<'_> {
    fn write(&self, w: &mut Writer) -> WriteResult {
        w.write_tlv(self.tag, |dest| {
            let mut w = Writer::new(dest);
            w.write_element(&self.common)?;
            match &self.class {
                Class::Key(x) => w.write_element(x)?,
                Class::Certificate(x) => w.write_element(x)?,
                Class::Container(x) => w.write_element(x)?,
                Class::Authentication(x) => w.write_element(x)?,
            }
            w.write_optional_explicit_element(&self.subclass, 0)?;
            match &self.kind {
                Type::PrivateKey(x) => w.write_explicit_element(x, 1),
                Type::Certificate(x) => w.write_explicit_element(x, 1),
                Type::Password(x) => w.write_explicit_element(x, 1),
                Type::Other(x) => w.write_explicit_element(x, 1),
            }
        })
    }
}

/// Objects to the end of what holds them.
pub fn objects<'a>(p: &mut Parser<'a>, entry: u8) -> ParseResult<Vec<Object<'a>>> {
    let mut all = Vec::new();
    while !p.is_empty() {
        all.push(Object::of(p.read_element()?, entry)?);
    }
    Ok(all)
}

#[derive(Asn1Read, Asn1Write)]
pub struct Named<'a> {
    pub path: Octets<'a, 1, 64>,
}

/// An entry of EF.OD, by its tag: a path, or objects, or another that is kept.
pub enum Entry<'a> {
    Path(Tag, Named<'a>),
    Objects(Tag, Vec<Object<'a>>),
    Unknown(Sealed<'a>),
}

impl<'a> Asn1Readable<'a> for Entry<'a> {
    fn parse(p: &mut Parser<'a>) -> ParseResult<Self> {
        let t = p.read_element::<Tlv>()?;
        match t.full_data()[0] {
            entry @ 0xa0..=0xa8 => asn1::parse(t.data(), |p| match p.read_element::<Option<Named>>()? {
                Some(path) => Ok(Entry::Path(t.tag(), path)),
                None => Ok(Entry::Objects(t.tag(), held(p.read_element()?, entry)?)),
            }),
            0x80..=0xbf => Ok(Entry::Unknown(Sealed::of(t)?)),
            _ => bad(),
        }
    }
    fn can_parse(_: Tag) -> bool {
        true
    }
}

/// The objects inside an A0.
fn held<'a>(t: Tlv<'a>, entry: u8) -> ParseResult<Vec<Object<'a>>> {
    if t.tag() == asn1::explicit_tag(0) {
        return asn1::parse(t.data(), |p| objects(p, entry));
    }
    bad()
}

impl Asn1Writable for Entry<'_> {
    fn write(&self, w: &mut Writer) -> WriteResult {
        match self {
            Entry::Path(tag, path) => w.write_tlv(*tag, |dest| Writer::new(dest).write_element(path)),
            Entry::Objects(tag, all) => w.write_tlv(*tag, |dest| {
                Writer::new(dest).write_tlv(asn1::explicit_tag(0), |dest| write_all(dest, all))
            }),
            Entry::Unknown(x) => w.write_element(x),
        }
    }
}
