//! Forms with their bounds, and what is kept sealed.
use asn1::{
    Asn1Readable, Asn1Writable, BitString, Enumerated, ParseError, ParseErrorKind, ParseResult, Parser,
    SimpleAsn1Readable, SimpleAsn1Writable, Tag, Tlv, Utf8String, WriteBuf, WriteResult, Writer,
};

pub fn bad<T>() -> ParseResult<T> {
    Err(ParseError::new(ParseErrorKind::InvalidValue))
}

/// What is in its bounds.
fn within<T>(good: bool, x: T) -> ParseResult<T> {
    if good {
        return Ok(x);
    }
    bad()
}

/// INTEGER.
pub struct Number<const LOW: i64, const HIGH: i64>(pub i64);

impl<'a, const LOW: i64, const HIGH: i64> SimpleAsn1Readable<'a> for Number<LOW, HIGH> {
    const TAG: Tag = <i64 as SimpleAsn1Readable>::TAG;
    fn parse_data(data: &'a [u8]) -> ParseResult<Self> {
        let n = i64::parse_data(data)?;
        within((LOW..=HIGH).contains(&n), Number(n))
    }
}

impl<const LOW: i64, const HIGH: i64> SimpleAsn1Writable for Number<LOW, HIGH> {
    const TAG: Tag = <i64 as SimpleAsn1Writable>::TAG;
    fn write_data(&self, dest: &mut WriteBuf) -> WriteResult {
        self.0.write_data(dest)
    }
}

/// ENUMERATED from 0 on.
pub struct Choice<const HIGH: u32>(pub Enumerated);

impl<'a, const HIGH: u32> SimpleAsn1Readable<'a> for Choice<HIGH> {
    const TAG: Tag = <Enumerated as SimpleAsn1Readable>::TAG;
    fn parse_data(data: &'a [u8]) -> ParseResult<Self> {
        let n = Enumerated::parse_data(data)?;
        within(n.value() <= HIGH, Choice(n))
    }
}

impl<const HIGH: u32> SimpleAsn1Writable for Choice<HIGH> {
    const TAG: Tag = <Enumerated as SimpleAsn1Writable>::TAG;
    fn write_data(&self, dest: &mut WriteBuf) -> WriteResult {
        self.0.write_data(dest)
    }
}

/// OCTET STRING, by its length in bytes.
pub struct Octets<'a, const LOW: usize, const HIGH: usize>(pub &'a [u8]);
pub type Identifier<'a> = Octets<'a, 0, 255>;

impl<'a, const LOW: usize, const HIGH: usize> SimpleAsn1Readable<'a> for Octets<'a, LOW, HIGH> {
    const TAG: Tag = <&[u8] as SimpleAsn1Readable>::TAG;
    fn parse_data(data: &'a [u8]) -> ParseResult<Self> {
        within((LOW..=HIGH).contains(&data.len()), Octets(data))
    }
}

impl<const LOW: usize, const HIGH: usize> SimpleAsn1Writable for Octets<'_, LOW, HIGH> {
    const TAG: Tag = <&[u8] as SimpleAsn1Writable>::TAG;
    fn write_data(&self, dest: &mut WriteBuf) -> WriteResult {
        dest.push_slice(self.0)
    }
}

/// UTF8String of at most 255 characters.
pub struct Text<'a>(pub Utf8String<'a>);

impl<'a> SimpleAsn1Readable<'a> for Text<'a> {
    const TAG: Tag = <Utf8String as SimpleAsn1Readable>::TAG;
    fn parse_data(data: &'a [u8]) -> ParseResult<Self> {
        let text = Utf8String::parse_data(data)?;
        within(text.as_str().chars().count() <= 255, Text(text))
    }
}

impl SimpleAsn1Writable for Text<'_> {
    const TAG: Tag = <Utf8String as SimpleAsn1Writable>::TAG;
    fn write_data(&self, dest: &mut WriteBuf) -> WriteResult {
        self.0.write_data(dest)
    }
}

/// BIT STRING of at most 32 named bits, with no trailing zero: bit i counts 2^i.
pub struct Flags(pub u32);

impl<'a> SimpleAsn1Readable<'a> for Flags {
    const TAG: Tag = <BitString as SimpleAsn1Readable>::TAG;
    fn parse_data(data: &'a [u8]) -> ParseResult<Self> {
        let bits = BitString::parse_data(data)?;
        let bytes = bits.as_bytes();
        if 4 < bytes.len() || bytes.last().map_or(false, |x| x >> bits.padding_bits() & 1 == 0) {
            return bad();
        }
        let mut word = [0; 4];
        word[..bytes.len()].copy_from_slice(bytes);
        Ok(Flags(u32::from_be_bytes(word).reverse_bits()))
    }
}

impl SimpleAsn1Writable for Flags {
    const TAG: Tag = <BitString as SimpleAsn1Writable>::TAG;
    fn write_data(&self, dest: &mut WriteBuf) -> WriteResult {
        let used = 32 - self.0.leading_zeros();
        let bytes = (used + 7) / 8;
        dest.push_byte((8 * bytes - used) as u8)?;
        dest.push_slice(&self.0.reverse_bits().to_be_bytes()[..bytes as usize])
    }
}

/// Tags (00 is none), lengths and nesting, to so many levels.
fn nested(t: &Tlv, levels: usize) -> ParseResult<()> {
    if levels == 0 || t.full_data()[0] == 0 {
        return bad();
    }
    if t.full_data()[0] & 0x20 == 0 {
        return Ok(());
    }
    asn1::parse(t.data(), |p| {
        while !p.is_empty() {
            nested(&p.read_element()?, levels - 1)?;
        }
        Ok(())
    })
}

/// An element that is kept as it is.
pub struct Sealed<'a>(pub Tlv<'a>);

impl<'a> Sealed<'a> {
    pub fn of(t: Tlv<'a>) -> ParseResult<Self> {
        nested(&t, 16)?;
        Ok(Sealed(t))
    }
}

impl<'a> Asn1Readable<'a> for Sealed<'a> {
    fn parse(p: &mut Parser<'a>) -> ParseResult<Self> {
        Sealed::of(p.read_element()?)
    }
    fn can_parse(_: Tag) -> bool {
        true
    }
}

impl Asn1Writable for Sealed<'_> {
    fn write(&self, w: &mut Writer) -> WriteResult {
        w.write_element(&self.0)
    }
}

/// Sealed elements to the end; the bytes of OUT are the tags that are kept out.
pub struct Rest<'a, const OUT: u64>(pub Vec<Sealed<'a>>);

impl<'a, const OUT: u64> Asn1Readable<'a> for Rest<'a, OUT> {
    fn parse(p: &mut Parser<'a>) -> ParseResult<Self> {
        let mut all = Vec::new();
        while !p.is_empty() {
            let one = p.read_element::<Sealed>()?;
            if OUT.to_be_bytes().contains(&one.0.full_data()[0]) {
                return bad();
            }
            all.push(one);
        }
        Ok(Rest(all))
    }
    fn can_parse(_: Tag) -> bool {
        true
    }
}

impl<const OUT: u64> Asn1Writable for Rest<'_, OUT> {
    fn write(&self, w: &mut Writer) -> WriteResult {
        self.0.iter().try_for_each(|one| w.write_element(one))
    }
}
