//! The one table of record kinds: number, name, what it is part of, form with bounds and bit names, need, and whether
//! `set` may change it. Every output uses it.

use Form::*;
use Need::*;
use Of::*;

/// What a record is part of.
#[derive(Clone, Copy, Debug, PartialEq, Eq)]
pub enum Of {
    CiaInfo,
    Common,
    Rule,
    Key,
    Certificate,
    Authentication,
    Container,
    Type,
    Password,
    Path,
    Template,
    Discretionary,
    Structure,
}

/// How a payload is to be read.
#[derive(Clone, Copy, Debug, PartialEq, Eq)]
pub enum Form {
    /// Four bytes, within these bounds.
    Number(i64, i64),
    /// Four bytes in two's complement, within these bounds.
    Signed(i64, i64),
    /// Four bytes; named bit i counts 2^i.
    Flags(&'static [&'static str]),
    /// Four bytes; the names from 0 on.
    Choice(&'static [&'static str]),
    Boolean,
    /// Bytes, so many.
    Octets(i64, i64),
    /// UTF-8, so many characters.
    Text(i64, i64),
    /// `YYYYMMDDhhmmssZ`.
    Time,
    /// Elements as they stand on the card.
    Sealed,
    /// The fill byte and a 2-byte count.
    Fill,
    /// Two bytes: how many conditions follow.
    Count,
    Empty,
    /// Entry tag, what is inside, and then a path or an element.
    Entry,
    /// Entry tag, object tag, 2-byte file number, 2-byte offset.
    Object,
}

/// Whether a component has to be there.
#[derive(Clone, Copy, Debug, PartialEq, Eq)]
pub enum Need {
    Required,
    Optional,
    /// A component that equals this has no record.
    Default(u32),
}

/// One record kind.
#[derive(Debug)]
pub struct Row {
    pub kind: u16,
    pub name: &'static str,
    pub of: Of,
    pub form: Form,
    pub need: Need,
    pub set: bool,
}

const CARD_FLAGS: &[&str] = &["readonly", "authRequired", "prnGeneration"];
const OBJECT_FLAGS: &[&str] = &["private", "modifiable", "internal"];
const ACCESS_MODE: &[&str] = &[
    "read",
    "update",
    "execute",
    "delete",
    "attribute",
    "pso_cds",
    "pso_verif",
    "pso_dec",
    "pso_enc",
    "int_auth",
    "ext_auth",
];
const USAGE: &[&str] = &[
    "encipher",
    "decipher",
    "sign",
    "signRecover",
    "keyEncipher",
    "keyDecipher",
    "verify",
    "verifyRecover",
    "derive",
    "nonRepudiation",
];
const ACCESS_FLAGS: &[&str] = &["sensitive", "extractable", "alwaysSensitive", "neverExtractable", "cardGenerated"];
const PWD_FLAGS: &[&str] = &[
    "case-sensitive",
    "local",
    "change-disabled",
    "unblock-disabled",
    "initialized",
    "needs-padding",
    "unblockingPassword",
    "soPassword",
    "disable-allowed",
    "integrity-protected",
    "confidentiality-protected",
    "exchangeRefData",
    "resetRetryCounter1",
    "resetRetryCounter2",
    "context-dependent",
    "multiStepProtocol",
];
const PWD_TYPE: &[&str] = &["bcd", "ascii-numeric", "utf8", "half-nibble-bcd", "iso9564-1"];

/// A component that `set` may change.
const fn field(kind: u16, name: &'static str, of: Of, form: Form, need: Need) -> Row {
    Row { kind, name, of, form, need, set: true }
}

/// A component that `set` leaves as it is.
const fn kept(kind: u16, name: &'static str, of: Of, form: Form, need: Need) -> Row {
    Row { kind, name, of, form, need, set: false }
}

/// Every record kind of a book, in the order of the numbers.
pub const TABLE: &[Row] = &[
    field(0x0101, "version", CiaInfo, Number(0, 255), Required),
    field(0x0102, "serialNumber", CiaInfo, Octets(0, 255), Optional),
    field(0x0103, "manufacturerID", CiaInfo, Text(0, 255), Optional),
    field(0x0104, "label", CiaInfo, Text(0, 255), Optional),
    field(0x0105, "cardflags", CiaInfo, Flags(CARD_FLAGS), Required),
    kept(0x0106, "CIAInfo rest", CiaInfo, Sealed, Optional),
    kept(0x0107, "fill", Structure, Fill, Optional),
    kept(0x0108, "fill", CiaInfo, Fill, Optional),
    kept(0x0110, "entry", Structure, Entry, Optional),
    kept(0x0118, "transparent file", Structure, Empty, Optional),
    kept(0x0119, "record file", Structure, Empty, Optional),
    kept(0x011A, "record", Structure, Empty, Optional),
    kept(0x0120, "object", Structure, Object, Optional),
    field(0x0121, "label", Common, Text(0, 255), Optional),
    field(0x0122, "flags", Common, Flags(OBJECT_FLAGS), Optional),
    field(0x0123, "guarded by", Common, Octets(0, 255), Optional),
    field(0x0124, "userConsent", Common, Number(1, 32767), Optional),
    kept(0x0125, "accessMode", Rule, Flags(ACCESS_MODE), Required),
    kept(0x0126, "always", Rule, Empty, Optional),
    kept(0x0127, "condition identifier", Rule, Octets(0, 255), Optional),
    kept(0x0128, "other condition", Rule, Sealed, Optional),
    kept(0x0129, "not", Rule, Empty, Optional),
    kept(0x012A, "and", Rule, Count, Optional),
    kept(0x012B, "or", Rule, Count, Optional),
    kept(0x012C, "rule rest", Rule, Sealed, Optional),
    kept(0x012F, "common rest", Common, Sealed, Optional),
    field(0x0130, "iD", Key, Octets(0, 255), Required),
    field(0x0131, "usage", Key, Flags(USAGE), Required),
    field(0x0132, "native", Key, Boolean, Default(1)),
    field(0x0133, "accessFlags", Key, Flags(ACCESS_FLAGS), Optional),
    field(0x0134, "keyReference", Key, Signed(-128, 255), Optional),
    field(0x0135, "startDate", Key, Time, Optional),
    field(0x0136, "endDate", Key, Time, Optional),
    kept(0x013F, "key rest", Key, Sealed, Optional),
    field(0x0140, "iD", Certificate, Octets(0, 255), Required),
    field(0x0141, "authority", Certificate, Boolean, Default(0)),
    kept(0x014F, "certificate rest", Certificate, Sealed, Optional),
    field(0x0150, "own authId", Authentication, Octets(0, 255), Optional),
    field(0x0151, "authReference", Authentication, Number(0, 255), Optional),
    field(0x0152, "seIdentifier", Authentication, Number(0, 255), Optional),
    kept(0x015F, "authentication rest", Authentication, Sealed, Optional),
    kept(0x0160, "contents", Container, Sealed, Required),
    kept(0x0170, "subclass", Type, Sealed, Optional),
    field(0x0180, "efidOrPath", Path, Octets(0, 64), Required),
    field(0x0181, "index", Path, Number(0, 65535), Optional),
    field(0x0182, "length", Path, Number(0, 65535), Optional),
    field(0x0183, "modulusLength", Type, Number(0, 65535), Required),
    kept(0x0184, "certificate value", Type, Sealed, Optional),
    kept(0x018F, "type rest", Type, Sealed, Optional),
    field(0x0190, "pwdFlags", Password, Flags(PWD_FLAGS), Required),
    field(0x0191, "pwdType", Password, Choice(PWD_TYPE), Required),
    field(0x0192, "minLength", Password, Number(4, 8), Required),
    field(0x0193, "storedLength", Password, Number(0, 64), Required),
    field(0x0194, "maxLength", Password, Number(0, 65535), Optional),
    field(0x0195, "pwdReference", Password, Number(0, 255), Default(0)),
    field(0x0196, "padChar", Password, Octets(1, 1), Optional),
    field(0x0197, "lastPasswordChange", Password, Time, Optional),
    kept(0x019F, "password rest", Password, Sealed, Optional),
    kept(0x01A0, "type", Type, Sealed, Optional),
    kept(0x0200, "EF.DIR", Structure, Empty, Optional),
    kept(0x0201, "ours", Template, Boolean, Required),
    kept(0x0202, "application identifier", Template, Octets(1, 16), Required),
    kept(0x0203, "label", Template, Text(0, 255), Optional),
    kept(0x0204, "path", Template, Octets(0, 64), Optional),
    kept(0x0205, "discretionary data", Template, Empty, Optional),
    kept(0x0206, "providerId", Discretionary, Sealed, Optional),
    kept(0x0207, "odfPath", Discretionary, Octets(0, 64), Required),
    kept(0x0208, "odfPath index", Discretionary, Number(0, 65535), Optional),
    kept(0x0209, "odfPath length", Discretionary, Number(0, 65535), Optional),
    kept(0x020A, "ciaInfoPath", Discretionary, Octets(0, 64), Required),
    kept(0x020B, "ciaInfoPath index", Discretionary, Number(0, 65535), Optional),
    kept(0x020C, "ciaInfoPath length", Discretionary, Number(0, 65535), Optional),
    kept(0x020D, "aid", Discretionary, Octets(1, 16), Optional),
    kept(0x020E, "data objects", Discretionary, Sealed, Optional),
    kept(0x020F, "discretionary rest", Discretionary, Sealed, Optional),
    kept(0x0210, "template rest", Template, Sealed, Optional),
    kept(0x0211, "other element", Structure, Sealed, Optional),
    kept(0x0212, "fill", Structure, Fill, Optional),
];

/// The row of a kind.
pub fn row(kind: u16) -> Option<&'static Row> {
    TABLE.binary_search_by_key(&kind, |row| row.kind).ok().map(|at| &TABLE[at])
}

/// The name of a kind; one that the table does not have is told by its number.
pub fn name(kind: u16) -> String {
    row(kind).map_or_else(|| format!("kind {kind:04X}"), |row| row.name.to_string())
}

/// What an entry's tag says of its objects: one, and several.
const CLASSES: &[(&str, &str)] = &[
    ("private key", "private keys"),
    ("public key", "public keys"),
    ("trusted public key", "trusted public keys"),
    ("secret key", "secret keys"),
    ("certificate", "certificates"),
    ("trusted certificate", "trusted certificates"),
    ("useful certificate", "useful certificates"),
    ("data container", "data containers"),
    ("authentication object", "authentication objects"),
];

/// What one object of an entry of this tag is, and what several are.
pub fn class(entry_tag: u8) -> Option<(&'static str, &'static str)> {
    CLASSES.get(usize::from(entry_tag.checked_sub(0xA0)?)).copied()
}
