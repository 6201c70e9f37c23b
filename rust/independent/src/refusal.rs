//! The refusals of documents 01 and 02, by number.

/// A refusal's number and its place.
pub type Refusal = (u32, usize);

/// dump over 32,768 bytes
pub const SIZE: u32 = 1;
/// a dump record is broken, missing, of the wrong kind or elsewhere than it may be, or a file or path length is not
/// allowed, or a record length runs over
pub const FRAME: u32 = 2;
/// bad or cut-off tag form, or not the component due here, or one more than is due
pub const TAG: u32 = 3;
/// bad length form, cut off, or beyond its container
pub const LENGTH: u32 = 4;
/// container ends early, or a template of ours has neither path nor 73
pub const MISSING: u32 = 5;
/// BOOLEAN not one byte of 00 or FF
pub const BOOLEAN: u32 = 61;
/// INTEGER or ENUMERATED empty or too long in form
pub const INTEGER: u32 = 62;
/// bit string: empty, bad unused count or unused bits set
pub const BITS: u32 = 63;
/// bit string: trailing zero bits kept
pub const TRAILING: u32 = 64;
/// text: not well-formed UTF-8
pub const TEXT: u32 = 65;
/// time: not YYYYMMDDhhmmssZ, or no such day or time
pub const TIME: u32 = 66;
/// NULL with contents
pub const NULL: u32 = 67;
/// default written out
pub const DEFAULT: u32 = 68;
/// outside a stated bound
pub const RANGE: u32 = 7;
/// index without length or the reverse; pwdFlags bits 6 and 7 both set
pub const RULE: u32 = 8;
/// one level too many
pub const DEPTH: u32 = 9;
/// the 129th object
pub const MANY: u32 = 10;
/// fill bytes differ
pub const FILL: u32 = 11;
/// EF.OD names a path twice, or the files do not follow it
pub const PATHS: u32 = 12;
/// two authentication objects with equal own authId
pub const TWICE: u32 = 13;
/// output too short
pub const ROOM: u32 = 14;
/// no accepted dump has this book
pub const BOOK: u32 = 15;
/// object, field or row not there
pub const NONE: u32 = 16;
/// a record holds a second object
pub const SECOND: u32 = 17;
