//! Dumps that are about one component, each with that component's place, which is worked out by hand for values so
//! short that every length has one byte.

use super::*;

/// The kind of the number that may be negative.
pub const KEY_REFERENCE: u16 = 0x0134;

/// The kinds of all other numbers.
pub const OTHERS: [u16; 16] = [
    0x0101, 0x0124, 0x0151, 0x0152, 0x0181, 0x0182, 0x0183, 0x0191, 0x0192, 0x0193, 0x0194, 0x0195, 0x0208, 0x0209,
    0x020B, 0x020C,
];

/// A dump, and the place of the component that it is about.
pub type Case = (Vec<u8>, usize);

pub fn all_refused(cases: Vec<Case>, number: u32) {
    for (dump, place) in cases {
        refused(&dump, number, place);
    }
}

/// Each of these contents is refused with this number, at each component that can have it.
pub fn each_refused(components: fn(&str) -> Vec<Case>, contents: &[&str], number: u32) {
    for one in contents {
        all_refused(components(one), number);
    }
}

pub fn all_accepted(cases: Vec<Case>) {
    for (dump, _) in cases {
        accepted(&dump);
    }
}

/// An element with these contents.
pub fn with(tag: u8, contents: &[u8]) -> Vec<u8> {
    tlv(tag, &[contents.to_vec()])
}

/// CIAInfo with these components, and an empty EF.OD: 4 the sequence, 6 the first of them.
pub fn with_info(parts: &[Vec<u8>]) -> Vec<u8> {
    [record(1, &tlv(0x30, parts)), record(2, &[])].concat()
}

/// A data container with this component in its common: 20 the object, 22 the common, 24 the component.
pub fn common(component: &[u8]) -> Vec<u8> {
    inline(0xA7, &[with_common(&[component.to_vec()])])
}

/// An object with these components in its class, its type being sealed: 20 the object, 22 the common, 24 the class,
/// 26 the first of them.
pub fn class(entry: u8, components: &[u8]) -> Vec<u8> {
    inline(entry, &[tlv(0xA1, &[hex("3000"), with(0x30, components), hex("A1020500")])])
}

/// A key with this component: 26 iD, 28 usage, 31 the component.
pub fn key(entry: u8, component: &[u8]) -> Vec<u8> {
    class(entry, &[&hex("0400 030100"), component].concat())
}

/// A certificate with this component: 26 iD, 28 the component.
pub fn certificate(entry: u8, component: &[u8]) -> Vec<u8> {
    class(entry, &[&hex("0400"), component].concat())
}

/// A private key of tag 30: 20 the object, 22 the common, 24 the class, 31 the A1, 33 the sequence, 35 the Path,
/// 39 modulusLength.
pub fn private_key(modulus_length: &[u8]) -> Vec<u8> {
    let sequence = with(0x30, &[&hex("30020400"), modulus_length].concat());
    inline(0xA0, &[tlv(0x30, &[hex("3000 30050400030100"), with(0xA1, &sequence)])])
}

/// A certificate of tag 30 with a Path: 20 the object, 22 the common, 24 the class, 28 the A1, 30 the sequence,
/// 32 the Path, 34 its 04, 36 these components.
pub fn path(components: &[u8]) -> Vec<u8> {
    let path = with(0x30, &[&hex("0400"), components].concat());
    inline(0xA4, &[tlv(0x30, &[hex("3000 30020400"), with(0xA1, &with(0x30, &path))])])
}

/// A template of EF.DIR with a Path, odfPath or ciaInfoPath by its tag: 11 the Path, 13 its 04, 15 these components.
pub fn template_path(tag: u8, components: &[u8]) -> Vec<u8> {
    with_73(&[tlv(tag, &[hex("0400"), components.to_vec()])])
}

/// A password of these components: 20 the object, 22 the common, 24 the class, 26 the A1, 28 the sequence, 30 the first
/// of them.
pub fn components(components: &[u8]) -> Vec<u8> {
    inline(0xA8, &[password(&[components.to_vec()])])
}

/// A password with this option: 30 pwdFlags, 33 pwdType, 36 minLength, 39 storedLength, 42 the option.
pub fn option(option: &[u8]) -> Vec<u8> {
    components(&[&password_needs(), option].concat())
}

/// All INTEGERs and ENUMERATEDs with these contents.
pub fn integers(contents: &str) -> Vec<Case> {
    [key_references(contents), other_integers(contents)].concat()
}

/// The keyReference of each of the four sorts of keys.
pub fn key_references(contents: &str) -> Vec<Case> {
    let integer = with(0x02, &hex(contents));
    (0xA0..=0xA3).map(|entry| (key(entry, &integer), 31)).collect()
}

/// The twelve others of CIAInfo and of objects, and the four of EF.DIR's Paths.
pub fn other_integers(contents: &str) -> Vec<Case> {
    let [integer, enumerated, context] = [0x02, 0x0A, 0x80].map(|tag| with(tag, &hex(contents)));
    let index = [&integer, &hex("800100")[..]].concat();
    let length = [&hex("020100"), &context[..]].concat();
    vec![
        // version
        (with_info(&[integer.clone(), hex("030100")]), 6),
        // userConsent
        (common(&integer), 24),
        // authReference and seIdentifier
        (class(0xA8, &integer), 26),
        (class(0xA8, &context), 26),
        // modulusLength
        (private_key(&integer), 39),
        // index, and length behind an index of three bytes
        (path(&index), 36),
        (path(&length), 39),
        (template_path(0x30, &index), 15),
        (template_path(0x30, &length), 18),
        (template_path(0xA0, &index), 15),
        (template_path(0xA0, &length), 18),
        // pwdType, minLength, storedLength
        (components(&[&hex("030100"), &enumerated[..], &hex("020104 020108")].concat()), 33),
        (components(&[&hex("030100 0A0101"), &integer[..], &hex("020108")].concat()), 36),
        (components(&[&hex("030100 0A0101 020104"), &integer[..]].concat()), 39),
        // maxLength and pwdReference
        (option(&integer), 42),
        (option(&context), 42),
    ]
}
