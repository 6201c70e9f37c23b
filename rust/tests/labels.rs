//! Labels in two scripts through the proved library: the bound of 255 characters.

use adarbukoi::{read, write, Refusal};

/// CIAInfo with a label, and an empty EF.OD. With a text of 256 bytes or more the label is at 11.
fn labelled(text: &str) -> Vec<u8> {
    let element = |tag: u8, contents: &[u8]| {
        let [high, low] = (contents.len() as u16).to_be_bytes();
        [&[tag, 0x82, high, low], contents].concat()
    };
    let info = element(0x30, &[b"\x02\x01\x01", element(0x80, text.as_bytes()).as_slice(), b"\x03\x01\0"].concat());
    let length = (info.len() as u16 + 2).to_le_bytes();
    [&length, b"\x01\0".as_slice(), &info, b"\x02\0\x02\0"].concat()
}

#[test]
fn counts_characters() {
    let mut book = [0; 2000];
    for (character, width) in [("α", 2), ("€", 3), ("\u{1F511}", 4)] {
        let dump = labelled(&character.repeat(255));
        assert_eq!(read(&dump, &mut book), Ok(20 + 255 * width));
        let mut again = vec![0; dump.len()];
        assert_eq!(write(&book[..20 + 255 * width], &mut again), Ok(dump.len()));
        assert_eq!(again, dump);
        assert_eq!(read(&labelled(&character.repeat(256)), &mut book), Err(Refusal { number: 7, place: 11 }));
    }
    assert_eq!(read(&labelled(&"a".repeat(256)), &mut book), Err(Refusal { number: 7, place: 11 }));
}
