//! Refusal 17 through the proved library.

use adarbukoi::{read, Refusal};

const DUMP: &[u8] = include_bytes!("../../samples/record-files.dump");

#[test]
fn refuses_a_second_object() {
    // the file's record is at 57, its path length at 61, the first record's length at 64, the object of 60 bytes at 66
    let mut dump = DUMP.to_vec();
    dump[126] = 0x30;
    let refusal = read(&dump, &mut [0; 500]).unwrap_err();
    assert_eq!(refusal, Refusal { number: 17, place: 126 });
    assert_eq!(refusal.to_string(), "refused, 17 second at 126: a record holds a second object");
}
