//! What is wrong with a value, through the proved library: 61 to 68, each with its place and its name.

use adarbukoi::{read, Refusal};

fn bytes(hex: &str) -> Vec<u8> {
    (0..hex.len()).step_by(2).map(|at| u8::from_str_radix(&hex[at..at + 2], 16).unwrap()).collect()
}

fn refused(dump: &str, number: u32, place: u64, name: &str) {
    let mut book = [7; 60];
    let refusal = read(&bytes(dump), &mut book).unwrap_err();
    assert_eq!((refusal, refusal.name()), (Refusal { number, place }, name), "{dump}");
    assert_eq!(book, [7; 60]);
}

/// CIAInfo of two elements, the second at 9, and an empty EF.OD.
fn info(second: &str) -> String {
    let n = second.len() / 2 + 3;
    format!("{:02X}00010030{n:02X}020101{second}02000200", n + 4)
}

/// A public key's class: entry 16, list 18, object 20, common 22, class 24, iD 26, usage 29, then this at 32.
fn key(value: &str) -> String {
    let n = value.len() / 2;
    let [record, entry, list, object, class] = [n + 22, n + 18, n + 16, n + 14, n + 6];
    format!(
        "0A0001003006020101030100{record:02X}000200A1{entry:02X}A0{list:02X}30{object:02X}\
         300030{class:02X}040145030100{value}A1020500"
    )
}

#[test]
fn tells_what_is_wrong() {
    refused(&key("010101"), 61, 32, "boolean");
    refused(&key("0102FFFF"), 61, 32, "boolean");
    refused(&key("0202007F"), 62, 32, "integer");
    refused(&info("03020408"), 63, 9, "bits");
    refused(&info("03020580"), 64, 9, "trailing");
    refused(&info("0C01FF030100"), 65, 9, "text");
    refused(&key("1800"), 66, 32, "time");
    refused(&key("0101FF"), 68, 32, "default");
}

#[test]
fn tells_a_null_with_contents() {
    // a data container: common 22, rules 24, rule 26, accessMode 28, the condition at 31
    let dump = "0A00010030060201010301001A000200A716A0143012300A30083006030100050100\
        3000A1020500";
    refused(dump, 67, 31, "null");
    let refusal = read(&bytes(dump), &mut []).unwrap_err();
    assert_eq!(refusal.to_string(), "refused, 67 null at 31: NULL with contents");
}
