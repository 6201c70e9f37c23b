//! `answers read|write|list`: reads lines of hex digits and prints for each the answer of the independent reader:
//! `accepted` and the output, or `refused`, number and place.

use independent::refusal::Refusal;
use independent::{links, read, write};
use std::env;
use std::io::stdin;

fn main() {
    let service = env::args().nth(1).unwrap_or_default();
    for line in stdin().lines() {
        let input = bytes(&line.expect("standard input is text"));
        let answer = match service.as_str() {
            "read" => read(&input).map(|book| hex(&book)),
            "write" => write(&input).map(|dump| hex(&dump)),
            "list" => links(&input).map(|rows| words(&rows)),
            _ => {
                eprintln!("answers read|write|list");
                std::process::exit(2);
            }
        };
        print(answer);
    }
}

fn print(answer: Result<String, Refusal>) {
    match answer {
        Ok(output) => println!("accepted {output}"),
        Err((number, place)) => println!("refused {number} {place}"),
    }
}

fn bytes(line: &str) -> Vec<u8> {
    let digits = line.trim().as_bytes();
    let digit = |byte: u8| (byte as char).to_digit(16).expect("a hex digit") as u8;
    digits.chunks(2).map(|pair| digit(pair[0]) * 16 + digit(pair[1])).collect()
}

fn hex(bytes: &[u8]) -> String {
    bytes.iter().map(|byte| format!("{byte:02x}")).collect()
}

fn words(rows: &[[u32; 4]]) -> String {
    rows.iter().map(|row| format!("{},{},{},{}", row[0], row[1], row[2], row[3])).collect::<Vec<_>>().join(" ")
}
