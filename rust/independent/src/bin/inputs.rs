//! `inputs COUNT SEED`: prints generated dumps, a line of hex digits each.
//! `inputs COUNT SEED books`: prints the books of those that are accepted, then a damaged copy of each.

use independent::generate::{damaged_book, dump, Rng};
use independent::read;
use std::env;
use std::io::{stdout, BufWriter, Write};

fn main() {
    let words: Vec<String> = env::args().skip(1).collect();
    let number = |index: usize| words.get(index).and_then(|word| word.parse().ok());
    let (Some(count), Some(seed)) = (number(0), number(1)) else {
        eprintln!("inputs COUNT SEED [books]");
        std::process::exit(2);
    };
    let mut out = BufWriter::new(stdout().lock());
    for index in 0..count {
        let mut rng = Rng::of_input(seed, index);
        let dump = dump(&mut rng);
        if words.len() < 3 {
            line(&mut out, &dump);
        } else if let Ok(book) = read(&dump) {
            line(&mut out, &book);
            line(&mut out, &damaged_book(&mut rng, &book));
        }
    }
}

fn line(out: &mut impl Write, bytes: &[u8]) {
    for byte in bytes {
        write!(out, "{byte:02x}").expect("standard output takes it");
    }
    writeln!(out).expect("standard output takes it");
}
