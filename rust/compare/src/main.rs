//! `compare [COUNT] [SEED]`: compares the five services of the proved library with the independent reader on COUNT
//! generated inputs (20,000 by default): answers, places, and all bytes of the output, those past the length included.

mod books;
mod counts;
mod dumps;
mod lent;
mod whys;

use counts::Counts;
use independent::generate::{dump, Rng};
use std::env;
use std::fs;
use std::process::exit;
use std::time::{SystemTime, UNIX_EPOCH};

/// The input that was judged differently, and how.
pub struct Differ {
    pub what: String,
    pub input: Vec<u8>,
}

fn main() {
    let words: Vec<String> = env::args().skip(1).collect();
    let count = words.first().map_or(20_000, |word| number(word));
    let seed = words.get(1).map_or_else(seed_of_the_clock, |word| number(word));
    println!("seed {seed}");
    let mut counts = Counts::default();
    for index in 0..count {
        if let Err(differ) = one_input(seed, index, &mut counts) {
            report(seed, index, &differ);
            exit(1);
        }
    }
    counts.print();
    println!("{count} inputs, 0 differ");
}

fn number(word: &str) -> u64 {
    word.parse().unwrap_or_else(|_| {
        eprintln!("compare [COUNT] [SEED]");
        exit(2)
    })
}

fn seed_of_the_clock() -> u64 {
    let time = SystemTime::now().duration_since(UNIX_EPOCH).expect("the clock is past 1970");
    time.as_nanos() as u64 % 1_000_000_000
}

/// Reads a generated dump and, if it is accepted, uses its book, that book without EF.DIR, and damaged copies of it.
fn one_input(seed: u64, index: u64, counts: &mut Counts) -> Result<(), Differ> {
    let mut rng = Rng::of_input(seed, index);
    let dump = dump(&mut rng);
    let Some(book) = dumps::compare(&dump, &mut rng, counts)? else {
        return Ok(());
    };
    books::compare(&book, &mut rng, counts)?;
    if let Some(without) = books::without_templates(&book) {
        books::compare_without(&book, without, &mut rng, counts)?;
    }
    for _ in 0..2 {
        let damaged = independent::generate::damaged_book(&mut rng, &book);
        books::compare(&damaged, &mut rng, counts)?;
    }
    Ok(())
}

fn report(seed: u64, index: u64, differ: &Differ) {
    let name = format!("differ-{seed}-{index}.bin");
    println!("input {index} differs: {}", differ.what);
    match fs::write(&name, &differ.input) {
        Ok(()) => println!("its {} bytes are in {name}", differ.input.len()),
        Err(error) => println!("it could not be written to {name}: {error}"),
    }
}
