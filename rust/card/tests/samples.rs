//! Each sample in words and as JSON is what is stored. With CARD_STORE set, what is printed is stored.

mod common;

use common::{card, err, out, root, samples, status};
use std::fs;
use std::path::PathBuf;

fn stored(name: &str, end: &str) -> PathBuf {
    root().join("rust/card/tests/stored").join(format!("{name}.{end}"))
}

/// What a command prints on both outputs, and how it ends.
fn printed(words: &[&str]) -> String {
    let output = card(words);
    format!("{}{}ends with {}\n", out(&output), err(&output), status(&output))
}

fn hold(name: &str, end: &str, words: &[&str]) {
    let (path, text) = (stored(name, end), printed(words));
    if std::env::var_os("CARD_STORE").is_some() {
        fs::write(&path, &text).unwrap();
    }
    assert_eq!(text, fs::read_to_string(&path).unwrap_or_default(), "{}", path.display());
}

#[test]
fn in_words() {
    samples().iter().for_each(|name| hold(name, "txt", &["show", &format!("samples/{name}.dump")]));
}

#[test]
fn as_json() {
    samples().iter().for_each(|name| hold(name, "json.txt", &["show", "--json", &format!("samples/{name}.dump")]));
}

#[test]
fn links_and_whys() {
    for name in samples() {
        let file = format!("samples/{name}.dump");
        hold(&name, "list", &["list", &file]);
        hold(&name, "why", &["why", &file]);
    }
}

/// Where the last object stands; an accepted sample has one.
#[test]
fn places() {
    for (name, object) in [("missing-unblocking-pin", "3"), ("record-files", "3"), ("annex-d", "6"), ("shared", "0")] {
        hold(name, "where", &["where", &format!("samples/{name}.dump"), object]);
    }
}
