//! Each command: what it writes, what it prints, how it ends.

mod common;

use common::{card, card_with, err, folder, out, root, status};
use std::fs;
use std::path::Path;

const MISSING: &str = "samples/missing-unblocking-pin.dump";
const WHOLE: &str = "samples/two-slots.dump";
const REFUSED: &str = "samples/annex-e2.dump";

/// How a call ends, and that it says something on standard error just where that is due.
fn ends(words: &[&str], due: i32) -> String {
    let output = card(words);
    assert_eq!(status(&output), due, "{words:?}: {}", err(&output));
    assert_eq!(err(&output).is_empty(), due < 2, "{words:?}");
    if due >= 2 {
        assert!(out(&output).is_empty(), "{words:?}");
        assert!(err(&output).starts_with("card: "), "{words:?}");
    }
    format!("{}{}", out(&output), err(&output))
}

fn text(path: &Path) -> &str {
    path.to_str().unwrap()
}

#[test]
fn good_and_missing() {
    for command in ["show", "list", "why"] {
        ends(&[command, WHOLE], 0);
        ends(&[command, MISSING], 1);
    }
    assert_eq!(ends(&["why", WHOLE], 0), "No link is missing.\n");
    ends(&["why", MISSING, "0"], 0);
    assert!(ends(&["why", MISSING, "2"], 1).contains("MISSING"));
    ends(&["where", MISSING, "0"], 0);
    ends(&["diff", WHOLE, WHOLE], 0);
    ends(&["diff", WHOLE, MISSING], 1);
}

#[test]
fn refused() {
    let folder = folder("refused");
    let new = folder.join("new");
    for words in [&["show", REFUSED][..], &["list", REFUSED], &["why", REFUSED], &["where", REFUSED, "0"]] {
        let said = ends(words, 2);
        assert!(said.contains("64 trailing, at 30"), "{said}");
        assert!(said.contains("EF.OD, offset 14"), "{said}");
        assert!(said.contains("22: 30 12 0C 04 4B 45 59 31 [03] 02 05 80 04 03 41 44"), "{said}");
    }
    ends(&["diff", WHOLE, REFUSED], 2);
    ends(&["read", REFUSED, "-o", text(&new)], 2);
    ends(&["set", REFUSED, "0.label=x", "-o", text(&new)], 2);
    // two equal own authIds
    assert!(ends(&["set", MISSING, "3.own authId=01", "-o", text(&new)], 2).contains("15 book"));
    assert!(!new.exists());
    let json = card(&["show", "--json", REFUSED]);
    assert_eq!((status(&json), err(&json).as_str()), (2, ""));
    assert!(out(&json).contains("\"number\": 64"));
    for bytes in [&b""[..], b"x", &[2, 0, 1, 1], &[0xFF; 70_000]] {
        assert_eq!(status(&card_with(&["show", "-"], bytes)), 2);
    }
}

#[test]
fn wrong_calls() {
    let calls: [&[&str]; 22] = [
        &[],
        &["bogus"],
        &["show"],
        &["show", WHOLE, WHOLE],
        &["show", "--bogus", WHOLE],
        &["show", WHOLE, "-o", "x"],
        &["show", "--force", WHOLE],
        &["list", "--json", WHOLE],
        &["why", WHOLE, "x"],
        &["why", WHOLE, "99"],
        &["why", WHOLE, "-1"],
        &["where", WHOLE],
        &["where", WHOLE, "99"],
        &["diff", WHOLE],
        &["diff", "-", "-"],
        &["read", WHOLE],
        &["read", WHOLE, "-o"],
        &["write", WHOLE, "-o", "target/nothing"],
        &["set", WHOLE, "-o", "target/nothing"],
        &["set", WHOLE, "0.label", "-o", "target/nothing"],
        &["show", "samples"],
        &["show", "samples/nothing.dump"],
    ];
    calls.iter().for_each(|words| {
        ends(words, 3);
    });
    assert!(!root().join("target/nothing").exists());
}

#[test]
fn wrong_changes() {
    let folder = folder("wrong");
    let new = folder.join("new");
    let wrong = [
        ("2.authId=01", "two fields"),
        ("2.bogus=01", "there is no such field"),
        ("9.label=x", "there is no object 9"),
        ("x.label=x", "no object's number"),
        ("2.minLength=9", "a number from 4 to 8"),
        ("2.minLength=absent", "has to be there"),
        ("2.pwdFlags=bogus", "some of case-sensitive"),
        ("2.pwdType=pin", "one of bcd"),
        ("2.own-authId=0", "bytes in hex"),
        ("0.native=yes", "true or false"),
        ("0.startDate=today", "a time as"),
        ("0.accessMode=read", "can't be changed"),
        ("0.modulusLength=70000", "a number from 0 to 65535"),
        ("0.label=\"x", "in quotes"),
    ];
    for (change, words) in wrong {
        let said = ends(&["set", MISSING, change, "-o", text(&new)], 3);
        assert!(said.contains(words), "{change}: {said}");
    }
    let long = format!("0.label={}", "x".repeat(256));
    assert!(ends(&["set", MISSING, &long, "-o", text(&new)], 3).contains("at most 255 characters"));
    assert!(!new.exists());
}

#[test]
fn a_dump_into_its_book_and_back() {
    let folder = folder("turn");
    let (book, dump) = (folder.join("a.book"), folder.join("a.dump"));
    ends(&["read", WHOLE, "-o", text(&book)], 0);
    ends(&["write", text(&book), "-o", text(&dump)], 0);
    let bytes = fs::read(root().join(WHOLE)).unwrap();
    assert_eq!(fs::read(&dump).unwrap(), bytes);
    assert!(ends(&["read", text(&book), "-o", "-"], 3).contains("is a book"));
    assert!(ends(&["write", WHOLE, "-o", "-"], 3).contains("is a dump"));
    ends(&["diff", WHOLE, text(&book)], 0);
    let piped = card_with(&["read", "-", "-o", "-"], &bytes);
    assert_eq!((status(&piped), piped.stdout), (0, fs::read(&book).unwrap()));
}

#[test]
fn an_output_that_exists() {
    let folder = folder("force");
    let there = folder.join("there");
    fs::write(&there, "kept").unwrap();
    assert!(ends(&["read", WHOLE, "-o", text(&there)], 3).contains("--force"));
    assert_eq!(fs::read(&there).unwrap(), b"kept");
    ends(&["read", REFUSED, "-o", text(&there), "--force"], 2);
    assert_eq!(fs::read(&there).unwrap(), b"kept");
    ends(&["read", WHOLE, "-o", text(&there), "--force"], 0);
    assert_ne!(fs::read(&there).unwrap(), b"kept");
    ends(&["read", WHOLE, "-o", text(&folder), "--force"], 3);
    ends(&["read", WHOLE, "-o", text(&folder.join("no/where"))], 3);
    // nothing is left beside it
    assert_eq!(fs::read_dir(&folder).unwrap().count(), 1);
}

/// A link to a file stays one, and a file keeps its permissions.
#[cfg(unix)]
#[test]
fn links_and_permissions_stay() {
    use std::os::unix::fs::{symlink, PermissionsExt};
    let folder = folder("links");
    let (there, link) = (folder.join("there"), folder.join("link"));
    fs::write(&there, "old").unwrap();
    fs::set_permissions(&there, fs::Permissions::from_mode(0o600)).unwrap();
    symlink(&there, &link).unwrap();
    ends(&["read", WHOLE, "-o", text(&link), "--force"], 0);
    assert!(fs::symlink_metadata(&link).unwrap().is_symlink());
    assert_ne!(fs::read(&there).unwrap(), b"old");
    assert_eq!(fs::metadata(&there).unwrap().permissions().mode() & 0o777, 0o600);
}

#[cfg(target_os = "linux")]
#[test]
fn a_full_disk() {
    use std::process::{Command, Stdio};
    let said = ends(&["read", WHOLE, "-o", "/dev/full", "--force"], 3);
    assert!(said.contains("can't be written"), "{said}");
    assert!(!fs::metadata("/dev/full").unwrap().is_file());
    let full = fs::OpenOptions::new().write(true).open("/dev/full").unwrap();
    let mut call = Command::new(env!("CARGO_BIN_EXE_card"));
    let output = call.args(["show", WHOLE]).current_dir(root()).stdout(Stdio::from(full)).output().unwrap();
    assert_eq!(status(&output), 3);
    assert!(err(&output).contains("standard output can't be written"));
}

#[test]
fn a_change_mends_and_breaks() {
    let folder = folder("set");
    let (mended, broken, back) = (folder.join("mended"), folder.join("broken"), folder.join("back"));
    let said = ends(&["set", MISSING, "2.guarded-by=03", "-o", text(&mended)], 0);
    assert!(said.contains("Object 2 \"Signature PIN\", guarded by: 02 becomes 03\n"), "{said}");
    assert!(said.contains("Mended: Object 2 \"Signature PIN\" is guarded by 03; that is the own authId of object 3"));
    ends(&["show", text(&mended)], 0);
    ends(&["diff", MISSING, text(&mended)], 1);
    let said = ends(&["set", text(&mended), "3.own authId=09", "0.label=A longer label", "-o", text(&broken)], 1);
    assert!(said.contains("Broken: Object 2 \"Signature PIN\" is guarded by 03; the guard is MISSING"), "{said}");
    let changes = ["3.ownAuthId=03", "0.label=\"Signature key\"", "2.GUARDED BY=02"];
    ends(&["set", text(&broken), changes[0], changes[1], changes[2], "-o", text(&back)], 1);
    assert_eq!(fs::read(back).unwrap(), fs::read(root().join(MISSING)).unwrap());
}

#[test]
fn a_change_of_the_guard() {
    let folder = folder("guard");
    let (other, none, same) = (folder.join("other"), folder.join("none"), folder.join("same"));
    let said = ends(&["set", MISSING, "0.guarded by=03", "-o", text(&other)], 1);
    assert!(said.contains("Answered otherwise: Object 0 \"Signature key\" is guarded by 03; that is the own authId of"));
    let said = ends(&["set", MISSING, "2.guarded by=absent", "-o", text(&none)], 0);
    assert!(said.contains("No longer asked for: Object 2 \"Signature PIN\" is guarded by 02"), "{said}");
    assert!(said.ends_with("2 links, 0 missing\n"), "{said}");
    let said = ends(&["set", text(&none), "2.guarded by=01", "-o", text(&other), "--force"], 0);
    assert!(said.contains("New: Object 2 \"Signature PIN\" is guarded by 01; that is the own authId of object 2"));
    let said = ends(&["set", MISSING, "0.label=Signature key", "-o", text(&same)], 1);
    assert!(said.starts_with("Nothing changes\n"), "{said}");
}

/// A file that can be opened and not read.
#[cfg(target_os = "linux")]
#[test]
fn an_unreadable_file() {
    assert!(ends(&["show", "/proc/self/mem"], 3).contains("can't be read"));
}

#[test]
fn help_and_version() {
    for command in ["show", "list", "why", "where", "set", "diff", "read", "write"] {
        let said = ends(&[command, "--help"], 0);
        assert!(said.starts_with(&format!("card {command} ")), "{said}");
        assert!(ends(&["--help"], 0).contains(&format!("    card {command} ")));
    }
    assert_eq!(ends(&["--version"], 0), format!("card {}\n", env!("CARGO_PKG_VERSION")));
}
