//! Labels are untrusted: in no output do control, bidirectional or markup characters of a label stand as they are.

mod common;

use common::json::{parse, Value};
use common::{card, err, folder, out, root};

const HOSTILE: &str =
    "<b>&\"'`\\\u{1B}[31m\u{7}\r\u{9B}\u{202E}\u{2066}\u{200F}\u{61C}\u{FEFF}\u{2028}\u{AD}\u{E0041}\u{7F}é";
const PLAIN: &str =
    "\\u{3C}b\\u{3E}\\u{26}\\u{22}\\u{27}\\u{60}\\u{5C}\\u{1B}[31m\\u{7}\\u{D}\\u{9B}\\u{202E}\\u{2066}\
    \\u{200F}\\u{61C}\\u{FEFF}\\u{2028}\\u{AD}\\u{E0041}\\u{7F}é";

/// A card whose every label is hostile, and a line feed too.
fn hostile(folder: &std::path::Path) -> String {
    let file = folder.join("hostile.dump").to_str().unwrap().to_string();
    let label = format!("x\n{HOSTILE}");
    let mut changes = vec![format!("CIAInfo.label={label}"), format!("CIAInfo.manufacturerID={label}")];
    changes.extend((0..4).map(|object| format!("{object}.label={label}")));
    let mut words = vec!["set", "samples/missing-unblocking-pin.dump", "-o", &file];
    words.extend(changes.iter().map(String::as_str));
    let output = card(&words);
    harmless(&out(&output));
    harmless(&err(&output));
    assert!(out(&output).contains(PLAIN));
    file
}

/// Nothing of the label is in an output but as an escape.
fn harmless(text: &str) {
    let steers = |c: &char| !c.is_alphanumeric() && !['"', '\\', '['].contains(c);
    let found = HOSTILE.chars().filter(steers).find(|c| text.contains(*c));
    assert_eq!(found, None, "{text}");
    assert!(!text.contains("\nx"), "{text}");
    assert!(!text.contains("\n<"), "{text}");
}

#[test]
fn in_every_output() {
    let folder = folder("hostile");
    let file = hostile(&folder);
    let calls: [&[&str]; 6] = [
        &["show", &file],
        &["list", &file],
        &["why", &file],
        &["why", &file, "0"],
        &["where", &file, "2"],
        &["diff", "samples/missing-unblocking-pin.dump", &file],
    ];
    for words in calls {
        let output = card(words);
        harmless(&out(&output));
        harmless(&err(&output));
        assert!(out(&output).contains(PLAIN), "{words:?}: {}", out(&output));
    }
}

#[test]
fn in_json() {
    let folder = folder("hostile-json");
    let file = hostile(&folder);
    let text = out(&card(&["show", "--json", &file]));
    assert!(!text.contains(['<', '>', '&', '\'', '\u{202E}', '\u{1B}', '\r', '\u{7F}', '\u{E0041}']));
    let page = parse(&text);
    let label = Value::Text(format!("x\n{HOSTILE}"));
    assert!(page.get("objects").list().iter().all(|object| object.get("label") == &label));
}

/// A file's name and an argument are untrusted too.
#[test]
fn in_errors() {
    for words in [&["show", "no\u{202E}\u{1B}[31m<b>"][..], &["\u{202E}\u{1B}"], &["show", "--\u{202E}"]] {
        let said = err(&card(words));
        assert!(!said.contains(['\u{202E}', '\u{1B}', '<']), "{said}");
    }
    let folder = folder("hostile-name");
    let name = folder.join("a\u{202E}<b>.dump");
    std::fs::copy(root().join("samples/shared.dump"), &name).unwrap();
    assert!(!out(&card(&["show", name.to_str().unwrap()])).contains(['\u{202E}', '<']));
}

/// What show prints for a label, set takes.
#[test]
fn shown_and_set_again() {
    let folder = folder("hostile-set");
    let file = hostile(&folder);
    let again = folder.join("again.dump").to_str().unwrap().to_string();
    let label = format!("0.label=\"x\\u{{A}}{PLAIN}\"");
    card(&["set", &file, "0.label=other", "-o", &again]);
    card(&["set", &again, &label, "-o", &again, "--force"]);
    assert_eq!(std::fs::read(again).unwrap(), std::fs::read(file).unwrap());
}
