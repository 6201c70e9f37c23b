//! The table against the code's rows and against docs/FORMAT.md.

use card::table::{row, Form, Need, TABLE};

const ROWS: &str = include_str!("../../../crates/rules/src/rows.rt");
const FORMAT: &str = include_str!("../../../docs/FORMAT.md");

/// A line of rows.rt: kind, form, need, bounds.
struct Line {
    kind: u16,
    form: String,
    need: Need,
    low: i64,
    high: i64,
}

fn hex(word: &str) -> u16 {
    u16::from_str_radix(word.trim().trim_start_matches("0x"), 16).unwrap()
}

fn need(word: &str) -> Need {
    match word.trim().trim_start_matches("Need::") {
        "Required" => Need::Required,
        "Optional" => Need::Optional,
        default => {
            let inside = default.trim_start_matches("Default(").trim_end_matches(')');
            Need::Default(inside.parse().unwrap())
        }
    }
}

/// The lines `Line(0xTAG, 0xKIND, Form::.., Need::.., LOW, HIGH)`.
fn lines() -> Vec<Line> {
    let inside = |line: &str| line.strip_prefix("Line(")?.strip_suffix("),").map(str::to_string);
    let line = |words: String| {
        let parts: Vec<&str> = words.split(',').collect();
        assert_eq!(parts.len(), 6, "{words}");
        Line {
            kind: hex(parts[1]),
            form: parts[2].trim().trim_start_matches("Form::").to_string(),
            need: need(parts[3]),
            low: parts[4].trim().parse().unwrap(),
            high: parts[5].trim().parse().unwrap(),
        }
    };
    ROWS.lines().filter_map(|text| inside(text.trim())).map(line).collect()
}

/// The form and bounds of a row of the table as rows.rt would say them.
fn told(form: Form) -> Option<(&'static str, i64, i64)> {
    Some(match form {
        Form::Number(low, high) | Form::Signed(low, high) => ("Integer", low, high),
        Form::Choice(names) => ("Integer", 0, names.len() as i64 - 1),
        Form::Flags(_) => ("Bits", 0, 0),
        Form::Boolean => ("Boolean", 0, 0),
        Form::Octets(low, high) => ("Octets", low, high),
        Form::Text(low, high) => ("Text", low, high),
        Form::Time => ("Time", 0, 0),
        _ => return None,
    })
}

#[test]
fn each_line_is_a_row() {
    let lines = lines();
    assert_eq!(lines.len(), 44);
    for line in lines {
        let row = row(line.kind).unwrap_or_else(|| panic!("{:04X} is not in the table", line.kind));
        assert_eq!(told(row.form), Some((line.form.as_str(), line.low, line.high)), "{:04X}", line.kind);
        assert_eq!(row.need, line.need, "{:04X}", line.kind);
        assert_eq!(matches!(row.form, Form::Signed(..)), line.low < 0, "{:04X}", line.kind);
    }
}

/// What has a form of a component is a line, but for a condition's identifier and whether a template is ours.
#[test]
fn each_component_is_a_line() {
    let lines = lines();
    for row in TABLE.iter().filter(|row| told(row.form).is_some() && ![0x0127, 0x0201].contains(&row.kind)) {
        assert!(lines.iter().any(|line| line.kind == row.kind), "{:04X} is in no line", row.kind);
    }
    assert!(TABLE.iter().filter(|row| row.set).all(|row| told(row.form).is_some()));
}

/// The kinds of rests are sealed.
#[test]
fn rests_are_sealed() {
    let rests = ROWS.split_once("pub fn rest_of").unwrap().1;
    let kinds =
        rests.lines().filter_map(|line| line.trim().split_once("=> 0x")).map(|(_, kind)| kind.trim_end_matches(','));
    let kinds: Vec<u16> = kinds.map(hex).collect();
    assert_eq!(kinds.len(), 10);
    assert!(kinds.iter().all(|kind| row(*kind).is_some_and(|row| row.form == Form::Sealed)));
}

/// The kinds rise, so that a row is found, and no name stands twice in one object.
#[test]
fn names_are_told_apart() {
    assert!(TABLE.windows(2).all(|pair| pair[0].kind < pair[1].kind));
    assert_eq!([row(0x0123).unwrap().name, row(0x0150).unwrap().name], ["guarded by", "own authId"]);
    let inside = |entry: std::ops::RangeInclusive<u16>| {
        let common = TABLE.iter().filter(|row| (0x0121..=0x012F).contains(&row.kind));
        let class = TABLE.iter().filter(move |row| entry.contains(&row.kind));
        let types = TABLE.iter().filter(|row| (0x0160..=0x01A0).contains(&row.kind));
        common.chain(class).chain(types).map(|row| row.name.to_lowercase()).collect::<Vec<_>>()
    };
    for entry in [0x0130..=0x013F, 0x0140..=0x014F, 0x0150..=0x015F] {
        let names = inside(entry);
        assert!(names.iter().all(|name| names.iter().filter(|other| other == &name).count() == 1), "{names:?}");
    }
}

/// Bit names and enumerations stand in docs/FORMAT.md with their numbers, and every name of a component.
#[test]
fn names_are_the_formats() {
    let format = FORMAT.split_whitespace().collect::<Vec<_>>().join(" ");
    for row in TABLE {
        if let Form::Flags(names) | Form::Choice(names) = row.form {
            let all: Vec<String> = names.iter().enumerate().map(|(at, name)| format!("{at} {name}")).collect();
            assert!(format.contains(&all.join(", ")), "{}", row.name);
        }
        let own = ["guarded by", "condition identifier", "ours"];
        let of_path = row.name.ends_with("Path index") || row.name.ends_with("Path length");
        if told(row.form).is_some() && !own.contains(&row.name) && !of_path {
            assert!(format.contains(row.name), "{}", row.name);
        }
    }
}
