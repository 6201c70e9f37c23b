//! Untrusted text, made harmless: control, bidirectional, invisible and markup characters are escaped.

/// Whether a character would steer what is printed, or not be seen.
fn is_hidden(c: char) -> bool {
    c.is_control()
        || matches!(c, '\u{AD}' | '\u{34F}' | '\u{61C}' | '\u{115F}' | '\u{1160}' | '\u{17B4}' | '\u{17B5}')
        || matches!(c, '\u{180B}'..='\u{180F}' | '\u{200B}'..='\u{200F}' | '\u{2028}'..='\u{202E}')
        || matches!(c, '\u{2060}'..='\u{206F}' | '\u{3164}' | '\u{FE00}'..='\u{FE0F}' | '\u{FEFF}' | '\u{FFA0}')
        || matches!(c, '\u{FFF0}'..='\u{FFFB}' | '\u{1D173}'..='\u{1D17A}' | '\u{E0000}'..='\u{E0FFF}')
        || (c as u32) & 0xFFFE == 0xFFFE
}

/// Whether a character is one of markup.
fn is_markup(c: char) -> bool {
    matches!(c, '<' | '>' | '&' | '"' | '\'' | '`')
}

/// Text with every such character, and the backslash, as `\u{202E}`.
pub fn plain(text: &str) -> String {
    let mut out = String::new();
    for c in text.chars() {
        match is_hidden(c) || is_markup(c) || c == '\\' {
            true => out += &format!("\\u{{{:X}}}", c as u32),
            false => out.push(c),
        }
    }
    out
}

/// Bytes as text in quotes; what is no UTF-8 as hex.
pub fn quoted(bytes: &[u8]) -> String {
    match std::str::from_utf8(bytes) {
        Ok(text) => format!("\"{}\"", plain(text)),
        Err(_) => hex(bytes),
    }
}

/// The inside of a JSON string: the same characters in JSON's own escapes.
pub fn json(text: &str) -> String {
    let mut out = String::new();
    for c in text.chars() {
        match c {
            '\\' => out += "\\\\",
            '"' => out += "\\\"",
            _ if is_hidden(c) || is_markup(c) => {
                let mut units = [0; 2];
                c.encode_utf16(&mut units).iter().for_each(|unit| out += &format!("\\u{unit:04X}"));
            }
            _ => out.push(c),
        }
    }
    out
}

/// Bytes in hex, two digits each, with nothing between.
pub fn hex(bytes: &[u8]) -> String {
    bytes.iter().map(|byte| format!("{byte:02X}")).collect()
}

/// Text with each `\u{..}` as the character that it stands for; none where an escape is broken.
pub fn unescape(text: &str) -> Option<String> {
    let mut out = String::new();
    let mut rest = text;
    while let Some(at) = rest.find('\\') {
        out += &rest[..at];
        let (digits, behind) = rest[at..].strip_prefix("\\u{")?.split_once('}')?;
        out.push(char::from_u32(u32::from_str_radix(digits, 16).ok()?)?);
        rest = behind;
    }
    Some(out + rest)
}
