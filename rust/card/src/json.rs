//! JSON values and how they are printed.

use crate::escape;

#[derive(Clone, Debug, PartialEq)]
pub enum Json {
    Null,
    Bool(bool),
    Number(i64),
    Text(String),
    List(Vec<Json>),
    Object(Vec<(&'static str, Json)>),
}

/// A list or object that is no longer than this stands in one line.
const WIDTH: usize = 110;

impl Json {
    pub fn text(text: &str) -> Json {
        Json::Text(text.to_string())
    }

    pub fn count(count: usize) -> Json {
        Json::Number(count as i64)
    }

    /// A value, or null.
    pub fn or_null<T>(value: Option<T>, form: impl Fn(T) -> Json) -> Json {
        value.map_or(Json::Null, form)
    }

    /// The value as a file: pretty, with a line end.
    pub fn page(&self) -> String {
        let mut out = String::new();
        self.put(&mut out, 0);
        out + "\n"
    }

    fn put(&self, out: &mut String, depth: usize) {
        let line = self.line();
        if line.chars().count() + 2 * depth <= WIDTH {
            *out += &line;
            return;
        }
        match self {
            Json::List(all) => put_all(out, depth, ['[', ']'], all, |out, value| value.put(out, depth + 1)),
            Json::Object(all) => put_all(out, depth, ['{', '}'], all, |out, (name, value)| {
                *out += &format!("\"{name}\": ");
                value.put(out, depth + 1);
            }),
            _ => *out += &line,
        }
    }

    /// The value in one line.
    pub fn line(&self) -> String {
        let joined = |parts: Vec<String>| parts.join(", ");
        match self {
            Json::Null => "null".to_string(),
            Json::Bool(value) => value.to_string(),
            Json::Number(value) => value.to_string(),
            Json::Text(text) => format!("\"{}\"", escape::json(text)),
            Json::List(all) => format!("[{}]", joined(all.iter().map(Json::line).collect())),
            Json::Object(all) => {
                let parts = all.iter().map(|(name, value)| format!("\"{name}\": {}", value.line()));
                format!("{{{}}}", joined(parts.collect()))
            }
        }
    }
}

/// Parts a line each, between brackets.
fn put_all<T>(out: &mut String, depth: usize, brackets: [char; 2], all: &[T], put: impl Fn(&mut String, &T)) {
    out.push(brackets[0]);
    for (at, part) in all.iter().enumerate() {
        *out += if at == 0 { "\n" } else { ",\n" };
        *out += &"  ".repeat(depth + 1);
        put(out, part);
    }
    *out += &format!("\n{}{}", "  ".repeat(depth), brackets[1]);
}
