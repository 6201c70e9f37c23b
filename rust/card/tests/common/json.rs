//! A strict reader of JSON, so that what is printed is held against what JSON is.

#[derive(Clone, Debug, PartialEq)]
pub enum Value {
    Null,
    Bool(bool),
    Number(i64),
    Text(String),
    List(Vec<Value>),
    Object(Vec<(String, Value)>),
}

impl Value {
    /// The member of this name; it has to be there.
    pub fn get(&self, name: &str) -> &Value {
        let Value::Object(all) = self else { panic!("{name} of what is no object") };
        &all.iter().find(|(other, _)| other == name).unwrap_or_else(|| panic!("there is no {name}")).1
    }

    pub fn list(&self) -> &[Value] {
        let Value::List(all) = self else { panic!("no list") };
        all
    }

    pub fn number(&self) -> i64 {
        let Value::Number(number) = self else { panic!("no number") };
        *number
    }

    /// Every object inside, this one too.
    pub fn objects(&self) -> Vec<&Value> {
        match self {
            Value::List(all) => all.iter().flat_map(Value::objects).collect(),
            Value::Object(all) => std::iter::once(self).chain(all.iter().flat_map(|(_, it)| it.objects())).collect(),
            _ => Vec::new(),
        }
    }

    pub fn has(&self, name: &str) -> bool {
        matches!(self, Value::Object(all) if all.iter().any(|(other, _)| other == name))
    }
}

struct Reader<'a> {
    text: &'a str,
    at: usize,
}

/// Reads a whole text.
pub fn parse(text: &str) -> Value {
    let mut reader = Reader { text, at: 0 };
    let value = reader.value();
    reader.space();
    assert_eq!(reader.at, text.len(), "something stands behind the value");
    value
}

impl Reader<'_> {
    fn rest(&self) -> &str {
        &self.text[self.at..]
    }

    fn space(&mut self) {
        self.at += self.rest().len() - self.rest().trim_start_matches([' ', '\n']).len();
    }

    fn take(&mut self, word: &str) -> bool {
        let there = self.rest().starts_with(word);
        self.at += if there { word.len() } else { 0 };
        there
    }

    fn due(&mut self, word: &str) {
        assert!(self.take(word), "{word} is due at {}", self.at);
    }

    fn value(&mut self) -> Value {
        self.space();
        match self.rest().as_bytes().first().copied().expect("a value is due") {
            b'{' => Value::Object(self.parts("{", "}", |reader| {
                reader.space();
                let name = reader.text();
                reader.due(":");
                (name, reader.value())
            })),
            b'[' => Value::List(self.parts("[", "]", Reader::value)),
            b'"' => Value::Text(self.text()),
            _ if self.take("null") => Value::Null,
            _ if self.take("true") => Value::Bool(true),
            _ if self.take("false") => Value::Bool(false),
            _ => self.digits(),
        }
    }

    fn parts<T>(&mut self, open: &str, close: &str, part: impl Fn(&mut Self) -> T) -> Vec<T> {
        self.due(open);
        self.space();
        let mut all = Vec::new();
        while !self.take(close) {
            if !all.is_empty() {
                self.due(",");
            }
            all.push(part(self));
            self.space();
        }
        all
    }

    fn digits(&mut self) -> Value {
        let rest = self.rest();
        let length = rest.find(|c: char| !c.is_ascii_digit() && c != '-').unwrap_or(rest.len());
        let number = rest[..length].parse().expect("a number is due");
        self.at += length;
        Value::Number(number)
    }

    fn text(&mut self) -> String {
        self.due("\"");
        let mut units: Vec<u16> = Vec::new();
        loop {
            let c = self.rest().chars().next().expect("a text has an end");
            self.at += c.len_utf8();
            match c {
                '"' => return String::from_utf16(&units).unwrap(),
                '\\' => self.escape(&mut units),
                _ => {
                    assert!(!c.is_control(), "a control character stands in a text");
                    units.extend(c.encode_utf16(&mut [0; 2]).iter());
                }
            }
        }
    }

    fn escape(&mut self, units: &mut Vec<u16>) {
        if self.take("u") {
            units.push(u16::from_str_radix(&self.rest()[..4], 16).unwrap());
            self.at += 4;
            return;
        }
        let plain = [("\"", '"'), ("\\", '\\')].into_iter().find(|(word, _)| self.take(word));
        units.push(plain.expect("an escape is due").1 as u16);
    }
}
