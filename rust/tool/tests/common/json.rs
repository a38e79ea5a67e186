//! A strict reader of JSON (RFC 8259), to see that what the tool writes is JSON. A key may not stand twice.

use std::iter::Peekable;
use std::ops::Index;
use std::str::Chars;

#[derive(Clone, Debug, PartialEq)]
pub enum Json {
    Null,
    Bool(bool),
    Number(f64),
    Text(String),
    Array(Vec<Json>),
    Object(Vec<(String, Json)>),
}

impl Json {
    /// The whole text is one value, or the test fails.
    #[track_caller]
    pub fn parse(text: &str) -> Json {
        let mut reader = Reader(text.chars().peekable());
        let value = reader.value();
        reader.space();
        assert_eq!(reader.0.next(), None, "behind the document");
        value
    }

    pub fn number(&self) -> f64 {
        match self {
            Json::Number(number) => *number,
            other => panic!("not a number: {other:?}"),
        }
    }

    pub fn text(&self) -> &str {
        match self {
            Json::Text(text) => text,
            other => panic!("not a text: {other:?}"),
        }
    }

    pub fn items(&self) -> &[Json] {
        match self {
            Json::Array(items) => items,
            other => panic!("not an array: {other:?}"),
        }
    }

    pub fn keys(&self) -> Vec<&str> {
        match self {
            Json::Object(members) => members.iter().map(|(key, _)| &key[..]).collect(),
            other => panic!("not an object: {other:?}"),
        }
    }
}

impl Index<&str> for Json {
    type Output = Json;

    fn index(&self, key: &str) -> &Json {
        match self {
            Json::Object(members) => &members.iter().find(|(name, _)| name == key).expect(key).1,
            other => panic!("no {key} in {other:?}"),
        }
    }
}

impl Index<usize> for Json {
    type Output = Json;

    fn index(&self, at: usize) -> &Json {
        &self.items()[at]
    }
}

struct Reader<'a>(Peekable<Chars<'a>>);

impl Reader<'_> {
    fn space(&mut self) {
        while self.0.next_if(|c| " \t\r\n".contains(*c)).is_some() {}
    }

    fn expect(&mut self, text: &str) {
        for c in text.chars() {
            assert_eq!(self.0.next(), Some(c), "in {text}");
        }
    }

    fn value(&mut self) -> Json {
        self.space();
        match self.0.peek().expect("a value") {
            'n' => self.word("null", Json::Null),
            't' => self.word("true", Json::Bool(true)),
            'f' => self.word("false", Json::Bool(false)),
            '"' => Json::Text(self.string()),
            '[' => Json::Array(self.list('[', ']', Reader::value)),
            '{' => {
                let members = self.list('{', '}', Reader::member);
                for (place, (key, _)) in members.iter().enumerate() {
                    assert!(members[..place].iter().all(|(other, _)| other != key), "{key} twice");
                }
                Json::Object(members)
            }
            _ => Json::Number(self.digits()),
        }
    }

    fn word(&mut self, text: &str, value: Json) -> Json {
        self.expect(text);
        value
    }

    fn member(&mut self) -> (String, Json) {
        self.space();
        let key = self.string();
        self.space();
        self.expect(":");
        (key, self.value())
    }

    fn list<T>(&mut self, open: char, close: char, each: impl Fn(&mut Self) -> T) -> Vec<T> {
        self.expect(&open.to_string());
        let mut items = Vec::new();
        self.space();
        if self.0.next_if_eq(&close).is_some() {
            return items;
        }
        loop {
            items.push(each(self));
            self.space();
            if self.0.next_if_eq(&close).is_some() {
                return items;
            }
            self.expect(",");
        }
    }

    fn string(&mut self) -> String {
        self.expect("\"");
        let mut text = String::new();
        loop {
            match self.0.next().expect("a closing quote") {
                '"' => return text,
                '\\' => text.push(self.escape()),
                c => {
                    assert!(c >= ' ', "a control character in a text");
                    text.push(c);
                }
            }
        }
    }

    fn escape(&mut self) -> char {
        match self.0.next().unwrap() {
            c @ ('"' | '\\' | '/') => c,
            'b' => '\u{8}',
            'f' => '\u{c}',
            'n' => '\n',
            'r' => '\r',
            't' => '\t',
            'u' => {
                let digits: String = (0..4).map(|_| self.0.next().unwrap()).collect();
                char::from_u32(u32::from_str_radix(&digits, 16).unwrap()).unwrap()
            }
            other => panic!("\\{other}"),
        }
    }

    /// -? (0 | [1-9] digits) fraction? exponent?
    fn digits(&mut self) -> f64 {
        let mut text = String::new();
        while let Some(c) = self.0.next_if(|c| c.is_ascii_digit() || "+-.eE".contains(*c)) {
            text.push(c);
        }
        let whole = text.strip_prefix('-').unwrap_or(&text).split(['.', 'e', 'E']).next().unwrap();
        assert!(whole == "0" || !whole.is_empty() && !whole.starts_with('0'), "{text}");
        assert!(!text.contains(".e") && !text.ends_with('.') && !text.starts_with('+'), "{text}");
        text.parse().unwrap()
    }
}
