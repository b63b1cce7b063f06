//! As much of JSON as the vectors have. A value prints without spaces and quotes, since a long number is a text in the vectors.
use std::fmt;

#[derive(Clone, PartialEq, Debug)]
pub enum Json {
    /// A number, null, true or false.
    Word(String),
    Text(String),
    List(Vec<Json>),
    Map(Vec<(String, Json)>),
}

impl Json {
    pub fn parse(line: &str) -> Json {
        let mut rest = line.trim();
        let value = value(&mut rest);
        assert!(rest.is_empty(), "{rest}");
        value
    }

    /// The value of a key.
    pub fn get(&self, key: &str) -> Option<&Json> {
        let Json::Map(entries) = self else { panic!("no map: {self}") };
        entries.iter().find(|e| e.0 == key).map(|e| &e.1)
    }

    pub fn list(&self) -> &[Json] {
        let Json::List(items) = self else { panic!("no list: {self}") };
        items
    }

    pub fn text(&self) -> &str {
        let Json::Text(text) = self else { panic!("no text: {self}") };
        text
    }

    /// A number, bare or as a text, where an i64 holds it.
    pub fn integer(&self) -> Option<i64> {
        match self {
            Json::Word(digits) | Json::Text(digits) => digits.parse().ok(),
            _ => panic!("no number: {self}"),
        }
    }

    pub fn number(&self) -> i64 {
        self.integer().unwrap()
    }

    /// A number, bare or as a text, that a u64 holds.
    pub fn unsigned(&self) -> u64 {
        match self {
            Json::Word(digits) | Json::Text(digits) => digits.parse().unwrap(),
            _ => panic!("no number: {self}"),
        }
    }

    /// The value unless it is null.
    pub fn some(&self) -> Option<&Json> {
        (*self != Json::Word("null".into())).then_some(self)
    }

    pub fn hex(&self) -> Vec<u8> {
        let text = self.text();
        (0..text.len()).step_by(2).map(|k| u8::from_str_radix(&text[k..k + 2], 16).unwrap()).collect()
    }
}

fn take(rest: &mut &str, what: char) -> bool {
    *rest = rest.trim_start();
    let taken = rest.strip_prefix(what);
    *rest = taken.unwrap_or(rest);
    taken.is_some()
}

/// Items until the closing bracket, with commas between.
fn items<T>(rest: &mut &str, close: char, item: impl Fn(&mut &str) -> T) -> Vec<T> {
    let mut all = Vec::new();
    while !take(rest, close) {
        all.push(item(rest));
        take(rest, ',');
    }
    all
}

/// A text up to its closing quote; the vectors have no escapes.
fn quoted(rest: &mut &str) -> String {
    let (text, after) = rest.split_once('"').unwrap();
    *rest = after;
    text.to_string()
}

fn entry(rest: &mut &str) -> (String, Json) {
    assert!(take(rest, '"'));
    let key = quoted(rest);
    assert!(take(rest, ':'));
    (key, value(rest))
}

fn value(rest: &mut &str) -> Json {
    if take(rest, '{') {
        Json::Map(items(rest, '}', entry))
    } else if take(rest, '[') {
        Json::List(items(rest, ']', value))
    } else if take(rest, '"') {
        Json::Text(quoted(rest))
    } else {
        let end = rest.find([',', ']', '}']).unwrap_or(rest.len());
        let (word, after) = rest.split_at(end);
        *rest = after;
        Json::Word(word.trim().to_string())
    }
}

impl fmt::Display for Json {
    fn fmt(&self, f: &mut fmt::Formatter) -> fmt::Result {
        let join = |all: Vec<String>| all.join(",");
        match self {
            Json::Word(text) | Json::Text(text) => write!(f, "{text}"),
            Json::List(items) => {
                write!(f, "[{}]", join(items.iter().map(Json::to_string).collect()))
            }
            Json::Map(entries) => write!(f, "{{{}}}", join(entries.iter().map(|(k, v)| format!("{k}:{v}")).collect())),
        }
    }
}
