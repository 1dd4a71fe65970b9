//! JSON as the page's data have it: whole numbers, and no spaces.

use std::collections::BTreeMap;

/// A value of JSON.
#[derive(Clone, PartialEq, Debug)]
pub enum Json {
    Null,
    Flag(bool),
    Number(i64),
    Text(String),
    List(Vec<Json>),
    Object(BTreeMap<String, Json>),
}

/// The text still to be read.
struct Reader<'a> {
    rest: &'a str,
}

impl Reader<'_> {
    fn take(&mut self, start: &str) -> bool {
        let rest = self.rest.strip_prefix(start);
        self.rest = rest.unwrap_or(self.rest);
        rest.is_some()
    }

    fn expect(&mut self, start: &str) {
        assert!(self.take(start), "{start} at {:.40}", self.rest);
    }

    fn value(&mut self) -> Json {
        if self.take("null") {
            Json::Null
        } else if self.take("true") {
            Json::Flag(true)
        } else if self.take("false") {
            Json::Flag(false)
        } else if self.rest.starts_with('"') {
            Json::Text(self.text())
        } else if self.take("[") {
            Json::List(self.items("]", Reader::value))
        } else if self.take("{") {
            let fields = self.items("}", |reader| {
                let name = reader.text();
                reader.expect(":");
                (name, reader.value())
            });
            Json::Object(fields.into_iter().collect())
        } else {
            self.number()
        }
    }

    fn items<T>(&mut self, end: &str, item: impl Fn(&mut Self) -> T) -> Vec<T> {
        let mut items = Vec::new();
        if self.take(end) {
            return items;
        }
        loop {
            items.push(item(self));
            if self.take(end) {
                return items;
            }
            self.expect(",");
        }
    }

    fn number(&mut self) -> Json {
        let is_other = |sign: char| !sign.is_ascii_digit() && sign != '-';
        let end = self.rest.find(is_other).unwrap_or(self.rest.len());
        let (digits, rest) = self.rest.split_at(end);
        self.rest = rest;
        Json::Number(digits.parse().expect("a whole number"))
    }

    fn text(&mut self) -> String {
        self.expect("\"");
        let mut text = String::new();
        while !self.take("\"") {
            if self.take("\\u") {
                let (digits, rest) = self.rest.split_at(4);
                let sign = u32::from_str_radix(digits, 16).expect("four digits");
                text.push(char::from_u32(sign).expect("a sign"));
                self.rest = rest;
            } else {
                self.take("\\");
                let sign = self.rest.chars().next().expect("the text ends");
                text.push(sign);
                self.rest = &self.rest[sign.len_utf8()..];
            }
        }
        text
    }
}

impl Json {
    /// Reads a text that is one value.
    pub fn of(text: &str) -> Json {
        let mut reader = Reader { rest: text };
        let value = reader.value();
        assert!(reader.rest.is_empty(), "{:.40} is too much", reader.rest);
        value
    }

    pub fn field(&self, name: &str) -> &Json {
        self.find(name).unwrap_or_else(|| panic!("no field {name}"))
    }

    fn find(&self, name: &str) -> Option<&Json> {
        match self {
            Json::Object(fields) => fields.get(name),
            other => panic!("no object: {other:?}"),
        }
    }

    /// A field of what may be null.
    pub fn maybe(&self, name: &str) -> Option<&Json> {
        match self {
            Json::Null => None,
            object => object.find(name),
        }
    }

    pub fn list(&self) -> &[Json] {
        match self {
            Json::List(items) => items,
            other => panic!("no list: {other:?}"),
        }
    }

    pub fn number(&self) -> i64 {
        match self {
            Json::Number(number) => *number,
            other => panic!("no number: {other:?}"),
        }
    }

    pub fn text(&self) -> &str {
        match self {
            Json::Text(text) => text,
            other => panic!("no text: {other:?}"),
        }
    }

    pub fn numbers(&self) -> Vec<i64> {
        self.list().iter().map(Json::number).collect()
    }
}
