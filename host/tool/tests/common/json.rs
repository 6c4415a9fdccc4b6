//! A reader of JSON, for what the tool prints: RFC 8259 without fractions and exponents.

use std::collections::BTreeMap;

/// A value.
#[derive(Clone, PartialEq, Debug)]
pub enum Json {
    Null,
    Bool(bool),
    Number(i64),
    Text(String),
    List(Vec<Json>),
    Object(BTreeMap<String, Json>),
}

impl Json {
    /// The value of a text, which must hold nothing else.
    pub fn parse(text: &str) -> Json {
        let mut reader = Reader(text.trim_end());
        let value = reader.value();
        reader.blanks();
        assert_eq!(reader.0, "", "something is left");
        value
    }

    pub fn member(&self, name: &str) -> &Json {
        let Json::Object(members) = self else {
            panic!("no object: {self:?}");
        };
        members
            .get(name)
            .unwrap_or_else(|| panic!("no {name}: {self:?}"))
    }

    pub fn number(&self, name: &str) -> i64 {
        match self.member(name) {
            Json::Number(number) => *number,
            other => panic!("{name} is {other:?}"),
        }
    }

    pub fn list(&self, name: &str) -> &[Json] {
        match self.member(name) {
            Json::List(list) => list,
            other => panic!("{name} is {other:?}"),
        }
    }
}

/// What is left to read.
struct Reader<'a>(&'a str);

impl Reader<'_> {
    fn blanks(&mut self) {
        self.0 = self.0.trim_start_matches([' ', '\t', '\n', '\r']);
    }

    /// Whether a text comes next, which is passed then.
    fn takes(&mut self, text: &str) -> bool {
        self.blanks();
        let rest = self.0.strip_prefix(text);
        self.0 = rest.unwrap_or(self.0);
        rest.is_some()
    }

    fn needs(&mut self, text: &str) {
        assert!(self.takes(text), "{text} is missing before {:?}", self.0);
    }

    fn value(&mut self) -> Json {
        self.blanks();
        if self.takes("null") {
            return Json::Null;
        }
        if self.takes("true") {
            return Json::Bool(true);
        }
        if self.takes("false") {
            return Json::Bool(false);
        }
        match self.0.chars().next() {
            Some('"') => Json::Text(self.text()),
            Some('[') => self.list(),
            Some('{') => self.object(),
            _ => self.number(),
        }
    }

    fn number(&mut self) -> Json {
        let length = self.0.find(|c: char| !c.is_ascii_digit() && c != '-');
        let (digits, rest) = self.0.split_at(length.unwrap_or(self.0.len()));
        let plain = digits.trim_start_matches('-');
        assert!(plain == "0" || !plain.starts_with('0'), "{digits}");
        self.0 = rest;
        Json::Number(
            digits
                .parse()
                .unwrap_or_else(|_| panic!("no value: {digits}{rest}")),
        )
    }

    /// A text; of escapes only those of one character.
    fn text(&mut self) -> String {
        self.needs("\"");
        let mut text = String::new();
        let mut rest = self.0.chars();
        loop {
            match rest.next().expect("the text ends") {
                '"' => break,
                '\\' => text.push(rest.next().expect("an escape")),
                plain => {
                    assert!(!plain.is_control(), "{plain:?} is not escaped");
                    text.push(plain);
                }
            }
        }
        self.0 = rest.as_str();
        text
    }

    fn list(&mut self) -> Json {
        self.needs("[");
        let mut list = Vec::new();
        if self.takes("]") {
            return Json::List(list);
        }
        loop {
            list.push(self.value());
            if self.takes("]") {
                return Json::List(list);
            }
            self.needs(",");
        }
    }

    fn object(&mut self) -> Json {
        self.needs("{");
        let mut object = BTreeMap::new();
        if self.takes("}") {
            return Json::Object(object);
        }
        loop {
            let name = self.text();
            self.needs(":");
            let value = self.value();
            assert!(object.insert(name, value).is_none(), "a name comes twice");
            if self.takes("}") {
                return Json::Object(object);
            }
            self.needs(",");
        }
    }
}
