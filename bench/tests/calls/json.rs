//! A reader for the JSON of the vectors: objects, lists, strings without escapes, whole numbers,
//! null.

use std::collections::HashMap;

pub enum Value {
    Null,
    Text(String),
    Number(u64),
    Object(HashMap<String, Value>),
    List(Vec<Value>),
}

impl Value {
    /// The member of an object.
    pub fn get(&self, name: &str) -> &Value {
        match self {
            Value::Object(members) => &members[name],
            _ => panic!("no object around {name}"),
        }
    }

    pub fn number(&self, name: &str) -> u64 {
        match self.get(name) {
            Value::Number(number) => *number,
            _ => panic!("{name} is no number"),
        }
    }

    pub fn text(&self, name: &str) -> &str {
        match self.get(name) {
            Value::Text(text) => text,
            _ => panic!("{name} is no string"),
        }
    }

    pub fn list(&self, name: &str) -> &[Value] {
        match self.get(name) {
            Value::List(values) => values,
            _ => panic!("{name} is no list"),
        }
    }

    /// The bytes that a string writes in hexadecimal.
    pub fn bytes(&self, name: &str) -> Vec<u8> {
        let digits: Vec<u32> = self.text(name).chars().map(|c| c.to_digit(16).unwrap()).collect();
        digits.chunks(2).map(|pair| (16 * pair[0] + pair[1]) as u8).collect()
    }
}

/// Reads one value that is the whole text.
pub fn parse(text: &str) -> Value {
    let (value, rest) = value(text);
    assert!(rest.trim().is_empty(), "more after the value: {rest}");
    value
}

/// Reads a value; returns it with the text after it.
fn value(text: &str) -> (Value, &str) {
    let text = text.trim_start();
    match text.as_bytes()[0] {
        b'{' => object(&text[1..]),
        b'[' => list(&text[1..]),
        b'"' => {
            let (string, rest) = string(text);
            (Value::Text(string), rest)
        }
        b'n' => (Value::Null, text.strip_prefix("null").expect("null")),
        _ => {
            let end = text.find(|c: char| !c.is_ascii_digit()).unwrap_or(text.len());
            (Value::Number(text[..end].parse().unwrap()), &text[end..])
        }
    }
}

/// Reads the members of an object, from after its opening brace.
fn object(mut text: &str) -> (Value, &str) {
    let mut members = HashMap::new();
    loop {
        text = text.trim_start();
        if let Some(rest) = text.strip_prefix('}') {
            return (Value::Object(members), rest);
        }
        let (name, rest) = string(text.strip_prefix(',').unwrap_or(text).trim_start());
        let (member, rest) = value(rest.trim_start().strip_prefix(':').expect("a colon"));
        members.insert(name, member);
        text = rest;
    }
}

/// Reads the values of a list, from after its opening bracket.
fn list(mut text: &str) -> (Value, &str) {
    let mut values = Vec::new();
    loop {
        text = text.trim_start();
        if let Some(rest) = text.strip_prefix(']') {
            return (Value::List(values), rest);
        }
        let (member, rest) = value(text.strip_prefix(',').unwrap_or(text));
        values.push(member);
        text = rest;
    }
}

/// Reads a string without escapes.
fn string(text: &str) -> (String, &str) {
    let text = text.strip_prefix('"').expect("a string");
    let end = text.find('"').expect("the string's end");
    (text[..end].to_string(), &text[end + 1..])
}
