//! Flat JSON objects, the lines of the protocol. Values are strings without escapes and whole numbers.

use super::bytes::{bytes_of, text_of};
use std::fmt;

#[derive(Clone, PartialEq, Debug)]
pub enum Value {
    Text(String),
    Number(u64),
}

#[derive(Clone, Default, PartialEq, Debug)]
pub struct Object(pub Vec<(String, Value)>);

impl Object {
    /// A case of the call with this name.
    pub fn call(name: &str) -> Object {
        Object::default().text("call", name)
    }

    pub fn text(mut self, name: &str, text: impl Into<String>) -> Object {
        let text = text.into();
        assert!(!text.contains(['"', '\\', '\n']), "no escapes: {text}");
        self.0.push((name.to_string(), Value::Text(text)));
        self
    }

    pub fn number(mut self, name: &str, number: impl TryInto<u64>) -> Object {
        let number = number.try_into().unwrap_or_else(|_| panic!("{name}: not a whole number"));
        self.0.push((name.to_string(), Value::Number(number)));
        self
    }

    /// Appends a byte string, with long runs shortened.
    pub fn bytes(self, name: &str, bytes: &[u8]) -> Object {
        self.text(name, text_of(bytes))
    }

    /// The object with another value of a field that it has.
    pub fn changed(mut self, name: &str, value: Value) -> Object {
        self.0.iter_mut().find(|field| field.0 == name).unwrap_or_else(|| panic!("no field {name}")).1 = value;
        self
    }

    fn value(&self, name: &str) -> &Value {
        &self.0.iter().find(|field| field.0 == name).unwrap_or_else(|| panic!("no field {name}")).1
    }

    pub fn text_of(&self, name: &str) -> &str {
        match self.value(name) {
            Value::Text(text) => text,
            Value::Number(_) => panic!("{name} is not a string"),
        }
    }

    pub fn number_of(&self, name: &str) -> u64 {
        match self.value(name) {
            Value::Number(number) => *number,
            Value::Text(_) => panic!("{name} is not a number"),
        }
    }

    pub fn bytes_of(&self, name: &str) -> Vec<u8> {
        bytes_of(self.text_of(name))
    }

    /// The object of one line; None if it is malformed.
    pub fn parse(line: &str) -> Option<Object> {
        let mut object = Object::default();
        let mut rest = line.trim().strip_prefix('{')?.trim_start();
        while !rest.starts_with('}') {
            let (name, after) = quoted(rest)?;
            let after = after.trim_start().strip_prefix(':')?.trim_start();
            let (value, after) = value(after)?;
            object.0.push((name.to_string(), value));
            let after = after.trim_start();
            rest = after.strip_prefix(',').unwrap_or(after).trim_start();
        }
        (rest == "}").then_some(object)
    }
}

fn quoted(text: &str) -> Option<(&str, &str)> {
    text.strip_prefix('"')?.split_once('"')
}

fn value(text: &str) -> Option<(Value, &str)> {
    if let Some((string, rest)) = quoted(text) {
        return Some((Value::Text(string.to_string()), rest));
    }
    let end = text.find(|c: char| !c.is_ascii_digit())?;
    Some((Value::Number(text[..end].parse().ok()?), &text[end..]))
}

impl fmt::Display for Object {
    fn fmt(&self, to: &mut fmt::Formatter) -> fmt::Result {
        let field = |(name, value): &(String, Value)| match value {
            Value::Text(text) => format!("\"{name}\": \"{text}\""),
            Value::Number(number) => format!("\"{name}\": {number}"),
        };
        write!(to, "{{{}}}", self.0.iter().map(field).collect::<Vec<_>>().join(", "))
    }
}

#[cfg(test)]
mod tests {
    use super::*;

    #[test]
    fn lines() {
        let object = Object::call("check").bytes("file", &[1, 255]).number("job", 7u32);
        let line = "{\"call\": \"check\", \"file\": \"01ff\", \"job\": 7}";
        assert_eq!(object.to_string(), line);
        assert_eq!(Object::parse(line), Some(object.clone()));
        assert_eq!(Object::parse("{\"call\":\"check\",\"file\":\"01ff\",\"job\":7}"), Some(object));
        assert_eq!(Object::parse("{}"), Some(Object::default()));
        for broken in ["", "{", "{\"a\"}", "{\"a\": -1}", "{\"a\": 1} x", "{\"a\": 1"] {
            assert_eq!(Object::parse(broken), None);
        }
    }
}
