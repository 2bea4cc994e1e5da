//! JSON and CSV for scripts.

use crate::args::Args;
use crate::ended::Failure;
use crate::shown;
use std::fmt::Write;

/// How a command prints.
#[derive(Clone, Copy, PartialEq, Eq, Debug)]
pub enum Form {
    Table,
    Csv,
    Json,
}

impl Form {
    /// The form that the options `--csv` and `--json` ask for.
    pub fn asked(args: &Args) -> Result<Form, Failure> {
        match (args.has("csv"), args.has("json")) {
            (true, true) => Err(Failure::usage("--csv and --json exclude each other")),
            (true, false) => Ok(Form::Csv),
            (false, true) => Ok(Form::Json),
            (false, false) => Ok(Form::Table),
        }
    }
}

/// A JSON value.
pub enum Json {
    Null,
    Bool(bool),
    Number(u64),
    Text(String),
    List(Vec<Json>),
    Object(Vec<(&'static str, Json)>),
}

impl Json {
    /// A text; characters that are not visible are escaped when it is written.
    pub fn text(text: impl Into<String>) -> Json {
        Json::Text(text.into())
    }

    /// A list of numbers.
    pub fn numbers(numbers: &[u32]) -> Json {
        Json::List(numbers.iter().copied().map(Json::from).collect())
    }

    /// Bytes as `{"text": ..}` if they are visible text, else as `{"hex": ..}`.
    pub fn bytes(bytes: &[u8]) -> Json {
        Json::Object(vec![match shown::text(bytes) {
            Some(text) => ("text", Json::text(text)),
            None => ("hex", Json::text(shown::hex(bytes))),
        }])
    }

    /// The value on one line.
    pub fn written(&self) -> String {
        let mut to = String::new();
        self.write(&mut to);
        to
    }

    fn write(&self, to: &mut String) {
        match self {
            Json::Null => to.push_str("null"),
            Json::Bool(value) => to.push_str(if *value { "true" } else { "false" }),
            Json::Number(number) => to.push_str(&number.to_string()),
            Json::Text(text) => quote(text, to),
            Json::List(values) => between(to, '[', ']', values, |value, to| value.write(to)),
            Json::Object(members) => between(to, '{', '}', members, |(name, value), to| {
                quote(name, to);
                to.push_str(": ");
                value.write(to);
            }),
        }
    }
}

impl<N: Into<u64>> From<N> for Json {
    fn from(number: N) -> Json {
        Json::Number(number.into())
    }
}

/// Elements between two brackets, with commas.
fn between<T>(to: &mut String, open: char, close: char, elements: &[T], each: impl Fn(&T, &mut String)) {
    to.push(open);
    for (index, element) in elements.iter().enumerate() {
        if index > 0 {
            to.push_str(", ");
        }
        each(element, to);
    }
    to.push(close);
}

fn quote(text: &str, to: &mut String) {
    to.push('"');
    for character in text.chars() {
        match character {
            '"' => to.push_str("\\\""),
            '\\' => to.push_str("\\\\"),
            _ if shown::text(character.to_string().as_bytes()).is_some() => to.push(character),
            _ => character.encode_utf16(&mut [0; 2]).iter().for_each(|unit| {
                let _ = write!(to, "\\u{unit:04x}"); // writing to a String does not fail
            }),
        }
    }
    to.push('"');
}

/// A line of CSV (RFC 4180), without its end.
pub fn csv_line<T: AsRef<str>>(fields: &[T]) -> String {
    let quoted = |field: &T| {
        let field = field.as_ref();
        match field.contains([',', '"', '\n', '\r']) {
            true => format!("\"{}\"", field.replace('"', "\"\"")),
            false => field.to_owned(),
        }
    };
    fields.iter().map(quoted).collect::<Vec<_>>().join(",")
}

#[cfg(test)]
mod tests {
    use super::*;

    #[test]
    fn json_is_escaped() {
        let value = Json::Object(vec![
            ("a", Json::List(vec![Json::Null, Json::Bool(true), Json::from(7u32)])),
            ("b", Json::text("\"\\\n\u{1b}\u{e0001}ü")),
        ]);
        let expected = r#"{"a": [null, true, 7], "b": "\"\\\u000a\u001b\udb40\udc01ü"}"#;
        assert_eq!(value.written(), expected);
    }

    #[test]
    fn csv_is_quoted() {
        assert_eq!(csv_line(&["a", "b,c", "d\"e", ""]), "a,\"b,c\",\"d\"\"e\",");
    }
}
