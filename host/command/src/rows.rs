//! Rows for programs: one JSON object a line, or the cells of a CSV line.

use std::borrow::Cow;
use std::fmt::{Display, Write};

use crate::terminal::{is_plain, shown};

/// A value: text, or JSON as it stands.
#[derive(Debug)]
enum Value {
    Text(String),
    Plain(String),
}

/// An object, key by key.
#[derive(Debug, Default)]
pub struct Object(Vec<(Cow<'static, str>, Value)>);

impl Object {
    /// Without keys as yet.
    pub fn new() -> Object {
        Object::default()
    }

    /// A key whose value is text, or is told as text.
    pub fn text(self, key: &'static str, value: impl Display) -> Object {
        self.with(key, Value::Text(value.to_string()))
    }

    /// A key whose value is text or null.
    pub fn perhaps(self, key: &'static str, value: Option<impl Display>) -> Object {
        match value {
            Some(value) => self.text(key, value),
            None => self.plain(key, "null"),
        }
    }

    /// A key whose value is JSON as it stands: a number, a truth value, null, an object or a list.
    pub fn plain(self, key: impl Into<Cow<'static, str>>, value: impl Display) -> Object {
        self.with(key, Value::Plain(value.to_string()))
    }

    /// A key whose value is a list.
    pub fn list(self, key: &'static str, values: impl Iterator<Item = String>) -> Object {
        let values: Vec<String> = values.collect();
        self.plain(key, format!("[{}]", values.join(",")))
    }

    fn with(mut self, key: impl Into<Cow<'static, str>>, value: Value) -> Object {
        self.0.push((key.into(), value));
        self
    }

    /// The whole object in JSON.
    pub fn json(&self) -> String {
        let mut out = String::from("{");
        for (number, (key, value)) in self.0.iter().enumerate() {
            let comma = if number > 0 { "," } else { "" };
            // Writing to a string does not fail.
            let _ = match value {
                Value::Text(text) => write!(out, "{comma}{}:{}", quoted(key), quoted(text)),
                Value::Plain(text) => write!(out, "{comma}{}:{text}", quoted(key)),
            };
        }
        out.push('}');
        out
    }

    /// Its cells under these columns, if it has one of them: empty for null, and for a key that it lacks.
    pub fn csv(&self, columns: &[&str]) -> Option<String> {
        let cell =
            |column: &&str| self.0.iter().find(|(key, _)| key == column).map(|(_, value)| value);
        let cells: Vec<Option<&Value>> = columns.iter().map(cell).collect();
        let written = |value: &Option<&Value>| match value {
            Some(Value::Text(text)) => csv_cell(&shown(text.as_bytes())),
            Some(Value::Plain(text)) if text != "null" => csv_cell(text),
            _ => String::new(),
        };
        let any = cells.iter().any(Option::is_some);
        any.then(|| cells.iter().map(written).collect::<Vec<String>>().join(","))
    }
}

/// A cell, in quotation marks where it needs them.
fn csv_cell(text: &str) -> String {
    if text.contains(['"', ',', '\n', '\r']) {
        return format!("\"{}\"", text.replace('"', "\"\""));
    }
    text.to_string()
}

/// A text as JSON has it; what a terminal should not see is an escape.
pub fn quoted(text: &str) -> String {
    let mut out = String::with_capacity(text.len() + 2);
    out.push('"');
    for letter in text.chars() {
        match letter {
            '"' | '\\' => out.extend(['\\', letter]),
            '\n' => out.push_str("\\n"),
            letter if is_plain(letter) => out.push(letter),
            hidden => hidden.encode_utf16(&mut [0; 2]).iter().for_each(|unit| {
                let _ = write!(out, "\\u{unit:04x}");
            }),
        }
    }
    out.push('"');
    out
}

/// Two digits a byte.
pub fn hexadecimal(bytes: &[u8]) -> String {
    bytes.iter().map(|byte| format!("{byte:02x}")).collect()
}

#[cfg(test)]
mod tests {
    use super::Object;

    fn object() -> Object {
        Object::new()
            .text("name", "a\"\\\n\u{1}ë\u{202e}\u{e0041}")
            .plain("year", -3)
            .perhaps("none", None::<&str>)
            .list("tags", ["1".to_string(), "2".to_string()].into_iter())
    }

    #[test]
    fn keys_values_and_what_must_be_escaped() {
        let told = "{\"name\":\"a\\\"\\\\\\n\\u0001ë\\u202e\\udb40\\udc41\",\"year\":-3,\"none\":null,\"tags\":[1,2]}";
        assert_eq!(object().json(), told);
        assert_eq!(Object::new().json(), "{}");
    }

    #[test]
    fn cells_in_the_order_of_the_columns() {
        let cells = object().csv(&["year", "absent", "none", "tags", "name"]);
        let told = "-3,,,\"[1,2]\",\"a\"\"\\\\\\n\\u{1}ë\\u{202e}\\u{e0041}\"";
        assert_eq!(cells.as_deref(), Some(told));
        assert_eq!(object().csv(&["absent"]), None);
    }
}
