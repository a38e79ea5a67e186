//! JSON out of the tool (RFC 8259). Keys stand in the order they are given.

use std::fmt::{self, Display, Write};

use crate::words;

#[derive(Clone, Debug, PartialEq)]
pub enum Value {
    Null,
    Bool(bool),
    Number(i64),
    Float(f32),
    Text(String),
    Array(Vec<Value>),
    Object(Vec<(&'static str, Value)>),
}

/// An object's members without its braces: an object that is written piece by piece needs them so.
pub fn members(members: &[(&'static str, Value)]) -> String {
    let member = |(key, value): &(&'static str, Value)| format!("{}: {value}", quoted(key));
    members.iter().map(member).collect::<Vec<_>>().join(", ")
}

impl Display for Value {
    fn fmt(&self, f: &mut fmt::Formatter) -> fmt::Result {
        match self {
            Value::Null => f.write_str("null"),
            Value::Bool(value) => write!(f, "{value}"),
            Value::Number(value) => write!(f, "{value}"),
            Value::Float(value) if value.is_finite() => f.write_str(&words::float(*value)),
            // JSON has no numbers for these.
            Value::Float(value) => f.write_str(&quoted(&words::float(*value))),
            Value::Text(text) => f.write_str(&quoted(text)),
            Value::Array(values) => {
                let values: Vec<String> = values.iter().map(Value::to_string).collect();
                write!(f, "[{}]", values.join(", "))
            }
            Value::Object(object) => write!(f, "{{{}}}", members(object)),
        }
    }
}

fn quoted(text: &str) -> String {
    let mut quoted = String::from("\"");
    for character in text.chars() {
        match character {
            '"' => quoted.push_str("\\\""),
            '\\' => quoted.push_str("\\\\"),
            '\n' => quoted.push_str("\\n"),
            '\r' => quoted.push_str("\\r"),
            '\t' => quoted.push_str("\\t"),
            // DEL may stand as it is, but a terminal would act on it.
            control if control.is_ascii_control() => {
                // Writing to a String cannot fail.
                let _ = write!(quoted, "\\u{:04x}", u32::from(control));
            }
            other => quoted.push(other),
        }
    }
    quoted.push('"');
    quoted
}

macro_rules! numbers {
    ($($kind:ty),*) => {
        $(impl From<$kind> for Value {
            fn from(number: $kind) -> Value {
                Value::Number(number.into())
            }
        })*
    };
}

numbers!(u8, u16, u32, i32, i64);

impl From<bool> for Value {
    fn from(value: bool) -> Value {
        Value::Bool(value)
    }
}

impl From<f32> for Value {
    fn from(value: f32) -> Value {
        Value::Float(value)
    }
}

impl From<&str> for Value {
    fn from(text: &str) -> Value {
        Value::Text(text.to_string())
    }
}

impl From<String> for Value {
    fn from(text: String) -> Value {
        Value::Text(text)
    }
}

impl<T: Into<Value>> From<Option<T>> for Value {
    fn from(value: Option<T>) -> Value {
        value.map_or(Value::Null, T::into)
    }
}

impl<T: Into<Value>, const N: usize> From<[T; N]> for Value {
    fn from(values: [T; N]) -> Value {
        Value::Array(values.map(T::into).into())
    }
}

impl<T: Clone + Into<Value>> From<&[T]> for Value {
    fn from(values: &[T]) -> Value {
        Value::Array(values.iter().cloned().map(T::into).collect())
    }
}

#[cfg(test)]
mod tests {
    use super::*;

    #[test]
    fn every_kind_of_value() {
        let object = Value::Object(vec![
            ("z", Value::Null),
            ("a", true.into()),
            ("list", [-5, i32::MAX].into()),
            ("none", Value::Array(Vec::new())),
            ("empty", Value::Object(Vec::new())),
            ("text", Some("x").into()),
            ("absent", None::<u32>.into()),
            ("words", ["a".to_string()][..].into()),
        ]);
        assert_eq!(
            object.to_string(),
            "{\"z\": null, \"a\": true, \"list\": [-5, 2147483647], \"none\": [], \"empty\": {}, \"text\": \"x\", \
             \"absent\": null, \"words\": [\"a\"]}"
        );
        assert_eq!(members(&[("a", 1u32.into()), ("b", 2u8.into())]), "\"a\": 1, \"b\": 2");
        assert_eq!(members(&[]), "");
    }

    #[test]
    fn floats_that_json_has_not() {
        let floats = [0.5, -0.0, 1e-45, f32::NAN, f32::INFINITY, f32::NEG_INFINITY];
        assert_eq!(Value::from(floats).to_string(), "[0.5, -0, 1e-45, \"NaN\", \"inf\", \"-inf\"]");
    }

    #[test]
    fn escapes() {
        let text = Value::from("a\"b\\c/\n\r\t\u{0}\u{1f}\u{7f}\u{8}é\u{2028}\u{1f600}").to_string();
        assert_eq!(text, "\"a\\\"b\\\\c/\\n\\r\\t\\u0000\\u001f\\u007f\\u0008é\u{2028}\u{1f600}\"");
    }
}
