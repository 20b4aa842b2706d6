//! JSON, as far as an answer needs it.
use std::fmt::{self, Display, Formatter, Write};
use std::os::unix::ffi::OsStrExt;
use std::path::Path;

#[derive(Clone)]
pub enum Value {
    Null,
    Bool(bool),
    Number(u64),
    Signed(i64),
    Text(String),
    List(Vec<Value>),
    Object(Vec<(&'static str, Value)>),
}

/// A list of anything that has a value.
pub fn list<T: Into<Value>>(items: impl IntoIterator<Item = T>) -> Value {
    Value::List(items.into_iter().map(Into::into).collect())
}

pub fn object<const N: usize>(fields: [(&'static str, Value); N]) -> Value {
    Value::Object(fields.into_iter().collect())
}

/// A file's name: text as it is, and what is none with its bytes in hexadecimal digits, so that no two look the same.
pub fn file(path: &Path) -> Value {
    match path.to_str() {
        Some(name) => name.into(),
        None => {
            let bytes: String = path.as_os_str().as_bytes().iter().map(|byte| format!("{byte:02x}")).collect();
            object([("name", path.to_string_lossy().into_owned().into()), ("bytes", bytes.into())])
        }
    }
}

/// A value, or null.
pub fn optional<T: Into<Value>>(value: Option<T>) -> Value {
    value.map_or(Value::Null, Into::into)
}

macro_rules! from {
    ($($from:ty => |$value:ident| $made:expr;)*) => {
        $(impl From<$from> for Value {
            fn from($value: $from) -> Value {
                $made
            }
        })*
    };
}

from! {
    bool => |value| Value::Bool(value);
    u8 => |value| Value::Number(value.into());
    u16 => |value| Value::Number(value.into());
    u64 => |value| Value::Number(value);
    usize => |value| Value::Number(value as u64);
    i8 => |value| Value::Signed(value.into());
    &u8 => |value| Value::Number((*value).into());
    &u16 => |value| Value::Number((*value).into());
    &u64 => |value| Value::Number(*value);
    &i8 => |value| Value::Signed((*value).into());
    &str => |value| Value::Text(value.to_string());
    String => |value| Value::Text(value);
    &String => |value| Value::Text(value.clone());
}

impl Display for Value {
    fn fmt(&self, f: &mut Formatter<'_>) -> fmt::Result {
        match self {
            Value::Null => f.write_str("null"),
            Value::Bool(value) => write!(f, "{value}"),
            Value::Number(value) => write!(f, "{value}"),
            Value::Signed(value) => write!(f, "{value}"),
            Value::Text(text) => quoted(text, f),
            Value::List(items) => {
                f.write_char('[')?;
                for (number, item) in items.iter().enumerate() {
                    write!(f, "{}{item}", if number > 0 { "," } else { "" })?;
                }
                f.write_char(']')
            }
            Value::Object(fields) => {
                f.write_char('{')?;
                for (number, (name, value)) in fields.iter().enumerate() {
                    write!(f, "{}\"{name}\":{value}", if number > 0 { "," } else { "" })?;
                }
                f.write_char('}')
            }
        }
    }
}

fn quoted(text: &str, f: &mut Formatter<'_>) -> fmt::Result {
    f.write_char('"')?;
    for character in text.chars() {
        match character {
            '"' | '\\' => write!(f, "\\{character}")?,
            '\n' => f.write_str("\\n")?,
            character if character.is_control() => write!(f, "\\u{:04x}", u32::from(character))?,
            character => f.write_char(character)?,
        }
    }
    f.write_char('"')
}

#[cfg(test)]
mod tests {
    use super::*;

    #[test]
    fn values_are_written_as_json() {
        let value = object([
            ("a", list([1u8, 2])),
            ("b", "x\"\\\n\u{1b}é".into()),
            ("c", Value::Null),
            ("d", true.into()),
            ("e", list([-3i8])),
            ("f", optional(None::<u8>)),
        ]);
        assert_eq!(value.to_string(), r#"{"a":[1,2],"b":"x\"\\\n\u001bé","c":null,"d":true,"e":[-3],"f":null}"#);
    }
}
