//! Values as JSON.

use std::fmt::{self, Display, Formatter};

/// A value.
pub enum Json {
    None,
    Bool(bool),
    /// A number as it is written, such as `412.50`.
    Number(String),
    Text(String),
    List(Vec<Json>),
    Object(Vec<(&'static str, Json)>),
}

pub fn number(number: impl Display) -> Json {
    Json::Number(number.to_string())
}

pub fn text(text: impl Display) -> Json {
    Json::Text(text.to_string())
}

pub fn list(values: impl IntoIterator<Item = Json>) -> Json {
    Json::List(values.into_iter().collect())
}

pub fn object<const N: usize>(fields: [(&'static str, Json); N]) -> Json {
    Json::Object(fields.into())
}

fn between<T>(f: &mut Formatter<'_>, parts: &[T], each: impl Fn(&mut Formatter<'_>, &T) -> fmt::Result) -> fmt::Result {
    for (i, part) in parts.iter().enumerate() {
        if i > 0 {
            f.write_str(",")?;
        }
        each(f, part)?;
    }
    Ok(())
}

/// In one line.
impl Display for Json {
    fn fmt(&self, f: &mut Formatter<'_>) -> fmt::Result {
        match self {
            Json::None => f.write_str("null"),
            Json::Bool(value) => value.fmt(f),
            Json::Number(number) => f.write_str(number),
            Json::Text(text) => quoted(f, text),
            Json::List(values) => {
                f.write_str("[")?;
                between(f, values, |f, value| value.fmt(f))?;
                f.write_str("]")
            }
            Json::Object(fields) => {
                f.write_str("{")?;
                between(f, fields, |f, (name, value)| write!(f, "\"{name}\":{value}"))?;
                f.write_str("}")
            }
        }
    }
}

fn quoted(f: &mut Formatter<'_>, text: &str) -> fmt::Result {
    f.write_str("\"")?;
    for char in text.chars() {
        match char {
            '"' | '\\' => write!(f, "\\{char}")?,
            '\0'..='\x1f' => write!(f, "\\u{:04x}", char as u32)?,
            _ => write!(f, "{char}")?,
        }
    }
    f.write_str("\"")
}

#[cfg(test)]
mod tests {
    use super::*;

    #[test]
    fn written() {
        let value = object([
            ("none", Json::None),
            ("truth", Json::Bool(true)),
            ("list", list([number(1), number("-0.05"), text("a\"b\\c\né")])),
            ("empty", object([])),
        ]);
        assert_eq!(value.to_string(), r#"{"none":null,"truth":true,"list":[1,-0.05,"a\"b\\c\u000aé"],"empty":{}}"#);
    }
}
