//! Values as JSON on one line, in plain ASCII; docs/JSON.md has the fields of each object.

use std::fmt::{self, Write};
use types::Weights;

/// A value. The fields of an object stand in the order in which they are given.
#[derive(Clone, Debug, PartialEq, Eq)]
pub enum Json {
    Yes(bool),
    Number(u64),
    Text(String),
    List(Vec<Json>),
    Object(Vec<(&'static str, Json)>),
}

impl Json {
    /// A text.
    pub fn text(text: impl Into<String>) -> Json {
        Json::Text(text.into())
    }

    /// A number of any width.
    pub fn number(number: impl TryInto<u64>) -> Json {
        Json::Number(number.try_into().unwrap_or(u64::MAX))
    }

    /// A list.
    pub fn list(values: impl IntoIterator<Item = Json>) -> Json {
        Json::List(values.into_iter().collect())
    }

    /// The weights of stations, from 0 up.
    pub fn weights(weights: &Weights) -> Json {
        Json::list(weights.each().iter().map(|weight| Json::number(*weight)))
    }

    /// The stations of a mask, by their numbers.
    pub fn members(mask: u16) -> Json {
        let is_in = |at: &u32| mask.checked_shr(*at).is_some_and(|rest| rest % 2 == 1);
        Json::list((0..16).filter(is_in).map(Json::number))
    }
}

impl fmt::Display for Json {
    fn fmt(&self, to: &mut fmt::Formatter<'_>) -> fmt::Result {
        match self {
            Json::Yes(yes) => write!(to, "{yes}"),
            Json::Number(number) => write!(to, "{number}"),
            Json::Text(text) => quoted(text, to),
            Json::List(values) => {
                to.write_char('[')?;
                for (at, value) in values.iter().enumerate() {
                    write!(to, "{}{value}", if at == 0 { "" } else { "," })?;
                }
                to.write_char(']')
            }
            Json::Object(fields) => {
                to.write_char('{')?;
                for (at, (name, value)) in fields.iter().enumerate() {
                    to.write_str(if at == 0 { "" } else { "," })?;
                    quoted(name, to)?;
                    write!(to, ":{value}")?;
                }
                to.write_char('}')
            }
        }
    }
}

/// A text in quotes; all but printable ASCII is written by its number.
fn quoted(text: &str, to: &mut fmt::Formatter<'_>) -> fmt::Result {
    to.write_char('"')?;
    for unit in text.encode_utf16() {
        match u8::try_from(unit).map(char::from) {
            Ok(sign @ ('"' | '\\')) => write!(to, "\\{sign}")?,
            Ok(sign @ ' '..='~') => to.write_char(sign)?,
            _ => write!(to, "\\u{unit:04x}")?,
        }
    }
    to.write_char('"')
}

#[cfg(test)]
mod tests {
    use super::*;

    #[test]
    fn texts_are_escaped() {
        let text = Json::text("a \"b\" \\ \0\n\u{7f}ß€𝄞/");
        let expected = r#""a \"b\" \\ \u0000\u000a\u007f\u00df\u20ac\ud834\udd1e/""#;
        assert_eq!(text.to_string(), expected);
    }

    #[test]
    fn fields_stand_in_their_order() {
        let none = Json::list([]);
        let inner = Json::Object(vec![]);
        let object = Json::Object(vec![
            ("z", Json::members(0b1000_0000_0000_0101)),
            ("a", Json::Yes(false)),
            ("m", Json::list([none, inner, Json::number(7_usize)])),
        ]);
        assert_eq!(object.to_string(), r#"{"z":[0,2,15],"a":false,"m":[[],{},7]}"#);
    }
}
