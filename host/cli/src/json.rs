//! JSON as it is printed: `{"name": 1, "list": [1, 2]}`.

use std::fmt;

pub enum Json {
    Null,
    Bool(bool),
    Number(i64),
    /// A number that is said as a decimal already.
    Decimal(String),
    Text(String),
    List(Vec<Json>),
    Object(Vec<(String, Json)>),
}

/// An object of these fields, in their order.
pub fn object<const N: usize>(fields: [(&str, Json); N]) -> Json {
    Json::Object(fields.map(|(name, value)| (name.to_string(), value)).into())
}

/// A list of what each of these becomes.
pub fn list<T>(items: impl IntoIterator<Item = T>, one: impl FnMut(T) -> Json) -> Json {
    Json::List(items.into_iter().map(one).collect())
}

impl Json {
    /// An object with the fields of another behind its own.
    pub fn and(self, more: Json) -> Json {
        match (self, more) {
            (Json::Object(mut fields), Json::Object(more)) => {
                fields.extend(more);
                Json::Object(fields)
            }
            (whole, _) => whole,
        }
    }
}

impl From<bool> for Json {
    fn from(value: bool) -> Json {
        Json::Bool(value)
    }
}

impl From<usize> for Json {
    fn from(value: usize) -> Json {
        Json::Number(value as i64)
    }
}

impl From<u64> for Json {
    fn from(value: u64) -> Json {
        Json::Number(value as i64)
    }
}

impl From<u32> for Json {
    fn from(value: u32) -> Json {
        Json::Number(value.into())
    }
}

impl From<i32> for Json {
    fn from(value: i32) -> Json {
        Json::Number(value.into())
    }
}

impl From<&str> for Json {
    fn from(value: &str) -> Json {
        Json::Text(value.to_string())
    }
}

impl From<String> for Json {
    fn from(value: String) -> Json {
        Json::Text(value)
    }
}

impl<T: Into<Json>> From<Option<T>> for Json {
    fn from(value: Option<T>) -> Json {
        value.map_or(Json::Null, Into::into)
    }
}

impl fmt::Display for Json {
    fn fmt(&self, f: &mut fmt::Formatter<'_>) -> fmt::Result {
        match self {
            Json::Null => f.write_str("null"),
            Json::Bool(value) => write!(f, "{value}"),
            Json::Number(value) => write!(f, "{value}"),
            Json::Decimal(value) => f.write_str(value),
            Json::Text(text) => quoted(f, text),
            Json::List(items) => {
                f.write_str("[")?;
                for (number, item) in items.iter().enumerate() {
                    write!(f, "{}{item}", if number == 0 { "" } else { ", " })?;
                }
                f.write_str("]")
            }
            Json::Object(fields) => {
                f.write_str("{")?;
                for (number, (name, value)) in fields.iter().enumerate() {
                    f.write_str(if number == 0 { "" } else { ", " })?;
                    quoted(f, name)?;
                    write!(f, ": {value}")?;
                }
                f.write_str("}")
            }
        }
    }
}

/// A string. `<` is written by its number, so that JSON can stand in a page as it is.
fn quoted(f: &mut fmt::Formatter<'_>, text: &str) -> fmt::Result {
    f.write_str("\"")?;
    for letter in text.chars() {
        match letter {
            '"' => f.write_str("\\\"")?,
            '\\' => f.write_str("\\\\")?,
            '\n' => f.write_str("\\n")?,
            '<' | '\0'..='\x1F' | '\u{2028}' | '\u{2029}' => write!(f, "\\u{:04x}", letter as u32)?,
            _ => write!(f, "{letter}")?,
        }
    }
    f.write_str("\"")
}

#[cfg(test)]
mod tests {
    use super::*;

    #[test]
    fn every_kind() {
        let json = object([
            ("a", Json::Null),
            ("b", true.into()),
            ("c", (-3).into()),
            ("d", Json::Decimal("0.5".to_string())),
            ("e", list([1_usize, 2], Json::from)),
            ("f", Json::from(None::<u32>)),
        ]);
        let said = r#"{"a": null, "b": true, "c": -3, "d": 0.5, "e": [1, 2], "f": null}"#;
        assert_eq!(json.to_string(), said);
        let more = object([("x", 1_u64.into())]).and(object([("y", 2_u32.into())]));
        assert_eq!(more.to_string(), r#"{"x": 1, "y": 2}"#);
    }

    #[test]
    fn what_a_string_cannot_hold_bare() {
        let said = Json::from("\"\\\n\t</script>é").to_string();
        assert_eq!(said, r#""\"\\\n\u0009\u003c/script>é""#);
    }
}
