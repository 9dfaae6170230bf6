//! Answers as JSON, one object on one line.
use std::fmt::{self, Display, Formatter};

pub enum Json {
    Null,
    Flag(bool),
    Number(i64),
    Text(String),
    List(Vec<Json>),
    Record(Vec<Field>),
}

pub type Field = (&'static str, Json);

impl From<bool> for Json {
    fn from(flag: bool) -> Json {
        Json::Flag(flag)
    }
}

impl From<i64> for Json {
    fn from(number: i64) -> Json {
        Json::Number(number)
    }
}

impl From<u32> for Json {
    fn from(number: u32) -> Json {
        Json::Number(number.into())
    }
}

/// Numbers of blocks and bytes, which are small.
impl From<usize> for Json {
    fn from(number: usize) -> Json {
        Json::Number(number as i64)
    }
}

impl From<String> for Json {
    fn from(text: String) -> Json {
        Json::Text(text)
    }
}

impl Display for Json {
    fn fmt(&self, f: &mut Formatter) -> fmt::Result {
        match self {
            Json::Null => f.write_str("null"),
            Json::Flag(flag) => write!(f, "{flag}"),
            Json::Number(number) => write!(f, "{number}"),
            Json::Text(text) => quoted(f, text),
            Json::List(items) => between(f, "[", items, "]", |f, item| write!(f, "{item}")),
            Json::Record(fields) => between(f, "{", fields, "}", |f, (name, value)| write!(f, "\"{name}\":{value}")),
        }
    }
}

fn between<T>(
    f: &mut Formatter,
    open: &str,
    items: &[T],
    close: &str,
    each: impl Fn(&mut Formatter, &T) -> fmt::Result,
) -> fmt::Result {
    f.write_str(open)?;
    for (i, item) in items.iter().enumerate() {
        if i > 0 {
            f.write_str(",")?;
        }
        each(f, item)?;
    }
    f.write_str(close)
}

fn quoted(f: &mut Formatter, text: &str) -> fmt::Result {
    f.write_str("\"")?;
    for c in text.chars() {
        match c {
            '"' | '\\' => write!(f, "\\{c}")?,
            c if c < ' ' => write!(f, "\\u{:04x}", u32::from(c))?,
            c => write!(f, "{c}")?,
        }
    }
    f.write_str("\"")
}

#[cfg(test)]
mod tests {
    use super::Json;

    #[test]
    fn forms() {
        let record = Json::Record(vec![
            ("flag", true.into()),
            ("least", i64::MIN.into()),
            ("text", String::from("a\"b\\c\nd é").into()),
            ("list", Json::List(vec![1u32.into(), Json::Null, Json::List(vec![])])),
        ]);
        let wanted = r#"{"flag":true,"least":-9223372036854775808,"text":"a\"b\\c\u000ad é","list":[1,null,[]]}"#;
        assert_eq!(record.to_string(), wanted);
    }
}
