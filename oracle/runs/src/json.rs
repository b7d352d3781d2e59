//! As much of JSON as the vectors' files use: no fractions, and of escapes in text only the short ones.

use std::fmt::{self, Display, Formatter, Write};

#[derive(Clone, Debug, Eq, PartialEq)]
pub enum Json {
    Null,
    Flag(bool),
    Number(i64),
    Text(String),
    List(Vec<Json>),
    Fields(Vec<(String, Json)>),
}

impl Json {
    /// The value that a whole text spells.
    pub fn read(text: &str) -> Option<Self> {
        let mut rest = text;
        let value = value(&mut rest)?;
        rest.trim_start().is_empty().then_some(value)
    }

    pub fn field(&self, name: &str) -> Option<&Self> {
        match self {
            Self::Fields(fields) => fields
                .iter()
                .find(|(known, _)| known == name)
                .map(|(_, value)| value),
            _ => None,
        }
    }

    pub fn text(&self) -> Option<&str> {
        match self {
            Self::Text(text) => Some(text),
            _ => None,
        }
    }

    /// A number, or a flag as 0 or 1.
    pub fn number(&self) -> Option<i64> {
        match self {
            Self::Number(number) => Some(*number),
            Self::Flag(flag) => Some(i64::from(*flag)),
            _ => None,
        }
    }

    pub fn list(&self) -> Option<&[Self]> {
        match self {
            Self::List(list) => Some(list),
            _ => None,
        }
    }
}

impl Display for Json {
    fn fmt(&self, f: &mut Formatter<'_>) -> fmt::Result {
        match self {
            Self::Null => write!(f, "null"),
            Self::Flag(flag) => write!(f, "{flag}"),
            Self::Number(number) => write!(f, "{number}"),
            Self::Text(text) => write_text(f, text),
            Self::List(items) => write_items(f, ['[', ']'], items, |f, item| write!(f, "{item}")),
            Self::Fields(fields) => write_items(f, ['{', '}'], fields, |f, (name, value)| {
                write_text(f, name)?;
                write!(f, ": {value}")
            }),
        }
    }
}

fn write_text(f: &mut Formatter<'_>, text: &str) -> fmt::Result {
    f.write_char('"')?;
    for c in text.chars() {
        match c {
            '\n' => f.write_str("\\n")?,
            '\t' => f.write_str("\\t")?,
            '\r' => f.write_str("\\r")?,
            '"' | '\\' => write!(f, "\\{c}")?,
            _ => f.write_char(c)?,
        }
    }
    f.write_char('"')
}

fn write_items<T>(
    f: &mut Formatter<'_>,
    [open, close]: [char; 2],
    items: &[T],
    item: impl Fn(&mut Formatter<'_>, &T) -> fmt::Result,
) -> fmt::Result {
    f.write_char(open)?;
    for (at, each) in items.iter().enumerate() {
        if at > 0 {
            f.write_str(", ")?;
        }
        item(f, each)?;
    }
    f.write_char(close)
}

/// Takes `start` off the front, white space before it.
fn eat(rest: &mut &str, start: &str) -> Option<()> {
    *rest = rest.trim_start().strip_prefix(start)?;
    Some(())
}

fn value(rest: &mut &str) -> Option<Json> {
    *rest = rest.trim_start();
    match rest.chars().next()? {
        '"' => text(rest).map(Json::Text),
        '[' => {
            eat(rest, "[")?;
            items(rest, "]", value).map(Json::List)
        }
        '{' => {
            eat(rest, "{")?;
            items(rest, "}", |rest| {
                let name = text(rest)?;
                eat(rest, ":")?;
                Some((name, value(rest)?))
            })
            .map(Json::Fields)
        }
        'n' => eat(rest, "null").map(|()| Json::Null),
        't' => eat(rest, "true").map(|()| Json::Flag(true)),
        'f' => eat(rest, "false").map(|()| Json::Flag(false)),
        _ => {
            let end = rest
                .find(|c: char| c != '-' && !c.is_ascii_digit())
                .unwrap_or(rest.len());
            let (digits, after) = rest.split_at(end);
            *rest = after;
            digits.parse().ok().map(Json::Number)
        }
    }
}

fn items<T>(
    rest: &mut &str,
    end: &str,
    mut item: impl FnMut(&mut &str) -> Option<T>,
) -> Option<Vec<T>> {
    let mut found = Vec::new();
    if eat(rest, end).is_some() {
        return Some(found);
    }
    loop {
        found.push(item(rest)?);
        if eat(rest, end).is_some() {
            return Some(found);
        }
        eat(rest, ",")?;
    }
}

fn text(rest: &mut &str) -> Option<String> {
    eat(rest, "\"")?;
    let mut found = String::new();
    let mut chars = rest.chars();
    loop {
        match chars.next()? {
            '"' => break,
            '\\' => found.push(match chars.next()? {
                'n' => '\n',
                't' => '\t',
                'r' => '\r',
                same @ ('"' | '\\' | '/') => same,
                _ => return None,
            }),
            other => found.push(other),
        }
    }
    *rest = chars.as_str();
    Some(found)
}

#[cfg(test)]
mod tests {
    use super::Json;

    #[test]
    fn a_case_is_read() {
        let case = Json::read(r#" {"a": "x\n\"", "b": [1, -2, true], "c": {}} "#).unwrap();
        assert_eq!(case.field("a").unwrap().text(), Some("x\n\""));
        let list = case.field("b").unwrap().list().unwrap();
        let numbers: Vec<_> = list.iter().filter_map(Json::number).collect();
        assert_eq!(numbers, [1, -2, 1]);
        assert_eq!(case.field("c"), Some(&Json::Fields(Vec::new())));
        assert_eq!(case.field("d"), None);
    }

    #[test]
    fn what_is_written_is_as_the_vectors_have_it() {
        let text = r#"{"a": "x\n\"\\", "b": [1, -2, true, []], "c": {}, "d": null}"#;
        assert_eq!(Json::read(text).unwrap().to_string(), text);
    }

    #[test]
    fn what_is_cut_or_left_over_is_not_read() {
        for text in ["", "[1", "[1,]", "{\"a\" 1}", "1 2", "\"\\x\"", "tru"] {
            assert_eq!(Json::read(text), None, "{text}");
        }
    }
}
