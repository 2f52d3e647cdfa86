//! What a JSON text says: RFC 8259's values, for the records of a database.

/// A value; a number as it is written.
#[derive(Debug, PartialEq)]
pub(super) enum Json {
    Null,
    Truth(bool),
    Number(String),
    Text(String),
    List(Vec<Json>),
    Object(Vec<(String, Json)>),
}

/// How deep values may stand in one another: records need four levels.
const DEEPEST: usize = 16;

/// The value that a text is; none where it is no JSON, or deeper than records are.
pub(super) fn read(text: &str) -> Option<Json> {
    let mut rest = Rest { text };
    let value = rest.value(DEEPEST)?;
    rest.space();
    rest.text.is_empty().then_some(value)
}

/// What is left of a text.
struct Rest<'t> {
    text: &'t str,
}

impl Rest<'_> {
    fn space(&mut self) {
        self.text = self.text.trim_start_matches([' ', '\t', '\n', '\r']);
    }

    /// Goes past a mark, where it is next but for spaces.
    fn takes(&mut self, mark: &str) -> bool {
        self.space();
        let after = self.text.strip_prefix(mark);
        self.text = after.unwrap_or(self.text);
        after.is_some()
    }

    fn value(&mut self, deep: usize) -> Option<Json> {
        if deep == 0 {
            return None;
        }
        if self.takes("{") {
            return self.members(deep - 1);
        }
        if self.takes("[") {
            return self.items(deep - 1);
        }
        if self.takes("\"") {
            return self.string().map(Json::Text);
        }
        let words = [("null", Json::Null), ("true", Json::Truth(true)), ("false", Json::Truth(false))];
        for (word, value) in words {
            if self.takes(word) {
                return Some(value);
            }
        }
        self.number()
    }

    fn number(&mut self) -> Option<Json> {
        let is_part = |c: char| c.is_ascii_digit() || matches!(c, '-' | '+' | '.' | 'e' | 'E');
        let end = self.text.find(|c| !is_part(c)).unwrap_or(self.text.len());
        let (number, rest) = self.text.split_at(end);
        self.text = rest;
        (!number.is_empty()).then(|| Json::Number(number.to_owned()))
    }

    /// The items of a list, past its bracket.
    fn items(&mut self, deep: usize) -> Option<Json> {
        let mut items = Vec::new();
        while !self.takes("]") {
            if !items.is_empty() && !self.takes(",") {
                return None;
            }
            items.push(self.value(deep)?);
        }
        Some(Json::List(items))
    }

    /// The members of an object, past its brace.
    fn members(&mut self, deep: usize) -> Option<Json> {
        let mut members = Vec::new();
        while !self.takes("}") {
            if !members.is_empty() && !self.takes(",") || !self.takes("\"") {
                return None;
            }
            let key = self.string()?;
            if !self.takes(":") {
                return None;
            }
            members.push((key, self.value(deep)?));
        }
        Some(Json::Object(members))
    }

    /// The characters of a string, past its mark.
    fn string(&mut self) -> Option<String> {
        let mut text = String::new();
        loop {
            let end = self.text.find(['"', '\\'])?;
            text.push_str(&self.text[..end]);
            let mark = self.text.as_bytes()[end];
            self.text = &self.text[end + 1..];
            if mark == b'"' {
                return Some(text);
            }
            text.push(self.escaped()?);
        }
    }

    /// The character that stands behind a reverse solidus.
    fn escaped(&mut self) -> Option<char> {
        let mark = self.text.chars().next()?;
        self.text = &self.text[mark.len_utf8()..];
        match mark {
            '"' | '\\' | '/' => Some(mark),
            'b' => Some('\u{8}'),
            'f' => Some('\u{c}'),
            'n' => Some('\n'),
            'r' => Some('\r'),
            't' => Some('\t'),
            'u' => self.unit_pair(),
            _ => None,
        }
    }

    /// The character of one unit of UTF-16, or of two.
    fn unit_pair(&mut self) -> Option<char> {
        let first = self.unit()?;
        let mut units = vec![first];
        if (0xD800..0xDC00).contains(&first) {
            self.text = self.text.strip_prefix("\\u")?;
            units.push(self.unit()?);
        }
        char::decode_utf16(units).next()?.ok()
    }

    fn unit(&mut self) -> Option<u16> {
        let digits = self.text.get(..4).filter(|it| it.bytes().all(|byte| byte.is_ascii_hexdigit()))?;
        self.text = &self.text[4..];
        u16::from_str_radix(digits, 16).ok()
    }
}

#[test]
fn values_are_read() {
    let text = |it: &str| Json::Text(it.to_owned());
    let number = |it: &str| Json::Number(it.to_owned());
    for (given, value) in [
        ("[]", Some(Json::List(vec![]))),
        (" [ 1 , null, true] ", Some(Json::List(vec![number("1"), Json::Null, Json::Truth(true)]))),
        (r#"{"a":{},"b":false}"#, {
            let members = [("a", Json::Object(vec![])), ("b", Json::Truth(false))];
            Some(Json::Object(members.map(|(key, value)| (key.to_owned(), value)).into()))
        }),
        (r#""\\d\"\u0041\ud83d\ude00\/é""#, Some(text("\\d\"A\u{1f600}/é"))),
        (r#""\ud83d""#, None),
        (r#""\u00e""#, None),
        ("\"", None),
        ("[1", None),
        ("[1 2]", None),
        ("{1:2}", None),
        ("[] []", None),
        ("", None),
        ("-", Some(number("-"))),
        ("[[[[[[[[[[[[[[[[1]]]]]]]]]]]]]]]]", None),
    ] {
        assert_eq!(read(given), value, "{given}");
    }
}
