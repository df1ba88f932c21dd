//! JSON as `fuseworld` prints it: objects on one line, whole numbers, no `null`.

use std::collections::BTreeMap;

#[derive(Clone, Debug, PartialEq)]
pub enum Json {
    Bool(bool),
    Number(u128),
    Text(String),
    List(Vec<Json>),
    Object(BTreeMap<String, Json>),
}

impl Json {
    /// The value of a text, or `None` where it is not one.
    pub fn parse(text: &str) -> Option<Json> {
        let mut reader = Reader { bytes: text.trim_end().as_bytes(), place: 0 };
        let value = reader.value()?;
        (reader.place == reader.bytes.len()).then_some(value)
    }

    /// A member of an object.
    pub fn get(&self, name: &str) -> Option<&Json> {
        match self {
            Json::Object(members) => members.get(name),
            _ => None,
        }
    }

    pub fn number(&self, name: &str) -> Option<u64> {
        match self.get(name)? {
            Json::Number(number) => (*number).try_into().ok(),
            _ => None,
        }
    }

    pub fn text(&self, name: &str) -> Option<&str> {
        match self.get(name)? {
            Json::Text(text) => Some(text),
            _ => None,
        }
    }

    /// A member that is a list; of a member that is none, nothing.
    pub fn list(&self, name: &str) -> &[Json] {
        match self.get(name) {
            Some(Json::List(values)) => values,
            _ => &[],
        }
    }
}

struct Reader<'a> {
    bytes: &'a [u8],
    place: usize,
}

impl Reader<'_> {
    fn take(&mut self, word: &str) -> Option<()> {
        self.bytes[self.place..].starts_with(word.as_bytes()).then(|| self.place += word.len())
    }

    fn value(&mut self) -> Option<Json> {
        match self.bytes.get(self.place)? {
            b'{' => Some(Json::Object(self.items("{", "}", |it| Some((it.string()?, { it.take(":")?; it.value()? })))?.into_iter().collect())),
            b'[' => Some(Json::List(self.items("[", "]", Self::value)?)),
            b'"' => Some(Json::Text(self.string()?)),
            b't' => self.take("true").map(|()| Json::Bool(true)),
            b'f' => self.take("false").map(|()| Json::Bool(false)),
            _ => self.number(),
        }
    }

    /// What stands between two brackets, with commas between.
    fn items<T>(&mut self, open: &str, close: &str, item: impl Fn(&mut Self) -> Option<T>) -> Option<Vec<T>> {
        let mut found = Vec::new();
        self.take(open)?;
        while self.take(close).is_none() {
            if !found.is_empty() {
                self.take(",")?;
            }
            found.push(item(self)?);
        }
        Some(found)
    }

    fn number(&mut self) -> Option<Json> {
        let rest = &self.bytes[self.place..];
        let digits = rest.iter().take_while(|byte| byte.is_ascii_digit()).count();
        self.place += digits;
        std::str::from_utf8(&rest[..digits]).ok()?.parse().ok().map(Json::Number)
    }

    fn string(&mut self) -> Option<String> {
        let mut text = String::new();
        self.take("\"")?;
        while self.take("\"").is_none() {
            if self.take("\\u").is_some() {
                let code = std::str::from_utf8(self.bytes.get(self.place..self.place + 4)?).ok()?;
                text.push(char::from_u32(u32::from_str_radix(code, 16).ok()?)?);
                self.place += 4;
            } else {
                text.push(*self.bytes.get(self.place)? as char);
                self.place += 1;
            }
        }
        Some(text)
    }
}

#[test]
fn reads_what_is_printed_and_no_beginning_of_it() {
    let text = r#"{"event":"read","unique":2,"lost":true,"answers":[{"name":"a\u0022"},{}]}"#;
    let read = Json::parse(text).unwrap();
    assert_eq!((read.text("event"), read.number("unique")), (Some("read"), Some(2)));
    assert_eq!(read.list("answers")[0].text("name"), Some("a\""));
    assert!((0..text.len()).all(|length| Json::parse(&text[..length]).is_none()));
}
