//! Commands as JSON, and replies from it. What finds no memory is `Error::Memory`, in place of an abort.
use crate::values::{Answer, Document, Field, Hit, Kind, Order, Search, Value};
use crate::Error;
use std::borrow::Cow;

/// A line that is written.
#[derive(Debug, Default)]
pub struct Line {
    pub bytes: Vec<u8>,
}

impl Line {
    pub fn raw(&mut self, bytes: impl AsRef<[u8]>) -> Result<&mut Line, Error> {
        let bytes = bytes.as_ref();
        self.bytes.try_reserve(bytes.len()).map_err(|_| Error::Memory)?;
        self.bytes.extend_from_slice(bytes);
        Ok(self)
    }

    /// A text as a string of JSON.
    pub fn text(&mut self, text: &str) -> Result<&mut Line, Error> {
        self.raw("\"")?;
        let mut rest = text;
        while let Some(place) = rest.find(|c: char| c == '"' || c == '\\' || c < ' ') {
            let byte = rest.as_bytes()[place];
            self.raw(&rest[..place])?;
            let digit = |half: u8| b"0123456789abcdef"[usize::from(half)];
            match byte {
                b'"' | b'\\' => self.raw([b'\\', byte])?,
                _ => self.raw(b"\\u00")?.raw([digit(byte >> 4), digit(byte & 15)])?,
            };
            rest = &rest[place + 1..];
        }
        self.raw(rest)?.raw("\"")
    }

    pub fn number(&mut self, number: i128) -> Result<&mut Line, Error> {
        let mut digits = [0; 40];
        let mut rest = number.unsigned_abs();
        let mut at = digits.len();
        while rest > 0 || at == digits.len() {
            at -= 1;
            digits[at] = b'0' + (rest % 10) as u8;
            rest /= 10;
        }
        self.raw(if number < 0 { "-" } else { "" })?.raw(&digits[at..])
    }

    /// A list, with a comma between two items.
    pub fn list<T>(
        &mut self,
        items: &[T],
        mut put: impl FnMut(&mut Line, &T) -> Result<(), Error>,
    ) -> Result<&mut Line, Error> {
        for (place, item) in items.iter().enumerate() {
            self.raw(if place > 0 { "," } else { "" })?;
            put(self, item)?;
        }
        Ok(self)
    }

    pub fn value(&mut self, value: &Value<'_>) -> Result<&mut Line, Error> {
        match value {
            Value::Text(text) => self.text(text),
            Value::Number(number) => self.number(*number),
            Value::Texts(texts) => {
                self.raw("[")?.list(texts, |line, text| line.text(text).map(drop))?.raw("]")
            }
        }
    }

    /// `{"add":DOCUMENT}`
    pub fn add(&mut self, document: &Document<'_>) -> Result<(), Error> {
        let member = |line: &mut Line, field: &(Cow<'_, str>, Value<'_>)| {
            line.text(&field.0)?.raw(":")?.value(&field.1).map(drop)
        };
        self.raw(r#"{"add":{"#)?.list(&document.fields, member)?.raw("}}").map(drop)
    }

    /// `{"delete":{FIELD:VALUE}}`
    pub fn delete(&mut self, field: &str, value: &Value<'_>) -> Result<(), Error> {
        self.raw(r#"{"delete":{"#)?.text(field)?.raw(":")?.value(value)?.raw("}}").map(drop)
    }

    /// `{"schema":[FIELD, ..]}`
    pub fn schema(&mut self, fields: &[Field<'_>]) -> Result<(), Error> {
        let object = |line: &mut Line, field: &Field<'_>| {
            let kind = match field.kind {
                Kind::Text => r#","kind":"text""#,
                Kind::Keyword => r#","kind":"keyword""#,
                Kind::U64 => r#","kind":"u64""#,
                Kind::I64 => r#","kind":"i64""#,
            };
            let default = if field.default { r#","default":true}"# } else { "}" };
            line.raw(r#"{"name":"#)?.text(&field.name)?.raw(kind)?.raw(default).map(drop)
        };
        self.raw(r#"{"schema":["#)?.list(fields, object)?.raw("]}").map(drop)
    }

    /// `{"search":{"query":QUERY, ..}}`
    pub fn search(&mut self, search: &Search<'_>) -> Result<(), Error> {
        self.raw(r#"{"search":{"query":"#)?.text(&search.query)?;
        if let Some(field) = search.groups {
            self.raw(r#","groups":"#)?.text(field)?;
        }
        if let Some((field, k, order)) = search.top {
            let order = match order {
                Order::Rising => r#","order":"rising"}"#,
                Order::Falling => r#","order":"falling"}"#,
            };
            self.raw(r#","top":{"by":"#)?.text(field)?.raw(r#","k":"#)?.number(k.into())?.raw(order)?;
        }
        self.raw("}}").map(drop)
    }

    /// `[NAME, ..]`
    pub fn names(&mut self, names: &[&str]) -> Result<(), Error> {
        self.raw("[")?.list(names, |line, name| line.text(name).map(drop))?.raw("]").map(drop)
    }
}

/// A reply that is read, from the left.
pub struct Reader<'a> {
    rest: &'a str,
}

impl<'a> Reader<'a> {
    pub fn new(reply: &'a str) -> Reader<'a> {
        Reader { rest: reply }
    }

    fn has(&mut self, word: &str) -> bool {
        let rest = self.rest.strip_prefix(word);
        self.rest = rest.unwrap_or(self.rest);
        rest.is_some()
    }

    fn expect(&mut self, word: &str) -> Result<(), Error> {
        if self.has(word) {
            Ok(())
        } else {
            Err(Error::Reply)
        }
    }

    fn number(&mut self) -> Result<i128, Error> {
        let end = self.rest.find(|c: char| c != '-' && !c.is_ascii_digit()).unwrap_or(self.rest.len());
        let (digits, rest) = self.rest.split_at(end);
        self.rest = rest;
        digits.parse().map_err(|_| Error::Reply)
    }

    fn count(&mut self) -> Result<u64, Error> {
        self.number()?.try_into().map_err(|_| Error::Reply)
    }

    /// The number of a reply of one member, `{"NAME":N}`.
    pub fn only(mut self, name: &str) -> Result<u64, Error> {
        self.expect("{\"")?;
        self.expect(name)?;
        self.expect("\":")?;
        let number = self.count()?;
        self.expect("}")?;
        Ok(number)
    }

    fn string(&mut self) -> Result<Cow<'static, str>, Error> {
        self.expect("\"")?;
        let mut text = String::new();
        loop {
            let end = self.rest.find(['"', '\\']).ok_or(Error::Reply)?;
            push(&mut text, &self.rest[..end])?;
            self.rest = &self.rest[end..];
            if self.has("\"") {
                return Ok(Cow::Owned(text));
            }
            let escaped = self.escaped()?;
            push(&mut text, escaped.encode_utf8(&mut [0; 4]))?;
        }
    }

    /// A backslash and what comes after it.
    fn escaped(&mut self) -> Result<char, Error> {
        let kind = *self.rest.as_bytes().get(1).ok_or(Error::Reply)?;
        if kind == b'u' {
            let first = self.unit()?;
            let units = if (0xd800..0xdc00).contains(&first) { [first, self.unit()?] } else { [first, 0] };
            return char::decode_utf16(units).next().and_then(Result::ok).ok_or(Error::Reply);
        }
        self.rest = self.rest.get(2..).ok_or(Error::Reply)?;
        Ok(match kind {
            b'n' => '\n',
            b't' => '\t',
            b'r' => '\r',
            b'b' => '\u{8}',
            b'f' => '\u{c}',
            other => char::from(other),
        })
    }

    /// A unit of UTF-16, as `\u00e9`.
    fn unit(&mut self) -> Result<u16, Error> {
        let digits = self.rest.strip_prefix("\\u").and_then(|rest| rest.get(..4)).ok_or(Error::Reply)?;
        self.rest = &self.rest[6..];
        u16::from_str_radix(digits, 16).map_err(|_| Error::Reply)
    }

    /// The items of a list, or the members of an object, up to its end.
    fn each<T>(
        &mut self,
        end: &str,
        mut item: impl FnMut(&mut Reader<'a>) -> Result<T, Error>,
    ) -> Result<Vec<T>, Error> {
        let mut items = Vec::new();
        while !self.has(end) {
            if !items.is_empty() {
                self.expect(",")?;
            }
            items.try_reserve(1).map_err(|_| Error::Memory)?;
            items.push(item(self)?);
        }
        Ok(items)
    }

    fn value(&mut self) -> Result<Value<'static>, Error> {
        Ok(if self.has("[") {
            Value::Texts(self.each("]", |reader| reader.string())?)
        } else if self.rest.starts_with('"') {
            Value::Text(self.string()?)
        } else {
            Value::Number(self.number()?)
        })
    }

    fn group(&mut self) -> Result<(Value<'static>, u64), Error> {
        self.expect("[")?;
        let value = self.value()?;
        self.expect(",")?;
        let count = self.count()?;
        self.expect("]")?;
        Ok((value, count))
    }

    fn member(&mut self) -> Result<(Cow<'static, str>, Value<'static>), Error> {
        let name = self.string()?;
        self.expect(":")?;
        Ok((name, self.value()?))
    }

    fn hit(&mut self) -> Result<Hit, Error> {
        self.expect("{\"doc\":{")?;
        let document = Document { fields: self.each("}", |reader| reader.member())? };
        self.expect(",\"stamp\":")?;
        let stamp = self.count()?;
        self.expect(",\"value\":")?;
        let value = self.number()?;
        self.expect("}")?;
        Ok(Hit { value, stamp, document })
    }

    /// The answer to a search.
    pub fn answer(mut self) -> Result<Answer, Error> {
        self.expect("{\"count\":")?;
        let count = self.count()?;
        let groups = if self.has(",\"groups\":[") { self.each("]", |reader| reader.group())? } else { Vec::new() };
        let hits = if self.has(",\"top\":[") { self.each("]", |reader| reader.hit())? } else { Vec::new() };
        self.expect("}")?;
        Ok(Answer { count, groups, hits })
    }
}

fn push(text: &mut String, more: &str) -> Result<(), Error> {
    text.try_reserve(more.len()).map_err(|_| Error::Memory)?;
    text.push_str(more);
    Ok(())
}
