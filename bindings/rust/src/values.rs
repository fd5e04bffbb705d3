//! What goes into an index and what comes out: fields, documents, searches, answers and hits.
use std::borrow::Cow;

/// A kind of field.
#[derive(Clone, Copy, Debug, PartialEq, Eq)]
pub enum Kind {
    /// Its words are found. Its value is a text, or a list of texts.
    Text,
    /// It is found as a whole, and grouped by.
    Keyword,
    /// A number from 0 to 2^64 - 1.
    U64,
    /// A number from -2^63 to 2^63 - 1.
    I64,
}

/// A field of a schema.
#[derive(Clone, Debug, PartialEq, Eq)]
pub struct Field<'a> {
    pub name: Cow<'a, str>,
    pub kind: Kind,
    /// Whether words of a query that name no field are looked up in it.
    pub default: bool,
}

impl<'a> Field<'a> {
    fn new(name: impl Into<Cow<'a, str>>, kind: Kind) -> Field<'a> {
        Field { name: name.into(), kind, default: false }
    }

    /// A field whose words are found.
    pub fn text(name: impl Into<Cow<'a, str>>) -> Field<'a> {
        Field::new(name, Kind::Text)
    }

    /// A field that is found as a whole, and grouped by.
    pub fn keyword(name: impl Into<Cow<'a, str>>) -> Field<'a> {
        Field::new(name, Kind::Keyword)
    }

    /// A field of numbers from 0 to 2^64 - 1.
    pub fn u64(name: impl Into<Cow<'a, str>>) -> Field<'a> {
        Field::new(name, Kind::U64)
    }

    /// A field of numbers from -2^63 to 2^63 - 1.
    pub fn i64(name: impl Into<Cow<'a, str>>) -> Field<'a> {
        Field::new(name, Kind::I64)
    }

    /// The field, in which words of a query are looked up that name no field.
    pub fn default(self) -> Field<'a> {
        Field { default: true, ..self }
    }
}

/// A value of a document, or that of a group.
#[derive(Clone, Debug, PartialEq, Eq)]
pub enum Value<'a> {
    /// A text or a keyword.
    Text(Cow<'a, str>),
    /// A list of texts.
    Texts(Vec<Cow<'a, str>>),
    /// A number of either kind.
    Number(i128),
}

impl Value<'_> {
    /// The text, if it is one.
    pub fn as_str(&self) -> Option<&str> {
        match self {
            Value::Text(text) => Some(text),
            _ => None,
        }
    }

    /// The number, if it is one.
    pub fn as_number(&self) -> Option<i128> {
        match self {
            Value::Number(number) => Some(*number),
            _ => None,
        }
    }
}

impl<'a> From<&'a str> for Value<'a> {
    fn from(text: &'a str) -> Self {
        Value::Text(Cow::Borrowed(text))
    }
}

impl From<String> for Value<'_> {
    fn from(text: String) -> Self {
        Value::Text(Cow::Owned(text))
    }
}

impl<'a> From<Vec<&'a str>> for Value<'a> {
    fn from(texts: Vec<&'a str>) -> Self {
        Value::Texts(texts.into_iter().map(Cow::Borrowed).collect())
    }
}

macro_rules! numbers {
    ($($number:ty),*) => {$(
        impl From<$number> for Value<'_> {
            fn from(number: $number) -> Self {
                Value::Number(i128::from(number))
            }
        }
    )*};
}

numbers!(u8, u16, u32, u64, i8, i16, i32, i64);

/// A document: values by the names of fields.
///
/// ```
/// use dilforec::Document;
///
/// let book = Document::new().with("title", "Programming Pearls").with("year", 1986);
/// assert_eq!(book.get("title").and_then(|title| title.as_str()), Some("Programming Pearls"));
/// ```
#[derive(Clone, Debug, Default, PartialEq, Eq)]
pub struct Document<'a> {
    pub fields: Vec<(Cow<'a, str>, Value<'a>)>,
}

impl<'a> Document<'a> {
    /// A document without a value.
    pub fn new() -> Document<'a> {
        Document::default()
    }

    /// The document with one value more. The last one of a name counts.
    pub fn with(mut self, name: impl Into<Cow<'a, str>>, value: impl Into<Value<'a>>) -> Document<'a> {
        self.fields.push((name.into(), value.into()));
        self
    }

    /// The value of a field.
    pub fn get(&self, name: &str) -> Option<&Value<'a>> {
        self.fields.iter().rev().find(|field| field.0 == name).map(|field| &field.1)
    }
}

/// The order of a top list; equal values by smaller stamp.
#[derive(Clone, Copy, Debug, PartialEq, Eq)]
pub enum Order {
    Rising,
    Falling,
}

/// A search: a query, and what is wanted beside the number of documents.
///
/// ```
/// use dilforec::{Order, Search};
///
/// let search = Search::new("pearls OR year:>1990").groups("year").top("year", 10, Order::Falling).fields(&["title"]);
/// ```
#[derive(Clone, Debug, PartialEq, Eq)]
pub struct Search<'a> {
    pub(crate) query: Cow<'a, str>,
    pub(crate) groups: Option<&'a str>,
    /// How many of the groups are wanted at most, if not all.
    pub(crate) limit: Option<usize>,
    pub(crate) top: Option<(&'a str, u64, Order)>,
    pub(crate) fields: Option<&'a [&'a str]>,
}

impl<'a> Search<'a> {
    /// How many documents a query finds. A user's words go into it by [`quoted`].
    pub fn new(query: impl Into<Cow<'a, str>>) -> Search<'a> {
        Search { query: query.into(), groups: None, limit: None, top: None, fields: None }
    }

    /// And how many of each value of a keyword or number field.
    pub fn groups(self, field: &'a str) -> Search<'a> {
        Search { groups: Some(field), limit: None, ..self }
    }

    /// And how many of each of the values of a keyword or number field that most of them have, at most `limit` values:
    /// the most frequent first, and of those that are as frequent the lesser.
    pub fn most_frequent(self, field: &'a str, limit: usize) -> Search<'a> {
        Search { groups: Some(field), limit: Some(limit), ..self }
    }

    /// And the first `k` of them by a number field, 1 to 10,000.
    pub fn top(self, field: &'a str, k: u64, order: Order) -> Search<'a> {
        Search { top: Some((field, k, order)), ..self }
    }

    /// With these fields of their documents alone.
    pub fn fields(self, names: &'a [&'a str]) -> Search<'a> {
        Search { fields: Some(names), ..self }
    }

    /// The search for groups alone and the one without groups, if one call can't do both: it has chosen fields or a
    /// limit.
    pub(crate) fn apart(&self) -> Option<(Search<'_>, Search<'_>)> {
        if self.limit.is_none() || self.fields.is_none() {
            return None;
        }
        let without = Search { groups: None, limit: None, top: self.top, fields: self.fields, query: (&*self.query).into() };
        Some((Search { groups: self.groups, limit: self.limit, ..Search::new(&*self.query) }, without))
    }
}

impl<'a> From<&'a str> for Search<'a> {
    fn from(query: &'a str) -> Search<'a> {
        Search::new(query)
    }
}

/// A user's words as a query: whatever characters they have, they are looked up as one phrase.
///
/// ```
/// assert_eq!(dilforec::quoted(r#"the "left" hand"#), r#""the \"left\" hand""#);
/// ```
pub fn quoted(text: &str) -> String {
    format!("\"{}\"", text.replace('\\', r"\\").replace('"', "\\\""))
}

/// How large an index is.
#[derive(Clone, Copy, Debug, PartialEq, Eq)]
#[repr(C)]
pub struct Stats {
    /// How many segments it has.
    pub segments: u64,
    /// How many documents are in them. Those that aren't live go when their segments are merged.
    pub documents: u64,
    /// How many of them are live.
    pub live: u64,
}

/// What a search found.
#[derive(Clone, Debug, PartialEq, Eq)]
pub struct Answer {
    /// How many documents.
    pub count: u64,
    /// How many of each group, in the order of the values; with a limit, in the order of how many.
    pub groups: Vec<(Value<'static>, u64)>,
    /// The top list.
    pub hits: Vec<Hit>,
}

/// A document that was found.
#[derive(Clone, Debug, PartialEq, Eq)]
pub struct Hit {
    /// The value that it was ordered by.
    pub value: i128,
    /// Its stamp.
    pub stamp: u64,
    /// Its fields that have a value, or those of them that were chosen, by their names.
    pub document: Document<'static>,
}
