//! Why a call failed.
use crate::sys;
use std::fmt;

/// Why a call failed. Whatever it was, the index is as it was before.
#[derive(Clone, Debug, PartialEq, Eq)]
#[non_exhaustive]
pub enum Error {
    /// There was no memory.
    Memory,
    /// The line has more than 4,194,304 bytes.
    LineTooLong,
    /// The index took 2^61 lines.
    UsedUp,
    /// The index has no schema yet.
    NoSchema,
    /// The index refused the line.
    Refused(Refusal),
    /// A document that replaces another has another value in the field, or none.
    OtherKey,
    /// The library replied what this crate can't read.
    Reply,
    /// The library answered a code that this crate doesn't know.
    Unknown(i32),
}

/// Why the index refused a line. Names and causes are in docs/SCRIPT.md.
#[derive(Clone, Debug, PartialEq, Eq)]
pub struct Refusal {
    /// Its name, as `Syntax`.
    pub name: &'static str,
    /// The number of the line, from 1.
    pub line: u64,
    /// The byte of the query from which on it can't be read, if a search is refused as `Syntax`; its length, if more
    /// has to follow.
    pub at: Option<usize>,
}

/// What came of the documents of [`Index::add_many`](crate::Index::add_many), if not all of them were added.
#[derive(Clone, Debug, PartialEq, Eq)]
pub struct NotAll {
    /// The stamp of each document, in their order, or why it was refused. The documents after these weren't added.
    pub told: Vec<Result<u64, Error>>,
    /// Why there are documents after these; none, if there aren't.
    pub stopped: Option<Error>,
}

impl fmt::Display for NotAll {
    fn fmt(&self, out: &mut fmt::Formatter<'_>) -> fmt::Result {
        let refused = self.told.iter().filter(|told| told.is_err()).count();
        write!(out, "{refused} of {} documents were refused", self.told.len())?;
        match &self.stopped {
            Some(error) => write!(out, ", and then: {error}"),
            None => Ok(()),
        }
    }
}

impl std::error::Error for NotAll {}

/// The first line of [`Index::execute_all`](crate::Index::execute_all), or of a [`Transaction`](crate::Transaction),
/// that can't be done. No line was done.
#[derive(Clone, Debug, PartialEq, Eq)]
pub struct NotOne {
    /// The number of the line, from 0; how many there are, if a transaction's commit can't be done.
    pub line: usize,
    /// Why it can't be done.
    pub error: Error,
}

impl fmt::Display for NotOne {
    fn fmt(&self, out: &mut fmt::Formatter<'_>) -> fmt::Result {
        write!(out, "line {} of those that are done together: {}", self.line, self.error)
    }
}

impl std::error::Error for NotOne {}

/// The names of all refusals.
const NAMES: [&str; 28] = [
    "Memory",
    "NoFields",
    "TooManyFields",
    "BadName",
    "NameTwice",
    "BadDefault",
    "NotAnObject",
    "UnknownField",
    "WrongKind",
    "TooManyTexts",
    "TextTooLong",
    "KeywordTooLong",
    "LaneFull",
    "TooLarge",
    "BadLimit",
    "NotANumberField",
    "TooLong",
    "TooDeep",
    "Syntax",
    "RangeOnText",
    "BadNumber",
    "NoDefaultField",
    "AllNegative",
    "BadJson",
    "BadCommand",
    "NoSchema",
    "SchemaTwice",
    "LineTooLong",
];

impl Error {
    /// What a code of dilforec.h means.
    pub(crate) fn of(code: i32) -> Result<(), Error> {
        Err(match code {
            0 => return Ok(()),
            1 => Error::Memory,
            2 => Error::LineTooLong,
            3 => Error::UsedUp,
            code => Error::Unknown(code),
        })
    }

    /// A reply without its LF, or the refusal that it tells of: `{"error":"NAME","line":N}` and nothing else.
    pub(crate) fn of_reply(reply: &str) -> Result<&str, Error> {
        let reply = reply.trim_end_matches('\n');
        let refusal = reply.strip_prefix(r#"{"error":""#).and_then(|rest| rest.strip_suffix('}'));
        let Some((name, line)) = refusal.and_then(|rest| rest.split_once(r#"","line":"#)) else {
            return Ok(reply);
        };
        let name = NAMES.iter().find(|known| **known == name).ok_or(Error::Reply)?;
        Err(Error::Refused(Refusal { name, line: line.parse().unwrap_or(0), at: None }))
    }

    /// The error of a search, with the byte of a `Syntax`.
    pub(crate) fn of_query(self, query: &str) -> Error {
        match self {
            Error::Refused(refusal) if refusal.name == "Syntax" => {
                Error::Refused(Refusal { at: sys::syntax_at(query), ..refusal })
            }
            other => other,
        }
    }
}

impl fmt::Display for Error {
    fn fmt(&self, out: &mut fmt::Formatter<'_>) -> fmt::Result {
        match self {
            Error::Memory => write!(out, "there was no memory"),
            Error::LineTooLong => write!(out, "the line has more than 4,194,304 bytes"),
            Error::UsedUp => write!(out, "the index took 2^61 lines"),
            Error::NoSchema => write!(out, "the index has no schema"),
            Error::Refused(Refusal { name, line, at: None }) => write!(out, "{name} in line {line}"),
            Error::Refused(Refusal { name, line, at: Some(at) }) => write!(out, "{name} in line {line}, byte {at}"),
            Error::OtherKey => write!(out, "the document has another value in the field, or none"),
            Error::Reply => write!(out, "the library's reply can't be read"),
            Error::Unknown(code) => write!(out, "code {code} of the library"),
        }
    }
}

impl std::error::Error for Error {}
