//! A full-text index inside a Rust program, held in memory.
//!
//! An [`Index`] takes documents and searches, or the lines of a script, whose replies are those of `fts run`, to the
//! byte; docs/SCRIPT.md has all of them. It may go from thread to thread, and is used by one at a time. A [`Searcher`]
//! is one commit of it for ever, for another thread. A call needs at most 512 KiB of its thread's stack.
//!
//! ```
//! # fn main() -> Result<(), dilforec::Error> {
//! use dilforec::{Document, Field, Index};
//!
//! let mut index = Index::with_schema(&[Field::text("title").default(), Field::u64("year")])?;
//! index.add(&Document::new().with("title", "Programming Pearls").with("year", 1986))?;
//! index.commit()?;
//! assert_eq!(index.search("pearls")?.count, 1);
//! assert_eq!(index.execute(r#"{"search":{"query":"year:>1980"}}"#)?, r#"{"count":1}"#);
//! # Ok(())
//! # }
//! ```
mod error;
mod index;
mod json;
mod sys;
mod values;

pub use error::{Error, NotAll, NotOne, Refusal};
pub use index::{Index, Merge, Searcher, Transaction};
pub use values::{quoted, Answer, Document, Field, Hit, Kind, Order, Search, Stats, Value};

/// One version for the program, the header and the packages.
pub const VERSION: &str = env!("CARGO_PKG_VERSION");
