//! An index, and its searchers.
use crate::json::{Line, Reader};
use crate::sys::{self, Raw};
use crate::values::{Answer, Document, Field, Search, Stats, Value};
use crate::{Error, NotAll, NotOne};
use std::ops::Range;

/// A block of lines is handed over once it has as many, or as many bytes.
const BLOCK_LINES: usize = 1000;
const BLOCK_BYTES: usize = 1 << 20;

/// The most bytes of a line.
const LONGEST_LINE: usize = 4_194_304;

const ROLLBACK: &str = r#"{"rollback":true}"#;

/// An index. It forgets everything when it is dropped.
#[derive(Debug)]
pub struct Index {
    raw: Raw,
    reply: Vec<u8>,
    has_uncommitted: bool,
    /// Whether what is uncommitted has to be rolled back before anything changes.
    owes_rollback: bool,
}

// SAFETY: the library keeps nothing that belongs to a thread, and a handle is used through `&mut` alone.
unsafe impl Send for Index {}

impl Index {
    /// Opens an index without a schema, which takes one as a line.
    pub fn open() -> Result<Index, Error> {
        let mut raw = Raw::CLOSED;
        // SAFETY: the slot is ours, and closed.
        Error::of(unsafe { sys::dilforec_open(&mut raw) })?;
        Ok(Index { raw, reply: Vec::new(), has_uncommitted: false, owes_rollback: false })
    }

    /// Opens an index with a schema.
    pub fn with_schema(fields: &[Field<'_>]) -> Result<Index, Error> {
        let mut line = Line::default();
        line.schema(fields)?;
        let mut index = Index::open()?;
        index.execute(&line.bytes)?;
        Ok(index)
    }

    /// The reply to a line of a script, without its LF; nothing to a blank line. A refusal is an error.
    pub fn execute(&mut self, line: impl AsRef<[u8]>) -> Result<&str, Error> {
        Error::of_reply(self.reply_to(line)?)
    }

    /// The reply to a line of a script, with its LF; nothing to a blank line. A refusal is a reply here.
    pub fn reply_to(&mut self, line: impl AsRef<[u8]>) -> Result<&str, Error> {
        self.settle()?;
        let line = line.as_ref();
        self.reply_after(|raw| {
            // SAFETY: the handle is open until `self` is dropped, and the line is as long as is said.
            unsafe { sys::dilforec_execute(raw, line.as_ptr(), line.len()) }
        })
    }

    /// Rolls back what has to be.
    fn settle(&mut self) -> Result<(), Error> {
        if self.owes_rollback {
            // SAFETY: as above.
            self.reply_after(|raw| unsafe { sys::dilforec_execute(raw, ROLLBACK.as_ptr(), ROLLBACK.len()) })?;
            self.owes_rollback = false;
        }
        Ok(())
    }

    /// The reply to a call. Room for a short one is made before, so that no error follows a change.
    fn reply_after(&mut self, call: impl FnOnce(&mut Raw) -> i32) -> Result<&str, Error> {
        sys::make_room(&mut self.reply, 1)?;
        Error::of(call(&mut self.raw))?;
        let raw = &mut self.raw;
        // SAFETY: the handle is open until `self` is dropped, and the buffer has the room that is said.
        let reply = sys::read(&mut self.reply, |to, room| unsafe { sys::dilforec_reply(raw, to, room) })?;
        if reply.starts_with(r#"{"stamp":"#) {
            self.has_uncommitted = true;
        } else if reply.starts_with(r#"{"commit":"#) || reply.starts_with(r#"{"rollback":"#) {
            self.has_uncommitted = false;
        }
        Ok(reply)
    }

    fn stamp(&mut self, line: &Line) -> Result<u64, Error> {
        Reader::new(self.execute(&line.bytes)?).only("stamp")
    }

    /// Adds a document, and gives its stamp. Searches see it after the next commit.
    pub fn add(&mut self, document: &Document<'_>) -> Result<u64, Error> {
        let mut line = Line::default();
        line.add(document)?;
        self.stamp(&line)
    }

    /// Adds documents, and gives their stamps. It takes less time than an `add` for each.
    ///
    /// A refused document doesn't stop the others: `NotAll` has its refusal and the stamps of the others. If memory runs
    /// out, it has what came of those that were done, and the call is made again with those after them.
    ///
    /// ```
    /// # fn main() -> Result<(), dilforec::Error> {
    /// # use dilforec::{Document, Field, Index};
    /// # let mut index = Index::with_schema(&[Field::text("title").default(), Field::u64("year")])?;
    /// let books = [Document::new().with("title", "Programming Pearls"), Document::new().with("year", "late")];
    /// assert_eq!(index.add_many(&books[..1]), Ok(vec![1]));
    /// let some = index.add_many(&books).expect_err("the year is no number");
    /// assert_eq!((some.told[0].clone(), some.told[1].is_err(), some.stopped), (Ok(2), true, None));
    /// # Ok(())
    /// # }
    /// ```
    pub fn add_many(&mut self, documents: &[Document<'_>]) -> Result<Vec<u64>, NotAll> {
        let (mut told, mut stamps) = (Vec::new(), Vec::new());
        if told.try_reserve(documents.len()).is_err() || stamps.try_reserve(documents.len()).is_err() {
            return Err(NotAll { told, stopped: Some(Error::Memory) });
        }
        while told.len() < documents.len() {
            if let Err(error) = self.add_block(documents, &mut told) {
                return Err(NotAll { told, stopped: Some(error) });
            }
        }
        stamps.extend(told.iter().filter_map(|each| each.as_ref().ok()));
        if stamps.len() < told.len() {
            return Err(NotAll { told, stopped: None });
        }
        Ok(stamps)
    }

    /// Adds a block of the documents of which nothing is told, and tells of them, as far as they were done.
    fn add_block(&mut self, documents: &[Document<'_>], told: &mut Vec<Result<u64, Error>>) -> Result<(), Error> {
        self.settle()?;
        let begin = told.len();
        let mut block = Block::default();
        let mut taken = Ok(());
        while taken.is_ok() && told.len() < documents.len() && !block.is_full() {
            taken = block.take(&documents[told.len()], told);
        }
        if let Err(error) = sys::make_room(&mut self.reply, block.places.len()) {
            told.truncate(begin);
            return Err(error);
        }
        let (raw, lines, mut done) = (&mut self.raw, &block.lines.bytes, 0);
        // SAFETY: the handle is open until `self` is dropped, and the block is as long as is said.
        let code = unsafe { sys::dilforec_execute_lines(raw, lines.as_ptr(), lines.len(), &mut done) };
        // SAFETY: as above, of the buffer, which has room for the replies to all lines.
        let replies = sys::read(&mut self.reply, |to, room| unsafe { sys::dilforec_reply(raw, to, room) });
        let mut replies = replies.unwrap_or_default().lines();
        for place in &block.places[..done] {
            let reply = Error::of_reply(replies.next().unwrap_or_default());
            told[*place] = reply.and_then(|reply| Reader::new(reply).only("stamp"));
            self.has_uncommitted |= told[*place].is_ok();
        }
        if let Some(place) = block.places.get(done) {
            told.truncate(*place);
        }
        Error::of(code)?;
        taken
    }

    /// Deletes the documents of smaller stamps that have a value: a whole keyword, a number, or a word of a text.
    pub fn delete<'a>(&mut self, field: &str, value: impl Into<Value<'a>>) -> Result<u64, Error> {
        let mut line = Line::default();
        line.delete(field, &value.into())?;
        self.stamp(&line)
    }

    /// Deletes the documents of smaller stamps that have the value that this one has in a keyword or number field, and
    /// adds it, or does neither. Gives its stamp.
    ///
    /// `OtherKey` if the document has nothing in the field. If it is refused, as `WrongKind`, or there is no memory,
    /// the old one stays. The field is a keyword or number field: by a text field, all with the word would be deleted.
    pub fn replace(&mut self, field: &str, document: &Document<'_>) -> Result<u64, Error> {
        self.settle()?;
        let value = document.get(field).ok_or(Error::OtherKey)?;
        let (mut delete, mut add) = (Line::default(), Line::default());
        delete.delete(field, value)?;
        add.add(document)?;
        let reply = self.reply_after(|raw| {
            let (first, second) = (&delete.bytes, &add.bytes);
            // SAFETY: the handle is open until `self` is dropped, and the lines are as long as is said.
            unsafe { sys::dilforec_replace(raw, first.as_ptr(), first.len(), second.as_ptr(), second.len()) }
        })?;
        Reader::new(Error::of_reply(reply)?).only("stamp")
    }

    /// Does what lines say, one after the other, all of them or none, and gives their stamps.
    ///
    /// Each is an `add`, a `delete` or a `delete_all` of a script, without its LF. At an error nothing was done, and
    /// `NotOne` has the number of the first line that can't be, from 0.
    ///
    /// ```
    /// # fn main() -> Result<(), dilforec::Error> {
    /// # use dilforec::{Field, Index};
    /// # let mut index = Index::with_schema(&[Field::text("title").default(), Field::u64("year")])?;
    /// let lines = [r#"{"delete":{"year":1986}}"#, r#"{"add":{"title":"Programming Pearls","year":1999}}"#];
    /// assert_eq!(index.execute_all(&lines), Ok(vec![1, 2]));
    /// let none = index.execute_all(&[lines[0], r#"{"add":{"year":"late"}}"#]).expect_err("the year is no number");
    /// assert_eq!(none.line, 1);
    /// # Ok(())
    /// # }
    /// ```
    pub fn execute_all(&mut self, lines: &[impl AsRef<[u8]>]) -> Result<Vec<u64>, NotOne> {
        let (mut block, mut stamps) = (Vec::new(), Vec::new());
        let bytes = lines.iter().map(|line| line.as_ref().len() + 1).sum();
        let room = block.try_reserve(bytes).and_then(|()| stamps.try_reserve(lines.len()));
        room.map_err(|_| NotOne { line: 0, error: Error::Memory })?;
        for line in lines {
            block.extend_from_slice(line.as_ref());
            block.push(b'\n');
        }
        let done = self.transact(&block, lines.len(), lines.len())?;
        for reply in self.replies().map_err(|error| NotOne { line: done, error })?.lines() {
            let stamp = Error::of_reply(reply).and_then(|reply| Reader::new(reply).only("stamp"));
            stamps.push(stamp.map_err(|error| NotOne { line: done, error })?);
        }
        Ok(stamps)
    }

    /// Does what the lines of a block say, all of them or none, and gives how many are before the first that is
    /// refused. There is room for as many replies then.
    fn transact(&mut self, block: &[u8], lines: usize, replies: usize) -> Result<usize, NotOne> {
        let room = self.settle().and_then(|()| sys::make_room(&mut self.reply, replies));
        room.map_err(|error| NotOne { line: 0, error })?;
        let (raw, mut done) = (&mut self.raw, 0);
        // SAFETY: the handle is open until `self` is dropped, and the block is as long as is said.
        let code = unsafe { sys::dilforec_transaction(raw, block.as_ptr(), block.len(), &mut done) };
        Error::of(code).map_err(|error| NotOne { line: done, error })?;
        self.has_uncommitted |= lines > 0 && done == lines;
        Ok(done)
    }

    /// The replies to the lines of the last block, or the refusal of one.
    fn replies(&mut self) -> Result<&str, Error> {
        let raw = &mut self.raw;
        // SAFETY: the handle is open until `self` is dropped, and the buffer has the room that is said.
        sys::read(&mut self.reply, |to, room| unsafe { sys::dilforec_reply(raw, to, room) })
    }

    /// Begins a transaction: what is added and deleted in it is committed by [`Transaction::commit`], all of it or
    /// nothing. If it is dropped before, nothing is done.
    ///
    /// What was uncommitted before is committed first. So it isn't lost, whatever comes.
    ///
    /// ```
    /// # fn main() -> Result<(), Box<dyn std::error::Error>> {
    /// # use dilforec::{Document, Field, Index};
    /// # let mut index = Index::with_schema(&[Field::text("title").default(), Field::u64("year")])?;
    /// let mut transaction = index.transaction()?;
    /// transaction.delete("year", 1986)?;
    /// transaction.add(&Document::new().with("title", "Programming Pearls").with("year", 1999))?;
    /// assert_eq!(transaction.search("pearls")?.count, 0);
    /// assert_eq!(transaction.commit()?, 1..3);
    /// assert_eq!(index.search("pearls")?.count, 1);
    /// # Ok(())
    /// # }
    /// ```
    pub fn transaction(&mut self) -> Result<Transaction<'_>, Error> {
        self.settle()?;
        if self.has_uncommitted {
            self.commit()?;
        }
        Ok(Transaction { index: self, lines: Line::default(), count: 0 })
    }

    /// Makes what was added and deleted visible, at once, and gives the commit's stamp.
    pub fn commit(&mut self) -> Result<u64, Error> {
        Reader::new(self.execute(r#"{"commit":true}"#)?).only("commit")
    }

    /// Gives up what wasn't committed, and gives the stamp of the last commit.
    pub fn rollback(&mut self) -> Result<u64, Error> {
        Reader::new(self.execute(ROLLBACK)?).only("rollback")
    }

    /// Searches the last commit.
    ///
    /// ```
    /// # fn main() -> Result<(), dilforec::Error> {
    /// use dilforec::{Document, Field, Index, Order, Search};
    ///
    /// let mut index = Index::with_schema(&[Field::text("title").default(), Field::u64("year")])?;
    /// index.add(&Document::new().with("title", "Programming Pearls").with("year", 1986))?;
    /// index.commit()?;
    /// assert_eq!(index.search("pearls")?.count, 1);
    /// let answer = index.search(Search::new("pearls").top("year", 10, Order::Rising).fields(&["year"]))?;
    /// assert_eq!(answer.hits[0].document, Document::new().with("year", 1986));
    /// # Ok(())
    /// # }
    /// ```
    pub fn search<'a>(&mut self, search: impl Into<Search<'a>>) -> Result<Answer, Error> {
        let search = search.into();
        if let Some((groups, rest)) = search.apart() {
            let groups = self.search(groups)?.groups;
            return Ok(Answer { groups, ..self.search(rest)? });
        }
        let (line, names) = lines_of(&search)?;
        let reply = self.reply_after(|raw| {
            let first = &line.bytes;
            // SAFETY: the handle is open until `self` is dropped, and the lines are as long as is said.
            match (&names, search.limit) {
                (Some(Line { bytes }), _) => unsafe {
                    sys::dilforec_execute_fields(raw, first.as_ptr(), first.len(), bytes.as_ptr(), bytes.len())
                },
                (None, Some(limit)) => unsafe {
                    sys::dilforec_execute_groups(raw, first.as_ptr(), first.len(), limit)
                },
                (None, None) => unsafe { sys::dilforec_execute(raw, first.as_ptr(), first.len()) },
            }
        })?;
        Reader::new(Error::of_reply(reply).map_err(|error| error.of_query(&search.query))?).answer()
    }

    /// How large the last commit is.
    pub fn stats(&mut self) -> Result<Stats, Error> {
        // SAFETY: the handle is open until `self` is dropped.
        sys::stats(|stats| unsafe { sys::dilforec_stats(&mut self.raw, stats) })
    }

    /// From now on, commits merge no segment of more live documents than a limit, and none by itself; with `None`,
    /// whatever is due. So commits stay short, and what is left waits for [`begin_merge`](Index::begin_merge).
    pub fn limit_merges(&mut self, documents: Option<u32>) -> Result<(), Error> {
        let limit = documents.map_or(sys::NO_LIMIT, |most| most.min(sys::NO_LIMIT - 1));
        // SAFETY: the handle is open until `self` is dropped.
        match unsafe { sys::dilforec_limit_merges(&mut self.raw, limit) } {
            sys::NOTHING => Err(Error::NoSchema),
            code => Error::of(code),
        }
    }

    /// The merge that is due next, if one is. The index forgets the one that was begun before.
    ///
    /// ```
    /// # fn main() -> Result<(), dilforec::Error> {
    /// # use dilforec::{Document, Field, Index};
    /// # let mut index = Index::with_schema(&[Field::text("title").default()])?;
    /// index.limit_merges(Some(0))?;
    /// for title in ["a", "b", "c", "d", "e", "f", "g"] {
    ///     index.add(&Document::new().with("title", title))?;
    ///     index.commit()?;
    /// }
    /// if let Some(mut merge) = index.begin_merge()? {
    ///     std::thread::spawn(move || merge.run()).join().expect("no panic")?;
    ///     assert!(index.end_merge()?);
    /// }
    /// assert_eq!(index.stats()?.segments, 1);
    /// # Ok(())
    /// # }
    /// ```
    pub fn begin_merge(&mut self) -> Result<Option<Merge>, Error> {
        let mut raw = Raw::CLOSED;
        // SAFETY: the handle is open until `self` is dropped, and the slot is ours, and closed.
        match unsafe { sys::dilforec_merge_begin(&mut self.raw, &mut raw) } {
            sys::NOTHING => Ok(None),
            code => Error::of(code).map(|()| Some(Merge { raw })),
        }
    }

    /// Puts what the merge made that was begun last in the place of what it joined, and tells whether it did: not if
    /// none was begun, or it wasn't run, or what it joined was merged meanwhile, by a commit or a script's `merge`, or
    /// all of it was deleted. It changes the result of no search.
    pub fn end_merge(&mut self) -> Result<bool, Error> {
        // SAFETY: the handle is open until `self` is dropped.
        match unsafe { sys::dilforec_merge_end(&mut self.raw) } {
            sys::NOTHING | sys::GONE => Ok(false),
            code => Error::of(code).map(|()| true),
        }
    }

    /// A searcher of the last commit; uncommitted operations aren't found.
    pub fn searcher(&mut self) -> Result<Searcher, Error> {
        // SAFETY: the handle is open until `self` is dropped.
        Searcher::open(|slot| unsafe { sys::dilforec_searcher(&mut self.raw, slot) })
    }
}

impl Drop for Index {
    fn drop(&mut self) {
        // SAFETY: nothing uses the handle after this.
        unsafe { sys::dilforec_close(&mut self.raw) };
    }
}

/// What is to be done together, by [`commit`](Transaction::commit). [`Index::transaction`] begins one.
#[derive(Debug)]
#[must_use = "a transaction does nothing unless it is committed"]
pub struct Transaction<'a> {
    index: &'a mut Index,
    /// Each with its LF.
    lines: Line,
    count: usize,
}

impl Transaction<'_> {
    /// Adds a document. Refusals come when the transaction is committed, `LineTooLong` and `Memory` at once.
    pub fn add(&mut self, document: &Document<'_>) -> Result<(), Error> {
        self.take(|line| line.add(document))
    }

    /// Deletes documents as [`Index::delete`] does, also those that the transaction added before.
    pub fn delete<'v>(&mut self, field: &str, value: impl Into<Value<'v>>) -> Result<(), Error> {
        self.take(|line| line.delete(field, &value.into()))
    }

    /// Deletes all documents, also those that the transaction added before.
    pub fn delete_all(&mut self) -> Result<(), Error> {
        self.take(|line| line.raw(r#"{"delete_all":true}"#).map(drop))
    }

    /// Takes a line that is written; at an error, nothing.
    fn take(&mut self, write: impl FnOnce(&mut Line) -> Result<(), Error>) -> Result<(), Error> {
        let begin = self.lines.bytes.len();
        let mut taken = write(&mut self.lines).and_then(|()| self.lines.raw("\n").map(drop));
        if self.lines.bytes.len() - begin > LONGEST_LINE + 1 {
            taken = taken.and(Err(Error::LineTooLong));
        }
        match taken {
            Ok(()) => self.count += 1,
            Err(_) => self.lines.bytes.truncate(begin),
        }
        taken
    }

    /// Searches the last commit, which has nothing of the transaction.
    pub fn search<'s>(&mut self, search: impl Into<Search<'s>>) -> Result<Answer, Error> {
        self.index.search(search)
    }

    /// Does all that was added and deleted, in that order, and commits. Gives the stamps; the end of the range is the
    /// commit's.
    ///
    /// At an error nothing of it stays. `NotOne` has the number of the call that is refused, from 0, or, if it is the
    /// commit, how many calls there were.
    pub fn commit(self) -> Result<Range<u64>, NotOne> {
        let Transaction { index, lines, count } = self;
        let done = index.transact(&lines.bytes, count, 1)?;
        let told = if done < count {
            index.replies().and_then(Error::of_reply).and(Err(Error::Reply))
        } else {
            index.commit()
        };
        if index.has_uncommitted {
            index.owes_rollback = true;
            // What finds no memory now is done before the next change.
            index.settle().ok();
        }
        let commit = told.map_err(|error| NotOne { line: done, error })?;
        Ok(commit - count as u64..commit)
    }
}

/// One commit of an index for ever, whatever is done to the index afterwards. It lives on when the index is dropped,
/// and never waits for it.
///
/// ```
/// # fn main() -> Result<(), dilforec::Error> {
/// # use dilforec::{Document, Field, Index};
/// # let mut index = Index::with_schema(&[Field::text("title").default()])?;
/// # index.add(&Document::new().with("title", "Programming Pearls"))?;
/// # index.commit()?;
/// let mut searcher = index.searcher()?;
/// let thread = std::thread::spawn(move || searcher.search("pearls"));
/// assert_eq!(thread.join().expect("no panic")?.count, 1);
/// # Ok(())
/// # }
/// ```
#[derive(Debug)]
pub struct Searcher {
    raw: Raw,
    reply: Vec<u8>,
}

// SAFETY: the library keeps nothing that belongs to a thread, what searchers share never changes, and a handle is used
// through `&mut` alone.
unsafe impl Send for Searcher {}

impl Searcher {
    fn open(fill: impl FnOnce(&mut Raw) -> i32) -> Result<Searcher, Error> {
        let mut raw = Raw::CLOSED;
        Error::of(fill(&mut raw))?;
        Ok(Searcher { raw, reply: Vec::new() })
    }

    /// Another searcher of the same commit.
    pub fn again(&mut self) -> Result<Searcher, Error> {
        // SAFETY: the handle is open until `self` is dropped.
        Searcher::open(|slot| unsafe { sys::dilforec_searcher_again(&mut self.raw, slot) })
    }

    /// Searches its commit. Refusals are of line 1.
    pub fn search<'a>(&mut self, search: impl Into<Search<'a>>) -> Result<Answer, Error> {
        let search = search.into();
        if let Some((groups, rest)) = search.apart() {
            let groups = self.search(groups)?.groups;
            return Ok(Answer { groups, ..self.search(rest)? });
        }
        let (line, names) = lines_of(&search)?;
        let first = &line.bytes;
        sys::make_room(&mut self.reply, 1)?;
        let raw = &mut self.raw;
        // SAFETY: the handle is open until `self` is dropped, and the lines are as long as is said.
        Error::of(match (&names, search.limit) {
            (Some(Line { bytes }), _) => unsafe {
                sys::dilforec_search_fields(raw, first.as_ptr(), first.len(), bytes.as_ptr(), bytes.len())
            },
            (None, Some(limit)) => unsafe { sys::dilforec_search_groups(raw, first.as_ptr(), first.len(), limit) },
            (None, None) => unsafe { sys::dilforec_search(raw, first.as_ptr(), first.len()) },
        })?;
        // SAFETY: as above, of the buffer.
        let reply = sys::read(&mut self.reply, |to, room| unsafe { sys::dilforec_searcher_reply(raw, to, room) })?;
        Reader::new(Error::of_reply(reply).map_err(|error| error.of_query(&search.query))?).answer()
    }

    /// How large its commit is.
    pub fn stats(&mut self) -> Result<Stats, Error> {
        // SAFETY: the handle is open until `self` is dropped.
        sys::stats(|stats| unsafe { sys::dilforec_searcher_stats(&mut self.raw, stats) })
    }
}

impl Drop for Searcher {
    fn drop(&mut self) {
        // SAFETY: nothing uses the handle after this.
        unsafe { sys::dilforec_searcher_close(&mut self.raw) };
    }
}

/// A merge that an index began. It is run in any thread, while the index is used, and then ended by the index.
#[derive(Debug)]
pub struct Merge {
    raw: Raw,
}

// SAFETY: the library keeps nothing that belongs to a thread, what a merge joins never changes, what it makes reaches its
// index through an atomic slot, and a handle is used through `&mut` alone.
unsafe impl Send for Merge {}

impl Merge {
    /// Makes one segment. Again, it does nothing; after `Memory` it may be run again.
    pub fn run(&mut self) -> Result<(), Error> {
        // SAFETY: the handle is open until `self` is dropped.
        Error::of(unsafe { sys::dilforec_merge_run(&mut self.raw) })
    }
}

impl Drop for Merge {
    fn drop(&mut self) {
        // SAFETY: nothing uses the handle after this.
        unsafe { sys::dilforec_merge_close(&mut self.raw) };
    }
}

/// Lines that add documents, each with its LF.
#[derive(Default)]
struct Block {
    lines: Line,
    /// Whose lines they are, by places among all documents.
    places: Vec<usize>,
}

impl Block {
    fn is_full(&self) -> bool {
        self.places.len() >= BLOCK_LINES || self.lines.bytes.len() >= BLOCK_BYTES
    }

    /// Takes the line of the next document; one that is too long is told, and left out.
    fn take(&mut self, document: &Document<'_>, told: &mut Vec<Result<u64, Error>>) -> Result<(), Error> {
        self.places.try_reserve(1).map_err(|_| Error::Memory)?;
        let begin = self.lines.bytes.len();
        if let Err(error) = self.lines.add(document).and_then(|()| self.lines.raw("\n").map(drop)) {
            self.lines.bytes.truncate(begin);
            return Err(error);
        }
        if self.lines.bytes.len() - begin > LONGEST_LINE + 1 {
            self.lines.bytes.truncate(begin);
        } else {
            self.places.push(told.len());
        }
        // It stays so if the line is left out.
        told.push(Err(Error::LineTooLong));
        Ok(())
    }
}

/// The line of a search, and that of its names.
fn lines_of(search: &Search<'_>) -> Result<(Line, Option<Line>), Error> {
    let mut line = Line::default();
    line.search(search)?;
    let Some(names) = search.fields else {
        return Ok((line, None));
    };
    let mut listed = Line::default();
    listed.names(names)?;
    Ok((line, Some(listed)))
}
