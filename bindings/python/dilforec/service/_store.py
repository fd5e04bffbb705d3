"""A store: an index, and the journal that keeps it."""
from __future__ import annotations

import logging
import os
from collections.abc import Callable, Collection, Iterable, Iterator, Mapping, Sequence
from contextlib import contextmanager
from typing import Any, Optional, Union
from weakref import WeakSet

from dilforec import memory
from dilforec.service._compact import Sizes
from dilforec.service._compactor import Compacting, Compactor
from dilforec.service._disk import Disk
from dilforec.service._errors import BadSchema, NotWritten, Stopped, TransactionRefused
from dilforec.service._fields import store_fields
from dilforec.service._journal import Journal
from dilforec.service._lines import Key
from dilforec.service._merger import Merger
from dilforec.service._publication import Publication
from dilforec.service._replay import Progress, replay
from dilforec.service._snapshot import Answer, Snapshot
from dilforec.service._top import After
from dilforec.service._transaction import Done, Transaction
from dilforec.service._worker import Worker
from dilforec.service._writer import Writer
from dilforec.values import Field, Top

log = logging.getLogger("dilforec.service")

PathLike = Union[str, "os.PathLike[str]"]

class Store:
    """Documents that many threads search and change, and that come back after a crash. docs/SERVICE.md has the whole.

        with Store([dilforec.text("title", default=True), dilforec.u64("year")], "books.journal") as store:
            pearls = store.add({"title": "Programming Pearls", "year": 1986})
            store.replace(pearls, {"title": "Programming Pearls, second edition", "year": 1999})
            print(store.search("pearls").hits[0].document)

    Each document has a number, which the store gives and which is never given again. What a call answered is on disk.
    Calls that change something raise NotWritten if the disk or memory refused, and then nothing was done;
    OutcomeUnknown if even that can't be said, and then Stopped until the store is opened again. Searches go on.

    A thread of the store does all that changes it, and a call waits for that. If the wait is interrupted, as by Ctrl-C,
    the change is done whole or not at all. In a child of a fork the store is closed; a snapshot that was taken before
    may be searched there.
    """

    def __init__(
        self, schema: Iterable[Field], journal: PathLike, *, key: Optional[str] = None,
        progress: Optional[Progress] = None, disk: Optional[Disk] = None,
    ) -> None:
        """Opens a store, from its journal if there is one, else with a new journal.

        The schema is without `id`, which the store adds. With a `key`, the name of a keyword or number field, each
        document has a value there, and one that is added replaces the one of its key. `progress` is called now and
        then, with how many bytes of how many were replayed, and how many documents there are so far. BadSchema, Locked,
        BadJournal, MemoryError or OSError is raised, and the journal is as it was then.
        """
        self._fields = store_fields(list(schema), key)
        self._fields.new_index().close()
        self._journal = Journal(os.fspath(journal), disk or Disk())
        try:
            self._start(progress or (lambda done, of, documents: None))
        except BaseException:
            self._journal.close()
            raise

    def _start(self, progress: Progress) -> None:
        journal, fields = self._journal, self._fields
        if journal.schema and not fields.is_line(journal.schema):
            begins = journal.schema.decode(errors="replace").strip()
            raise BadSchema(f"the schema isn't that of {journal.path}, which begins {begins}")
        index, numbers = replay(journal, fields.new_index, progress)
        memory.trim()
        self.torn = journal.cut_tail() if journal.schema else journal.size
        if not journal.schema:
            journal.begin(fields.line)
        self._writer = Writer(index, journal, numbers, fields.key)
        self._published = Publication(index.searcher(), numbers.commit)
        self._worker: "Worker[Transaction]" = Worker("dilforec-store", self._work)
        self._compactor = Compactor(self._writer, self._worker.call, self._last)
        self._merger = Merger(index, self._worker.call, self._show_merged)
        _OPEN.add(self)

    def __enter__(self) -> Store:
        return self

    def __exit__(self, *_: object) -> None:
        self.close()

    def close(self) -> None:
        """Waits for what is being written, ends a compaction, and gives back index and journal.

        Later calls raise Stopped, except `close`.
        """
        self._compactor.end()
        try:
            self._worker.call(self._close)
        except Stopped:
            # Another call closes it.
            self._worker.wait_for_end()

    def _close(self) -> None:
        why = "the store is closed"
        self._worker.end(why)
        self._compactor.wait()
        self._merger.close()
        self._writer.stopped = why
        self._published.close(why)
        self._writer.index.close()
        self._journal.close()
        _OPEN.discard(self)

    def _leave_to_parent(self) -> None:
        """Closes the store in a child of a fork: the threads, the file and its lock are the parent's."""
        why = "the store is closed in a child of a fork, and open in its parent"
        self._writer.stopped = why
        self._compactor.end()
        self._published.leave(why)
        self._worker.forget(why)

    # What changes something

    @contextmanager
    def transaction(self) -> "Iterator[Transaction]":
        """A transaction, which is committed at the end of the block; an exception within it does nothing.

            with store.transaction() as transaction:
                transaction.delete("shelf", "returned")
                transaction.add({"title": "Programming Pearls"})
            print(transaction.ids, transaction.commit)

        An operation that the index refuses raises TransactionRefused at the end.
        """
        transaction = self.new_transaction()
        yield transaction
        self.do(transaction)
        if transaction.error:
            raise transaction.error

    def new_transaction(self) -> Transaction:
        """A transaction for `do` or `submit`."""
        return Transaction(self._fields.key)

    def add(self, document: "Mapping[str, Any]") -> int:
        """Adds a document, and returns its number. A refusal is an exception of its name, as dilforec.WrongKind.

        In a store with a key it replaces the document of its key, and has that one's number. ValueError is raised if it
        has no key, or an `id`.
        """
        transaction = self.new_transaction()
        transaction.add(document)
        return self._done(transaction).ids[0]

    def replace(self, id: int, document: "Mapping[str, Any]", *, version: Optional[str] = None) -> Done:
        """Puts a document in the place of another, with its number. NoSuchDocument is raised if there is none.

        With a version, which `version_of` tells of a document, VersionChanged is raised if it has another by now.
        KeyTaken is raised if another document has its key.
        """
        transaction = self.new_transaction()
        transaction.replace(id, document, version=version)
        return self._done(transaction)

    def delete(self, id: int, *, version: Optional[str] = None) -> Done:
        """Deletes a document. NoSuchDocument is raised if there is none, VersionChanged as by `replace`."""
        transaction = self.new_transaction()
        transaction.delete_document(id, version=version)
        return self._done(transaction)

    def put_by_key(self, key: Key, document: "Mapping[str, Any]", *, version: Optional[str] = None) -> Done:
        """Adds the document of a key, or puts it in the place of the one that is there, with its number.

        With a version, as for `replace`, or "*", NoSuchDocument is raised if none is there. ValueError is raised if the
        document has another key, or the store none.
        """
        transaction = self.new_transaction()
        transaction.put_by_key(key, document, version=version)
        return self._done(transaction)

    def delete_by_key(self, key: Key, *, version: Optional[str] = None) -> Done:
        """Deletes the document of a key. NoSuchDocument is raised if there is none, VersionChanged as by `replace`."""
        transaction = self.new_transaction()
        transaction.delete_by_key(key, version=version)
        return self._done(transaction)

    def key_of(self, text: str) -> Key:
        """The key that a text means, as a part of an address. ValueError is raised if it is none, or there are none."""
        return self._fields.key_of(text)

    def _done(self, transaction: Transaction) -> Done:
        """What came of a transaction of one operation."""
        self.do(transaction)
        if isinstance(transaction.error, TransactionRefused):
            raise transaction.error.refusal
        return transaction.done

    def do(self, *transactions: Transaction) -> None:
        """Does transactions, each whole or not at all, in their order. Each has an `error` then, or is `done`.

        ValueError is raised, and nothing done, if one of them has no operation or was handed in before.
        """
        _check_new(transactions)
        self._worker.do(*transactions)

    def submit(self, *transactions: Transaction, then: "Optional[Callable[[], None]]" = None) -> None:
        """Hands in transactions, as `do` does, and doesn't wait.

        `then` is called when all of them are done, in the thread of the store; in this one, if the store is closed. It
        should take no time, and make no call of the store.
        """
        _check_new(transactions)
        self._worker.submit(*transactions, then=then)

    def _work(self, waiting: "Iterator[Transaction]") -> int:
        taken = self._writer.commit(waiting)
        try:
            self._publish()
            self._merger.begin()
        except Exception:
            # The transactions are done all the same.
            log.exception("searches don't see the last commit yet")
        return taken

    def _publish(self) -> None:
        """Lets searches see the last commit."""
        if self._published.commit != self._writer.numbers.commit:
            self._published.show(self._writer.index, self._writer.numbers.commit)

    def _show_merged(self) -> None:
        """Lets searches see the last commit in other segments, unless it isn't known which commit that is."""
        if self._writer.stopped is None:
            self._published.show(self._writer.index, self._writer.numbers.commit)

    def _last(self) -> Snapshot:
        """What the index has, unless there is no memory to look at it."""
        self._publish()
        return self.snapshot()

    # What searches

    def snapshot(self) -> Snapshot:
        """The last commit. It never waits for what is being written. Close it soon: it holds the commit's memory."""
        return self._published.snapshot(self._fields.key)

    def search(
        self, query: str, *, groups: Sequence[str] = (), top: Optional[Top] = None,
        fields: Optional[Sequence[str]] = None, after: Optional[After] = None,
    ) -> Answer:
        """What a query finds in the last commit, as Snapshot.search says."""
        with self.snapshot() as snapshot:
            return snapshot.search(query, groups=groups, top=top, fields=fields, after=after)

    def get(self, id: int) -> "Optional[dict[str, Any]]":
        """The document of a number, its `id` in it; None if there is none."""
        with self.snapshot() as snapshot:
            return snapshot.get(id)

    def get_by_key(self, key: Key) -> "Optional[dict[str, Any]]":
        """The document of a key, its `id` in it; None if there is none. ValueError if the store has no key."""
        with self.snapshot() as snapshot:
            return snapshot.get_by_key(key)

    def documents(self, after: int = 0, limit: int = 100) -> "list[dict[str, Any]]":
        """The documents with the smallest numbers above one, at most `limit`; none at the end."""
        with self.snapshot() as snapshot:
            return snapshot.documents(after, limit)

    def __len__(self) -> int:
        """How many documents there are."""
        with self.snapshot() as snapshot:
            return len(snapshot)

    def __bool__(self) -> bool:
        # A store without documents is one all the same.
        return True

    @property
    def fields(self) -> "list[Field]":
        """The fields of the schema, without `id`."""
        return list(self._fields.given)

    @property
    def key(self) -> Optional[str]:
        """The name of the field that is the key, if there is one."""
        return None if self._fields.key is None else self._fields.key.name

    @property
    def commits(self) -> int:
        """The number of the last commit. It never falls."""
        return self._published.commit

    @property
    def journal_bytes(self) -> int:
        """The size of the journal."""
        return self._journal.end

    @property
    def writable(self) -> bool:
        """Whether it takes writes: not after OutcomeUnknown, nor after `close`."""
        return self._writer.stopped is None

    # The journal

    def compact(self, *, schema: Optional[Iterable[Field]] = None, drop: Collection[str] = ()) -> Sizes:
        """Writes the journal anew with the live documents alone, while searches and transactions go on.

        No answer changes by it. With a schema, the store has those fields then: new ones are empty, those of `drop` are
        gone from the documents, and the marks as default are those of the schema. Transactions wait for that as long as
        a start takes, and there is an index of each schema meanwhile.

        Busy is raised if another thread does it, BadSchema if a field would be lost or have another kind, NotWritten if
        there is no room, or the file can't be given to the journal's owner; the journal is as it was then. So it is if
        the wait is interrupted.
        """
        if isinstance(drop, str):
            raise TypeError("`drop` is a list of names")
        compacting, worker = Compacting(), self._worker
        fields = [field for field in self.fields if field.name not in drop] if schema is None else list(schema)
        try:
            if schema is None and not drop:
                worker.call(lambda: self._compactor.begin(compacting))
                worker.wait(compacting)
            else:
                worker.call(lambda: self._change_schema(compacting, fields, frozenset(drop)))
            if compacting.error:
                raise compacting.error
            return compacting.sizes
        except OSError as error:
            raise NotWritten(f"the journal wasn't compacted, and is as it was: {error.strerror or error}") from error
        finally:
            # If the wait was interrupted, it is given up.
            compacting.withdrawn = True

    def _change_schema(self, compacting: Compacting, given: "list[Field]", drop: "frozenset[str]") -> None:
        fields = self._fields.changed(given, drop)
        index = self._compactor.change_schema(compacting, fields, drop)
        old, self._fields, self._writer.index = self._writer.index, fields, index
        self._merger.close()
        self._merger = Merger(index, self._worker.call, self._show_merged)
        self._published.show(index, self._writer.numbers.commit)
        old.close()
        memory.trim()


# The stores of this process that are open.
_OPEN: "WeakSet[Store]" = WeakSet()


def _after_fork_in_child() -> None:
    for store in list(_OPEN):
        store._leave_to_parent()
    _OPEN.clear()


os.register_at_fork(after_in_child=_after_fork_in_child)


def _check_new(transactions: "tuple[Transaction, ...]") -> None:
    for each in transactions:
        if not len(each):
            raise ValueError("a transaction has at least one operation")
        if each.is_submitted:
            raise ValueError("a transaction is done once")
