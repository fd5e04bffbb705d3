"""An index, by the commands of a script."""
from __future__ import annotations

import contextlib
import json
import re
from collections.abc import Iterable, Iterator, Mapping, Sequence
from typing import Any, Callable, Optional, TypeVar, Union, cast, overload

from dilforec import sentences
from dilforec.library import (
    COMMIT, COMMITTED, LINE_TOO_LONG, MEMORY, NO_LIMIT, OK, ROLLBACK, STAMP, Asking, Channel, MergeHandle,
    NothingToMerge, fault, syntax_at,
)
from dilforec.refusals import LineTooLong, NoSchema, Refused, SomeRefused, Syntax, TooDeep, TooLong, Unfinished, refused
from dilforec.values import Answer, Field, GroupCounts, Groups, Hit, Order, Stats, Top, as_json

S = TypeVar("S", bound="Searching")


def encoder(allow_nan: bool) -> Callable[[Any], str]:
    """What makes JSON of a value. What isn't ASCII stays as it is: its escapes would be up to six times as long."""
    plain = json.JSONEncoder(ensure_ascii=False, allow_nan=allow_nan, check_circular=False, separators=(",", ":"))
    module: Any = json.encoder
    if module.c_make_encoder is None:
        return plain.encode
    # The encoder in C, which `plain.encode` would make anew for each value.
    chunks = module.c_make_encoder(None, plain.default, module.encode_basestring, None, ":", ",", False, False, allow_nan)
    return lambda value: "".join(chunks(value, 0))


ENCODE = encoder(True)

LONGEST_LINE = 4_194_304
LONGEST_QUERY = 4096
# What `hits` puts around a query, and the longest range that it adds.
AROUND = len("+() +:>=-9223372036854775808")
BLOCK_LINES, BLOCK_BYTES = 1000, 1 << 20
DELETE_ALL = b'{"delete_all":true}'
REPLY = re.compile(rb'\{"(?:stamp":([0-9]+)|error":"([A-Za-z]+)","line":([0-9]+))\}\n')


def to_line(command: Any) -> bytes:
    """A value as JSON. A lone surrogate is no UTF-8, which is the index's to refuse."""
    return ENCODE(command).encode("utf-8", "surrogatepass")


GroupsBy = Union[str, Groups]


class SearchLines:
    """The lines of a search: one for each field that it counts groups by, but one if there are none.

    The first asks for the top list, and `limits` has for each line how many groups are wanted, None for all. `names`
    says as JSON which fields the documents have: if the first groups have a limit, a line without groups comes before,
    since a call has one or the other.
    """

    __slots__ = ("query", "top", "fields", "names", "by", "is_list", "lines", "limits")

    def __init__(self, query: str, groups: Union[GroupsBy, Sequence[GroupsBy], None], top: Optional[Top],
                 fields: Optional[Sequence[str]]) -> None:
        _expect(groups, (str, Groups, list, tuple, type(None)),
                "groups are by the name of a field, dilforec.Groups, or a list of these")
        _expect(query, str, "a query is a str")
        _expect(top, (Top, type(None)), "a top list is a dilforec.Top")
        self.query, self.top, self.fields = query, top, list(fields or [])
        self.names = None if fields is None else _names(fields)
        wanted = [groups] if isinstance(groups, (str, Groups)) else list(groups or [])
        self.by = [each.field if isinstance(each, Groups) else each for each in wanted]
        self.limits = [each.limit if isinstance(each, Groups) else None for each in wanted] or [None]
        self.is_list = isinstance(groups, (list, tuple))
        search: dict[str, Any] = {"query": query}
        asked: list[dict[str, Any]] = [{**search, "groups": field} for field in self.by] or [search]
        if self.names is not None and self.limits[0] is not None:
            asked.insert(0, search)
            self.limits.insert(0, None)
        if top is not None:
            asked[0] = {**asked[0], "top": as_json(top)}
        self.lines = [to_line({"search": each}) for each in asked]

    def expect_all_groups(self) -> None:
        """Raises TypeError if groups have a limit: only an index and its searchers cut them."""
        if self.limits.count(None) < len(self.limits):
            raise TypeError("a cluster has all groups: name the field")


class Searching:
    """What an index and its searchers have in common. One thread is in each at a time; others wait."""

    _channel: Asking
    _schema: tuple[Field, ...]

    def __enter__(self: S) -> S:
        return self

    @property
    def schema(self) -> tuple[Field, ...]:
        """The fields, in their order; none before a schema is set."""
        return self._schema

    def __len__(self) -> int:
        """How many documents the last commit has."""
        return self.search("*").count

    def __bool__(self) -> bool:
        # An index without documents is one all the same.
        return True

    def __repr__(self) -> str:
        fields = ", ".join(f"{field.name}: {field.kind}" for field in self._schema)
        state = "" if self._channel.is_open else ", closed"
        return f"<dilforec.{type(self).__name__} of ({fields}){state}>"

    def execute(self, line: Union[str, bytes, bytearray, memoryview]) -> bytes:
        """The reply to a line of a script, with its LF; nothing to a blank line. A refusal is a reply here.

        LineTooLong if the line has more than 4,194,304 bytes.
        """
        return self._channel.ask(_line(line))

    @overload
    def search(self, query: str, *, groups: Union[str, Groups, None] = None, top: Optional[Top] = None,
               fields: Optional[Sequence[str]] = None) -> Answer[GroupCounts]: ...

    @overload
    def search(self, query: str, *, groups: Union[list[str], list[Groups], list[GroupsBy], tuple[GroupsBy, ...]],
               top: Optional[Top] = None, fields: Optional[Sequence[str]] = None) -> Answer[dict[str, GroupCounts]]: ...

    def search(self, query: str, *, groups: Union[GroupsBy, Sequence[GroupsBy], None] = None,
               top: Optional[Top] = None, fields: Optional[Sequence[str]] = None) -> Answer[Any]:
        """How many documents a query finds, how many of each value of a field, and the first of them by another.

        The hits of an answer are those of `top`: without it there are none. `groups` is the name of a keyword or number
        field, `Groups` for its most frequent values alone, or a list of these: then `answer.groups` has a dict for each,
        of one commit. `fields` names the fields that the documents of the hits are to have; without it they are whole,
        which takes time if texts are long.

        TypeError if the query isn't a str; Refused if the index refuses it, as Syntax or UnknownField.
        """
        asked = SearchLines(query, groups, top, fields)
        return self._answered(asked, self._replies_to(asked))

    def _replies_to(self, asked: SearchLines) -> list[bytes]:
        if not isinstance(self._channel, Channel):
            asked.expect_all_groups()
        elif asked.limits != [None]:
            return self._channel.ask_each(asked.lines, asked.names, asked.limits)
        if len(asked.lines) == 1 and asked.names is None:
            return [self._channel.ask(asked.lines[0])]
        return self._channel.ask_each(asked.lines, asked.names)

    def _checked(self, asked: SearchLines, replies: list[bytes]) -> list[bytes]:
        """The replies to a search, if none is a refusal."""
        for reply in replies:
            if reply.startswith(b'{"error"'):
                why = json.loads(reply.decode())
                raise self._refused_search(why["error"], why["line"], asked.query, asked.by, asked.top, asked.fields)
        return replies

    def _answered(self, asked: SearchLines, replies: list[bytes]) -> Answer[Any]:
        """The answer that the replies to a search are, or the exception of a refusal."""
        read = [json.loads(reply.decode()) for reply in self._checked(asked, replies)]
        with_groups = read[len(read) - max(1, len(asked.by)):]
        counted = [{value: count for value, count in reply.get("groups", [])} for reply in with_groups]
        hits = tuple(Hit(hit["value"], hit["stamp"], hit["doc"], hit.get("source")) for hit in read[0].get("top", []))
        return Answer(read[0]["count"], dict(zip(asked.by, counted)) if asked.is_list else counted[0], hits)

    def _refused_search(self, name: str, line: int, query: str, groups: Sequence[str], top: Optional[Top],
                        fields: Sequence[str]) -> Refused:
        if name == "Syntax":
            at = syntax_at(query)
            return Syntax(name, line, sentences.of_syntax(query, at), at)
        return refused(name, line, sentences.of_search(name, self._schema, query, groups, top, fields))

    def hits(self, query: str, by: str, *, order: Order = "rising", page: int = 10_000,
             fields: Optional[Sequence[str]] = None) -> Iterator[Hit]:
        """All documents that a query finds and that have a value in `by`, a number field, in the order of these values.

        They are asked for a page at a time, each page from the last value of the one before, so ValueError is raised
        if all documents of a page have the same value. A commit to the index between two pages shows in the later one.
        `fields` is that of `search`.

        A range is added to the query, so it may be some 60 bytes shorter than others, and nest 31 deep (32 if all of it
        is in one pair of parentheses); TooLong or TooDeep is raised at once if it isn't.
        """
        _expect(query, str, "a query is a str")
        whole = query if sentences.is_group(query) else f"({query})"
        longest = LONGEST_QUERY - AROUND - len(by)
        if sentences.size(query) > longest:
            raise TooLong("TooLong", None, "no room is left for the range that a page adds: the query has "
                          f"{sentences.size(query):,} bytes, and {longest:,} are the most")
        if sentences.depth(whole) > sentences.DEEPEST:
            raise TooDeep("TooDeep", None, "a page puts the query into parentheses, so its own may nest 31 deep")
        return self._pages(query, whole, Top(by, page, order), fields)

    def _pages(self, query: str, whole: str, top: Top, fields: Optional[Sequence[str]]) -> Iterator[Hit]:
        last: Optional[Hit] = None
        # Hits of the last value, by what names their documents: the next page begins with them.
        told: set[tuple[Optional[str], int]] = set()
        while True:
            since = "" if last is None else f"{'>=' if top.order == 'rising' else '<='}{last.value}"
            asked = query if last is None else f"+{whole} +{top.by}:{since}"
            found = self.search(asked, top=top, fields=fields).hits
            fresh = [hit for hit in found if not (last and hit.value == last.value and (hit.source, hit.stamp) in told)]
            yield from fresh
            if len(found) < top.k:
                return
            if not fresh:
                raise ValueError(f"{top.k} documents or more have {found[-1].value} in {top.by}")
            last = found[-1]
            told = {(hit.source, hit.stamp) for hit in found if hit.value == last.value}

    def stats(self) -> Stats:
        """How many segments the last commit has, how many documents are in them, and how many of these are live."""
        return self._channel.stats()

    def searcher(self) -> Searcher:
        """A searcher of the last commit, or another one of a searcher's."""
        return Searcher(self._channel.searcher(), self._schema)

    def close(self) -> None:
        """Gives back what it holds. Later calls raise Closed, except `close`."""
        self._channel.close()

    def __exit__(self, *_: object) -> None:
        self.close()


@overload
def channel_of(index: Index) -> Channel: ...


@overload
def channel_of(index: Searcher) -> Asking: ...


def channel_of(index: Searching) -> Asking:
    """The lines and replies of an index or a searcher, for the parts of this package that speak in lines."""
    return index._channel


def replies_to(
    index: Searching, query: str, by: Sequence[GroupsBy], top: Optional[Top], fields: Optional[Sequence[str]],
) -> list[bytes]:
    """The replies to a search with the groups of some fields: the last of them, one for each field, have the groups.

    They are of one commit, and the first has the top list.
    """
    asked = SearchLines(query, list(by), top, fields)
    return index._checked(asked, index._replies_to(asked))


class Index(Searching):
    """An index in memory. It may be used from several threads, of which one is in it at a time.

        with dilforec.Index(dilforec.text("title", default=True), dilforec.u64("year")) as index:
            with index.transaction():
                index.add({"title": "Programming Pearls", "year": 1986})
            print(index.search("pearls").count)
    """

    _channel: Channel

    def __init__(self, *fields: Field) -> None:
        """Opens an index. Without fields it has no schema, and takes one by `execute`."""
        for field in fields:
            _expect(field, Field, "a field is made by dilforec.text, keyword, u64 or i64")
        self._schema = ()
        self._channel = Channel()
        if fields:
            reply = self._channel.ask(to_line({"schema": [as_json(field) for field in fields]}))
            if not reply.startswith(b'{"fields"'):
                self._channel.close()
                raise self._refused(reply)
            self._schema = fields

    def execute(self, line: Union[str, bytes, bytearray, memoryview]) -> bytes:
        """As `Searching.execute`; a schema that is set so is the schema of the index."""
        reply = self._channel.change(_line(line))
        if reply.startswith(b'{"fields"'):
            text = line if isinstance(line, str) else bytes(line).decode()
            self._schema = tuple(Field(field["name"], field["kind"], field.get("default", False))
                                 for field in json.loads(text)["schema"])
        return reply

    def _refused(self, reply: bytes, document: Optional[Mapping[str, Any]] = None) -> Refused:
        told = json.loads(reply.decode())
        name: str = told["error"]
        return refused(name, told["line"], sentences.of_document(name, self._schema, document or {}))

    def _stamp(self, reply: bytes, key: bytes, document: Optional[Mapping[str, Any]] = None) -> int:
        """The number of a reply of one member."""
        if reply.startswith(key):
            return int(reply[len(key):-2])
        raise self._refused(reply, document)

    def add(self, document: Mapping[str, Any]) -> int:
        """Adds a document, and returns its stamp. Searches see it after the next commit.

        Refused if it doesn't fit the schema, as UnknownField or WrongKind, or if 1,000,000 operations are uncommitted.
        """
        return self._stamp(self._channel.change(_add(document)), STAMP, document)

    def add_many(self, documents: Iterable[Mapping[str, Any]]) -> list[int]:
        """Adds documents, and returns their stamps. It takes less time than an `add` for each.

        A refused document doesn't stop the others: SomeRefused, at the end, has each one's number and why, and the
        stamps of the others. Unfinished, a MemoryError, if memory runs out: it tells which documents were done. An
        exception that the iterable raises is passed on, after the documents that it gave before are added.
        """
        adding = _Adding(self._channel, self._schema)
        try:
            for document in documents:
                adding.take(document)
        except MemoryError:
            adding.flush()
            raise adding.unfinished() from None
        except BaseException:
            adding.flush()
            raise
        adding.flush()
        return adding.stamps_of_all()

    def replace(self, field: str, value: Union[str, int], document: Mapping[str, Any]) -> int:
        """Deletes the documents of smaller stamps that have a value, and adds one, or does neither. Its stamp.

        `field` is a keyword or number field, and `document[field] == value`, else ValueError. If the document is
        refused, or memory runs out, the old one stays. Both are visible after the next commit.
        """
        kind = sentences.kinds(self._schema).get(field)
        if kind not in ("keyword", "u64", "i64"):
            what = f"a {kind} field" if kind else "no field of the schema"
            raise ValueError(f"a document is replaced by a keyword or number field, and {field!r} is {what}")
        if field not in document or document[field] != value:
            raise ValueError(f"the document has {document.get(field)!r} in {field!r}, and not {value!r}")
        delete = to_line({"delete": {field: value}})
        return self._stamp(self._channel.replace(delete, _add(document)), STAMP, document)

    def execute_all(self, commands: Iterable[Mapping[str, Any]]) -> list[int]:
        """Does what commands say, one after the other, all of them or none, and returns their stamps.

            index.execute_all([{"delete": {"shelf": "lent"}}, {"add": {"title": "Programming Pearls"}}])

        Each is `{"add": document}`, `{"delete": {field: value}}` or `{"delete_all": True}`; BadCommand is any other. The
        exception of the first that is refused tells its number, from 1. Searches see them after the next commit.

        MemoryError if there is no memory, and nothing was done; Unfinished, one of these, if there is none for the stamps.
        """
        given = list(commands)
        lines = [to_line(command) for command in given]
        code, done, told = self._channel.transact(b"\n".join(lines), len(lines), has_replies=True)
        if code == LINE_TOO_LONG:
            raise _too_long(done + 1)
        if code:
            raise fault(code)
        if done < len(lines):
            raise self._refused_command(told, done + 1, given[done])
        if given and not told:
            raise Unfinished([], [None] * len(given))
        return [int(reply[1]) for reply in REPLY.finditer(told)]

    def _refused_command(self, reply: bytes, number: int, command: Mapping[str, Any]) -> Exception:
        if not reply:
            return MemoryError("the index had no memory; nothing changed")
        told = json.loads(reply.decode())
        given = next(iter(command.values()), None) if isinstance(command, Mapping) else None
        why = refused(told["error"], None, sentences.of_document(told["error"], self._schema, given)
                      if isinstance(given, Mapping) else "")
        return refused(told["error"], told["line"], f"command {number}: {why}")

    def delete(self, field: str, value: Union[str, int]) -> int:
        """Deletes the documents of smaller stamps that have a value: a whole keyword, a number, or a word of a text."""
        given = {field: value}
        return self._stamp(self._channel.change(to_line({"delete": given})), STAMP, given)

    def delete_all(self) -> int:
        """Deletes every document of a smaller stamp."""
        return self._stamp(self._channel.change(DELETE_ALL), STAMP)

    def commit(self) -> int:
        """Makes what was added and deleted visible, at once, and returns the commit's stamp."""
        return self._stamp(self._channel.change(COMMIT), COMMITTED)

    def rollback(self) -> int:
        """Gives up what wasn't committed, and returns the stamp of the last commit."""
        return self._stamp(self._channel.change(ROLLBACK), b'{"rollback":')

    def merge(self) -> int:
        """Makes one segment of all, and returns how many documents it has. It changes the result of no search."""
        return self._stamp(self._channel.ask(b'{"merge":true}'), b'{"merged":')

    def limit_merges(self, documents: Optional[int]) -> None:
        """From now on, commits merge no segment of more live documents, and none by itself; with None, whatever is due.

        So commits stay short, and what is left waits for `begin_merge`. NoSchema without a schema.
        """
        if documents is not None:
            _expect(documents, int, "a limit is a number of documents, or None")
            if documents < 0:
                raise ValueError("a limit is a number of documents, at least 0")
        try:
            self._channel.limit_merges(NO_LIMIT if documents is None else min(documents, NO_LIMIT - 1))
        except NothingToMerge:
            raise NoSchema("NoSchema", None, "an index without a schema has no merges to limit") from None

    def begin_merge(self) -> Optional[Merge]:
        """The merge that is due next, if one is: it is run in any thread, and ended by `end_merge`.

            merge = index.begin_merge()
            if merge:
                merge.run()
                index.end_merge()

        The index forgets the one that was begun before.
        """
        try:
            return Merge(self._channel.begin_merge())
        except NothingToMerge:
            return None

    def end_merge(self) -> bool:
        """Puts what the merge made that was begun last in the place of what it joined, and tells whether it did.

        It doesn't if none was begun, or it wasn't run. It doesn't either if what it joined was merged meanwhile, by a
        commit or `merge`, or all of it was deleted; then it is given up. It changes the result of no search.
        """
        return self._channel.end_merge()

    @contextlib.contextmanager
    def transaction(self) -> Iterator[Transaction]:
        """Commits at the end of the block all that is done in it; an exception leaves nothing of it.

            with index.transaction() as transaction:
                transaction.delete("shelf", "lent")
                transaction.add({"title": "Programming Pearls"})

        The transaction's own calls wait, and are done as one at the end of the block, or not at all: the exception of
        the first that is refused tells its number among them, from 1. The calls of the index, such as `index.add`, are
        done at once and return their stamps; the transaction's come after them. Searches find the last commit.

        What was uncommitted before is committed as the block begins, so that it isn't lost, whatever comes. What other
        threads do meanwhile by calls of the index counts as done in the block, and a commit or a rollback there, of any
        thread, ends what was done at once so far. One transaction is under way at a time: that of another thread waits
        for its end, and one within it raises Busy.

        If there is no memory at the end, MemoryError is raised, and nothing stays. An interrupt may come just when the
        commit is done: it is raised, all of it stays, and `transaction.commit` tells so.
        """
        with self._channel.turn():
            if self._channel.has_uncommitted():
                self.commit()
            transaction = Transaction(self._channel.lock)
            try:
                yield transaction
                self._end(transaction)
            except BaseException:
                self._channel.roll_back()
                raise
            finally:
                transaction.end()

    def _end(self, transaction: Transaction) -> None:
        """Does what a transaction has collected, and commits."""
        block, count = transaction.end()
        code, done, told = self._channel.transact_and_commit(block, count, transaction.keep)
        if code:
            raise fault(code)
        if done < count:
            raise self._refused_command(told, done + 1, _command(block, done))
        self._stamp(told, COMMITTED)


class Transaction:
    """What is to be done together at the end of a block of `Index.transaction`. Several threads may add to it.

    TypeError, ValueError and LineTooLong are raised at once, if there is no line for what is given; the refusals of the
    index come at the end of the block.
    """

    def __init__(self, lock: contextlib.AbstractContextManager[Any]) -> None:
        self._lock = lock
        self._lines: Optional[list[bytes]] = []
        # How many they were at its end, and the stamp of its commit.
        self._count = self._commit = 0

    def add(self, document: Mapping[str, Any]) -> None:
        """Adds a document."""
        self._take(_add(document))

    def delete(self, field: str, value: Union[str, int]) -> None:
        """Deletes documents, as `Index.delete` does, also those that the transaction added before."""
        self._take(to_line({"delete": {field: value}}))

    def delete_all(self) -> None:
        """Deletes every document, also those that the transaction added before."""
        self._take(DELETE_ALL)

    def _take(self, line: bytes) -> None:
        with self._lock:
            if self._lines is None:
                raise ValueError("the transaction has ended")
            if len(line) > LONGEST_LINE:
                raise _too_long(len(self._lines) + 1)
            self._lines.append(line)

    def __len__(self) -> int:
        """How many calls there were."""
        lines = self._lines
        return self._count if lines is None else len(lines)

    def __bool__(self) -> bool:
        # A transaction without calls is one all the same.
        return True

    @property
    def commit(self) -> int:
        """The stamp of the commit. ValueError until it is done."""
        if not self._commit:
            raise ValueError("the transaction isn't committed")
        return self._commit

    @property
    def stamps(self) -> range:
        """The stamp of each call, once it is committed: the last numbers before the commit's."""
        return range(self.commit - self._count, self.commit)

    def end(self) -> tuple[bytes, int]:
        """Its lines and how many they are, for the index, which ends it; after that it takes none."""
        with self._lock:
            self._count = len(self)
            lines, self._lines = self._lines or [], None
            return b"\n".join(lines), self._count

    def keep(self, told: bytes) -> None:
        """Keeps the reply to its commit."""
        self._commit = int(told[len(COMMITTED):-2])


class Searcher(Searching):
    """One commit of an index for ever, whatever is done to the index afterwards. It lives on when the index is closed.

    A searcher and its index, and two searchers, never wait for each other: so each thread that searches has its own.

        with index.searcher() as searcher:
            print(searcher.search("pearls").count)

    It takes searches alone: `execute` refuses any other command as BadCommand.
    """

    def __init__(self, channel: Asking, schema: tuple[Field, ...] = ()) -> None:
        if not isinstance(channel, Channel):
            # That takes as long as a search.
            _expect(channel, Asking, "a searcher is opened by index.searcher()")
        self._channel = channel
        self._schema = schema


class Merge:
    """A merge that an index began. It lives on when the index is closed, and is let go by `close`, or with the object."""

    def __init__(self, handle: MergeHandle) -> None:
        self._handle = handle

    def run(self) -> None:
        """Makes one segment, while the index may be used by other threads. Again, it does nothing.

        MemoryError if memory runs out; it may be run again then.
        """
        self._handle.run()

    def close(self) -> None:
        """Lets the merge go. What it made stays to be ended."""
        self._handle.close()

    def __enter__(self) -> Merge:
        return self

    def __exit__(self, *_: object) -> None:
        self.close()


class _Adding:
    """Documents that are added a block at a time."""

    def __init__(self, channel: Channel, schema: tuple[Field, ...]) -> None:
        self._channel = channel
        self._schema = schema
        self._lines: list[bytes] = []
        self._waiting: list[tuple[int, Mapping[str, Any]]] = []
        self._bytes = 0
        self._stamps: list[Optional[int]] = []
        self._refusals: list[tuple[int, Exception]] = []

    def take(self, document: Mapping[str, Any]) -> None:
        number = len(self._stamps)
        try:
            line = _add(document)
            if len(line) > LONGEST_LINE:
                raise fault(LINE_TOO_LONG)
        except (TypeError, ValueError, RecursionError, LineTooLong) as why:
            self._refusals.append((number, why))
            self._stamps.append(None)
            return
        self._waiting.append((number, document))
        self._stamps.append(None)
        self._lines.append(line)
        self._bytes += len(line)
        if len(self._lines) >= BLOCK_LINES or self._bytes >= BLOCK_BYTES:
            self.flush()

    def flush(self) -> None:
        """Has the block done. If memory runs out, what wasn't done is forgotten, and Unfinished tells it."""
        lines, waiting = self._lines, self._waiting
        self._lines, self._waiting, self._bytes = [], [], 0
        code, done = OK, 0
        try:
            if lines:
                code, done = self._channel.ask_block(lines, lambda replies: self._keep(waiting, replies))
        except MemoryError:
            code = MEMORY
        if code != OK or done < len(waiting):
            self._forget(waiting[done][0])
        if code != OK:
            raise self.unfinished() if code == MEMORY else fault(code)

    def _forget(self, number: int) -> None:
        """Forgets the document of a number, and those after it."""
        del self._stamps[number:]
        self._refusals = [each for each in self._refusals if each[0] < number]

    def _keep(self, waiting: list[tuple[int, Mapping[str, Any]]], replies: memoryview) -> None:
        """Keeps stamps and refusals. It may be called again if it found no memory."""
        refusals = []
        for (number, document), reply in zip(waiting, REPLY.finditer(replies)):
            if reply[1]:
                self._stamps[number] = int(reply[1])
            else:
                name = reply[2].decode()
                why = sentences.of_document(name, self._schema, document)
                refusals.append((number, refused(name, int(reply[3]), why)))
        self._refusals.extend(refusals)

    def unfinished(self) -> Unfinished:
        return Unfinished(self._refusals, self._stamps)

    def stamps_of_all(self) -> list[int]:
        if self._stamps.count(None) > len(self._refusals):
            raise self.unfinished()
        if self._refusals:
            self._refusals.sort(key=lambda each: each[0])
            raise SomeRefused(self._refusals, self._stamps)
        # Each is a number, then. A copy of the list could find no memory.
        return cast("list[int]", self._stamps)


def _too_long(number: int) -> LineTooLong:
    """Why a command of several can't be done, by its number."""
    return LineTooLong("LineTooLong", None, f"command {number} has more than {LONGEST_LINE:,} bytes")


def _command(block: bytes, place: int) -> Any:
    """The command in a line of a block; None if it isn't JSON to Python either."""
    begin = 0
    for _ in range(place):
        begin = block.index(b"\n", begin) + 1
    end = block.find(b"\n", begin)
    line = block[begin:] if end < 0 else block[begin:end]
    with contextlib.suppress(ValueError, RecursionError):
        return json.loads(line.decode("utf-8", "surrogatepass"))
    return None


def _line(given: Union[str, bytes, bytearray, memoryview]) -> bytes:
    """A line as bytes."""
    if isinstance(given, str):
        return given.encode("utf-8", "surrogatepass")
    _expect(given, (bytes, bytearray, memoryview), "a line is a str or bytes")
    return bytes(given)


def _add(document: Mapping[str, Any]) -> bytes:
    """The line that adds a document."""
    if not isinstance(document, dict):
        _expect(document, Mapping, "a document is a mapping of the names of fields to values")
        document = dict(document)
    return b'{"add":' + ENCODE(document).encode("utf-8", "surrogatepass") + b"}"


def _names(fields: Sequence[str]) -> bytes:
    """A list of names as JSON."""
    if isinstance(fields, str) or not all(isinstance(field, str) for field in fields):
        raise TypeError("fields are a list of names")
    return to_line(list(fields))


def _expect(value: object, kinds: Union[type, tuple[type, ...]], words: str) -> None:
    if not isinstance(value, kinds):
        raise TypeError(f"{words}, not {type(value).__name__}")
