"""The command `load`: files of documents into a journal, by transactions, from the place that it was cut off at.

Before each transaction a file beside the journal is told which lines it has, which commit it will be, and the newest
document before it. So after a crash the number of the last commit says whether they are there; and if others changed
the journal since, the document after the newest one does.
"""
from __future__ import annotations

import argparse
import csv
import json
import os
import sys
import time
from collections.abc import Callable, Iterator, Sequence
from typing import IO, Any, NamedTuple, Optional

from dilforec.refusals import Refused
from dilforec.service import _schema as schema
from dilforec.service._errors import TransactionRefused
from dilforec.service._refusal import Refusal
from dilforec.service._store import Store
from dilforec.values import Field

# A transaction has so many documents, or fewer that are so many bytes together.
_MOST_DOCUMENTS, _MOST_BYTES = 10_000, 64 << 20
_BAR = 30


class Place(NamedTuple):
    """A place in a file: the byte, and the number of the line that begins there, from 1."""

    at: int = 0
    line: int = 1


class Found(NamedTuple):
    """A document in a file: the line that it begins in, and the place after it."""

    document: Any
    line: int
    after: Place


class Loading(NamedTuple):
    """What is being loaded: a file from one place to another, as a commit, after a document; and the files before."""

    file: str
    start: Place
    end: Place
    commit: int
    newest: int
    done: "list[str]"


def load(given: argparse.Namespace) -> int:
    """Loads the files, and returns the status."""
    fields = schema.of_file(given.schema) if given.schema else schema.of_journal(given.journal)
    files = [os.path.abspath(path) for path in given.files]
    sizes = [_size(path) for path in files]
    with Store(fields, given.journal, key=given.key, progress=schema.Progress()) as store:
        notes = _Notes(given.journal, store, files)
        before, bar = len(store), _Bar(sum(sizes))
        for path, size in zip(files, sizes):
            if path not in notes.done:
                _load_file(store, notes, path, bar)
                notes.finish(path)
            bar.passed(size)
        notes.remove()
        bar.end()
        print(f"{len(store) - before:,} documents were added, and there are {len(store):,}")
    return 0


def _load_file(store: Store, notes: _Notes, path: str, bar: _Bar) -> None:
    """Loads a file. If a line is at fault, the transactions before it are done."""
    start = notes.start_of(path)
    found: "list[Found]" = []
    try:
        with open(path, "rb") as file:
            for each in _documents(file, path, start, store.fields):
                found.append(each)
                if len(found) == _MOST_DOCUMENTS or each.after.at - start.at >= _MOST_BYTES:
                    start, found = _commit(store, notes, path, start, found), []
                    bar.show(start.at, len(store))
        if found:
            _commit(store, notes, path, start, found)
    except Refusal as error:
        raise Refusal(f"{error}; what comes before line {start.line} is loaded") from None


def _commit(store: Store, notes: _Notes, path: str, start: Place, found: "list[Found]") -> Place:
    """Commits documents, and returns the place after them."""
    end, at = found[-1].after, 0
    newest = store.search("*", fields=["id"]).hits
    loading = Loading(path, start, end, store.commits + 1, newest[0].id if newest else 0, notes.done)
    notes.write(loading)
    try:
        with store.transaction() as transaction:
            for at, each in enumerate(found):
                transaction.add(each.document)
    except (TransactionRefused, Refused, ValueError) as error:
        notes.write(loading._replace(end=start))
        place, why = (error.number - 1, error.refusal) if isinstance(error, TransactionRefused) else (at, error)
        raise Refusal(f"{path}, line {found[place].line}: {why}") from None
    return end


# Files


def _size(path: str) -> int:
    try:
        return os.stat(path).st_size
    except OSError as error:
        raise Refusal(f"{path} can't be read: {error.strerror}") from None


def _documents(file: "IO[bytes]", path: str, start: Place, fields: "list[Field]") -> "Iterator[Found]":
    """The documents of a file from a place on: of CSV if its name says so, else a JSON text on each line."""
    lines = _Lines(file, path)
    if path.endswith(".csv"):
        return _of_csv(lines, start, fields)
    lines.go(start)
    return _of_json(lines)


class _Lines:
    """The lines of a file, as texts. `place` is the one after what was read."""

    def __init__(self, file: "IO[bytes]", path: str) -> None:
        self._file, self.path, self.place = file, path, Place()

    def go(self, place: Place) -> None:
        """Goes on from a place."""
        self._file.seek(place.at)
        self.place = place

    def __iter__(self) -> "Iterator[str]":
        for line in self._file:
            number = self.place.line
            self.place = Place(self.place.at + len(line), number + 1)
            try:
                text = line.decode()
            except UnicodeDecodeError:
                raise Refusal(f"{self.path}, line {number}: it isn't UTF-8") from None
            yield text.lstrip("\ufeff") if number == 1 else text


def _of_json(lines: _Lines) -> "Iterator[Found]":
    for text in lines:
        line = lines.place.line - 1
        if text.strip():
            try:
                yield Found(json.loads(text), line, lines.place)
            except (ValueError, RecursionError) as error:
                raise Refusal(f"{lines.path}, line {line}: it isn't JSON: {error}") from None


def _of_csv(lines: _Lines, start: Place, fields: "list[Field]") -> "Iterator[Found]":
    """The records after the first, which has the names of the fields. An empty cell is no value."""
    names: "list[str]" = next(csv.reader(lines), [])
    kinds = [_reader_of(name, fields, lines.path) for name in names]
    if start.at:
        lines.go(start)
    rows = csv.reader(lines, strict=True)
    while True:
        line = lines.place.line
        try:
            row = next(rows, None)
            if row is None:
                return
            if len(row) > len(names):
                raise ValueError(f"it has {len(row)} cells, and the first line {len(names)}")
            document = {name: kind(cell) for name, kind, cell in zip(names, kinds, row) if cell}
        except (ValueError, csv.Error) as error:
            raise Refusal(f"{lines.path}, line {line}: {error}") from None
        if row:
            yield Found(document, line, lines.place)


def _reader_of(name: str, fields: "list[Field]", path: str) -> "Callable[[str], object]":
    """What makes a value of a cell of a field."""
    kinds = {field.name: field.kind for field in fields}
    if name not in kinds:
        raise Refusal(f"{path}: the schema has no field {name!r}")
    return int if kinds[name] in ("u64", "i64") else str


# The place


class _Notes:
    """The file beside a journal that says where a load is."""

    def __init__(self, journal: str, store: Store, files: "Sequence[str]") -> None:
        """Reads what a load that was cut off has left. Refusal is raised if it can't be gone on with."""
        self._path = journal + ".loading"
        self.done: "list[str]" = []
        self._start = Place()
        self._file: Optional[str] = None
        left = self._read()
        if left:
            self._go_on(left, store, files)

    def _read(self) -> Optional[Loading]:
        try:
            with open(self._path, encoding="utf-8") as file:
                left = Loading(*json.load(file))
            return left._replace(start=Place(*left.start), end=Place(*left.end))
        except FileNotFoundError:
            return None
        except (ValueError, TypeError) as error:
            raise Refusal(f"{self._path} doesn't say where a load is: {error}") from None

    def _go_on(self, left: Loading, store: Store, files: "Sequence[str]") -> None:
        if left.file not in files:
            raise Refusal(
                f"a load of {left.file} was cut off: load it again, which goes on there, or remove {self._path}"
            )
        # What is loaded again replaces itself in a store with a key.
        is_pending = left.end != left.start and store.key is None
        is_there = is_pending and store.commits >= left.commit and _is_there(left, store)
        if is_pending and not is_there and store.commits > left.commit:
            raise Refusal(
                f"others changed the journal after a load of {left.file} was cut off, so that it isn't known whether "
                f"its lines {left.start.line} to {left.end.line - 1} are there: look, and remove {self._path}"
            )
        self._file, self.done, self._start = left.file, left.done, left.end if is_there else left.start
        print(f"going on at line {self._start.line} of {left.file}", file=sys.stderr)

    def start_of(self, path: str) -> Place:
        """Where a file begins that isn't loaded whole."""
        return self._start if path == self._file else Place()

    def finish(self, path: str) -> None:
        """Notes that a file is loaded whole."""
        self.done = [*self.done, path]

    def write(self, loading: Loading) -> None:
        """Notes what is loaded next, on disk."""
        beside = self._path + ".new"
        with open(beside, "w", encoding="utf-8") as file:
            json.dump(loading, file)
            file.flush()
            os.fsync(file.fileno())
        os.replace(beside, self._path)

    def remove(self) -> None:
        """Notes that all is loaded."""
        if os.path.exists(self._path):
            os.remove(self._path)


def _is_there(left: Loading, store: Store) -> bool:
    """Whether the first document that was given a number since is the first that was to be loaded."""
    after = store.documents(left.newest, 1)
    with open(left.file, "rb") as file:
        first = next(_documents(file, left.file, left.start, store.fields))
    wanted = {name: value for name, value in first.document.items() if value is not None and value != []}
    return bool(after) and {name: after[0][name] for name in after[0] if name != "id"} == wanted


class _Bar:
    """A bar on a terminal, of how many bytes are loaded; on anything else it is nothing."""

    def __init__(self, of: int) -> None:
        self._of, self._passed, self._began = max(of, 1), 0, time.monotonic()
        self._is_shown = sys.stderr.isatty()

    def passed(self, size: int) -> None:
        """Notes that a file is loaded whole."""
        self._passed += size

    def show(self, at: int, documents: int) -> None:
        """Shows how far it is: at a byte of the file in hand."""
        if self._is_shown:
            part = min((self._passed + at) / self._of, 1)
            left = (time.monotonic() - self._began) * (1 - part) / max(part, 0.001)
            filled = "#" * round(_BAR * part)
            print(f"\r[{filled:.<{_BAR}}] {part:4.0%}, {documents:,} documents, {left:.0f} s left \033[K",
                  end="", file=sys.stderr, flush=True)

    def end(self) -> None:
        """Takes the bar away."""
        if self._is_shown:
            print("\r\033[K", end="", file=sys.stderr, flush=True)
