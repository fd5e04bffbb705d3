"""Where the documents of a partition are from: a file of documents, a file of a script's lines, or a function."""
from __future__ import annotations

import abc
import functools
import gzip
import hashlib
import json
import lzma
import os
from collections.abc import Callable, Iterable, Iterator, Mapping
from dataclasses import dataclass
from typing import Any, BinaryIO, Union, cast

from dilforec.index import LONGEST_LINE
from dilforec.values import Field, Value, as_json

# A line of a file comes in pieces of this length, which is too long for a line, its CR and its LF.
PIECE = LONGEST_LINE + 3

_encode = json.JSONEncoder(ensure_ascii=False, check_circular=False, separators=(",", ":")).encode


class LongLine(bytes):
    """The digest of a line that is too long, in its place."""


class Source(abc.ABC):
    """The documents of one partition. They are read again whenever the partition is made again, on any worker.

    `name` is what hits and refusals call it by; no two sources of a cluster have one name.
    """

    name: str

    @abc.abstractmethod
    def lines(self) -> Iterator[bytes]:
        """Its lines as they are, each but the last with its LF.

        A line of more than 4,194,304 bytes may come in pieces, the first of them at least three bytes longer than that.
        """

    @abc.abstractmethod
    def command(self, line: bytes, schema: tuple[Field, ...]) -> bytes:
        """The line of a script that a line means, without an LF; a blank line for none."""

    @property
    def commits(self) -> bool:
        """Whether its own lines say where commits are."""
        return False


class _File(Source):
    """A file that all workers can read, by the path that it has on each of them; .gz and .xz are decompressed."""

    def __init__(self, path: Union[str, os.PathLike[str]]) -> None:
        self.name = os.fspath(path)
        self.path = os.path.abspath(self.name)

    def lines(self) -> Iterator[bytes]:
        with _opened(self.path) as file:
            yield from iter(functools.partial(file.readline, PIECE), b"")

    def __repr__(self) -> str:
        return f"{type(self).__name__}({self.name!r})"


class JsonLines(_File):
    """A file with a document on each line, as JSON. Blank lines are passed over."""

    def command(self, line: bytes, schema: tuple[Field, ...]) -> bytes:
        return add_line(line.rstrip(b"\r\n"))


class Script(_File):
    """A file of a script's lines: adds, deletes, rollbacks, commits. What isn't committed at its end is committed then.

    A delete reaches the documents of this file alone. Searches are passed over, and so is the schema of the cluster.
    """

    def command(self, line: bytes, schema: tuple[Field, ...]) -> bytes:
        line = line.rstrip(b"\r\n")
        seldom = b'"search"' in line or b'"schema"' in line or b"\\u" in line
        return b"" if seldom and _is_passed_over(line, schema) else line

    @property
    def commits(self) -> bool:
        return True


@dataclass(frozen=True)
class Documents(Source):
    """A function that gives documents. It is called on a worker, and has to give the same documents each time."""

    name: str
    function: Callable[[], Iterable[Mapping[str, Value]]]

    def lines(self) -> Iterator[bytes]:
        for document in self.function():
            # What isn't Unicode is the index's to refuse.
            yield _encode(document).encode("utf-8", "surrogatepass") + b"\n"

    def command(self, line: bytes, schema: tuple[Field, ...]) -> bytes:
        return add_line(line[:-1])


def _opened(path: str) -> BinaryIO:
    """A file of lines, by its suffix."""
    if path.endswith(".gz"):
        return cast(BinaryIO, gzip.open(path))
    if path.endswith(".xz"):
        return cast(BinaryIO, lzma.open(path))
    return open(path, "rb")


def whole_lines(pieces: Iterable[bytes]) -> Iterator[bytes]:
    """The lines that come in pieces, with a LongLine in place of one that is too long."""
    pieces = iter(pieces)
    for piece in pieces:
        if len(piece) < PIECE or piece.endswith(b"\n"):
            yield piece
        else:
            yield _long_line(piece, pieces)


def _long_line(piece: bytes, pieces: Iterator[bytes]) -> bytes:
    """What takes the place of a long line, of which this is the first piece: a blank line, if it is blank."""
    digest, is_blank = hashlib.blake2b(digest_size=16), True
    while piece:
        digest.update(piece)
        is_blank = is_blank and not piece.strip(b" \t\r\n")
        piece = b"" if piece.endswith(b"\n") else next(pieces, b"")
    return b"\n" if is_blank else LongLine(digest.digest())


def add_line(document: bytes) -> bytes:
    """The add of a document, given as JSON; of what isn't JSON, a line that isn't either."""
    if not document.strip(b" \t\r"):
        return b""
    # Of two members of one name JSON takes the last, so {"a":1},"add":{"a":2} must not come between the braces. Letters
    # may be there by their numbers.
    if (b'"add"' in document or b"\\u" in document) and _json(document) is None:
        return b"{"
    return b'{"add":%b}' % document


def _json(text: bytes) -> Any:
    """The value of a JSON text; None if it isn't one, and for null."""
    try:
        return json.loads(text)
    except (RecursionError, ValueError):
        return None


def _is_passed_over(line: bytes, schema: tuple[Field, ...]) -> bool:
    """Whether a line is a search, or the command of this schema."""
    command = _json(line)
    if not isinstance(command, dict) or len(command) != 1:
        return False
    return "search" in command or _says(command.get("schema"), schema)


def _says(fields: Any, schema: tuple[Field, ...]) -> bool:
    """Whether the value of the command `schema` is this schema. `default` is false if it isn't there."""
    if not isinstance(fields, list) or not all(isinstance(field, dict) for field in fields):
        return False
    return [{"default": False, **field} for field in fields] == [as_json(field) for field in schema]
