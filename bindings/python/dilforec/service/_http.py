"""Requests and responses, whichever server has them: their parts, their bodies, and errors as JSON."""
from __future__ import annotations

import re
from collections.abc import Iterable, Iterator, Mapping
from functools import lru_cache
from http import HTTPStatus
from typing import Any, NamedTuple, Optional
from urllib.parse import parse_qsl

from dilforec.index import encoder
from dilforec.service._lines import read_json

JSON = "application/json"
JSON_LINES = "application/x-ndjson"

# What a query string may have. A query of the index is at most 4,096 bytes, each of which may be written as three.
_MOST_PARAMETERS = 64
_LONGEST_QUERY_STRING = 65_536

# How many letters of a path or a header are logged.
_LOGGED = 200

_LENGTH = re.compile("[0-9]{1,19}")

_dump = encoder(allow_nan=True)


class HttpError(Exception):
    """A request that isn't answered as it was meant. `at` is the byte of a query, or the line of a body, from 1.

    `more` has further members of the answer.
    """

    def __init__(
        self, status: HTTPStatus, name: str, message: str, at: Optional[int] = None,
        more: "Optional[dict[str, object]]" = None, **headers: str,
    ) -> None:
        super().__init__(message)
        self.status, self.name, self.message, self.at, self.more = status, name, message, at, more or {}
        self.headers = [(header.replace("_", "-"), value) for header, value in headers.items()]


class Response(NamedTuple):
    """What is sent: a status, the body, its type, and further headers."""

    status: HTTPStatus
    body: bytes
    type: str = f"{JSON}; charset=utf-8"
    headers: "tuple[tuple[str, str], ...]" = ()

    def lines(self) -> "list[tuple[str, str]]":
        """The headers, with those that each response has."""
        about = [] if self.status in _WITHOUT_BODY else [("Content-Length", str(len(self.body)))]
        return [*_usual(self.status, self.type, self._names()), *about, *self.headers]

    def head(self) -> bytes:
        """The line of the status and those of the headers, as HTTP/1.1 has them, without the blank line."""
        length = b"" if self.status in _WITHOUT_BODY else b"content-length: %d\r\n" % len(self.body)
        return _usual_head(self.status, self.type, self._names()) + length + _header_lines(self.headers)

    def _names(self) -> "tuple[str, ...]":
        return tuple([name for name, _ in self.headers])

    def and_close(self) -> Response:
        """The same, after which the connection is closed."""
        return self._replace(headers=(*self.headers, ("Connection", "close")))


_WITHOUT_BODY = (HTTPStatus.NO_CONTENT, HTTPStatus.NOT_MODIFIED)
_ALWAYS = (
    ("Cache-Control", "no-store"), ("X-Content-Type-Options", "nosniff"), ("Referrer-Policy", "no-referrer"),
)


def _usual(status: HTTPStatus, type: str, own: "tuple[str, ...]") -> "list[tuple[str, str]]":
    """The headers that each response of a type has, but its length, and those that are its own."""
    about = [] if status in _WITHOUT_BODY else [("Content-Type", type)]
    return about + [each for each in _ALWAYS if each[0] not in own]


@lru_cache(64)
def _usual_head(status: HTTPStatus, type: str, own: "tuple[str, ...]") -> bytes:
    """The line of a status, and those of what `_usual` says. They are the same for most responses."""
    return f"HTTP/1.1 {status.value} {status.phrase}\r\n".encode() + _header_lines(_usual(status, type, own))


def _header_lines(headers: "Iterable[tuple[str, str]]") -> bytes:
    return "".join([f"{name.lower()}: {value}\r\n" for name, value in headers]).encode("latin-1")


def _tags(text: str) -> "list[str]":
    """The tags of a header, without their quotes."""
    found = (tag.strip() for tag in text.split(","))
    return [tag[2:].strip('"') if tag.startswith("W/") else tag.strip('"') for tag in found]


def tagged(response: Response, tag: str) -> Response:
    """A response that a browser may keep, if it asks with the tag whether it still is so."""
    return response._replace(headers=(*response.headers, ("ETag", f'"{tag}"'), ("Cache-Control", "private, no-cache")))


def unchanged(tag: str) -> Response:
    """The answer to a client that has what a tag is of already."""
    return tagged(Response(HTTPStatus.NOT_MODIFIED, b""), tag)


def is_loopback(host: str) -> bool:
    """Whether an address is of this machine alone."""
    return host in ("localhost", "::1") or host.startswith(("127.", "::ffff:127."))


def answer(value: object, status: HTTPStatus = HTTPStatus.OK) -> Response:
    """A JSON text."""
    return Response(status, _dump(value).encode("utf-8", "replace") + b"\n")


def failure(error: HttpError) -> Response:
    """An error as JSON."""
    told: "dict[str, object]" = {"error": error.name, "message": error.message, **error.more}
    if error.at is not None:
        told["at"] = error.at
    return answer(told, error.status)._replace(headers=tuple(error.headers))


def bad(name: str, message: str, at: Optional[int] = None) -> HttpError:
    """A 400."""
    return HttpError(HTTPStatus.BAD_REQUEST, name, message, at)


def too_large(limit: int) -> HttpError:
    """The refusal of a body over the limit."""
    return HttpError(HTTPStatus.REQUEST_ENTITY_TOO_LARGE, "BodyTooLarge", f"the body is over {limit} bytes")


def _loaded(data: bytes, at: Optional[int] = None) -> Any:
    try:
        return read_json(data.decode())
    except UnicodeDecodeError as error:
        raise bad("BadJson", f"byte {error.start} of the text isn't UTF-8", at) from None
    except (ValueError, RecursionError) as error:
        raise bad("BadJson", f"the text isn't JSON: {error}", at) from None


class Request:
    """A request. Its head is there at first; the server adds `body` once the head is let in.

    Names of headers are in small letters; of a header that came again the values are put together with commas.
    """

    body: bytes = b""
    # How much of the body has arrived.
    held = 0
    # How many bytes the head has, without what stands between its parts.
    size = 0
    # What the application calls the path, once it has looked at it.
    call: Optional[str] = None

    def __init__(self, method: str, path: str, query: bytes, headers: Mapping[str, str], peer: str) -> None:
        self.method = method
        self.path = path
        self.query = query
        self.headers = headers
        self.peer = peer

    @property
    def has_body(self) -> bool:
        """Whether its method takes a body."""
        return self.method in ("POST", "PUT")

    @property
    def address(self) -> str:
        """The address that it came from, and, if that is this machine, whom a proxy here asks for: for the log."""
        peer = self.peer or "a local socket"
        told = self.headers.get("x-forwarded-for")
        if told is None or (self.peer and not is_loopback(self.peer)):
            return peer
        return f"{peer} for {ascii(told[:_LOGGED])}"

    @property
    def line(self) -> str:
        """Its method and path, for the log: with escapes, so that it is one line, and not longer than some."""
        return f"{ascii(self.method)} {ascii(self.path[:_LOGGED])}"

    @property
    def host(self) -> str:
        """The header Host; nothing if there is none."""
        return self.headers.get("host", "")

    @property
    def type(self) -> str:
        """The type of the body, without its parameters."""
        return self.headers.get("content-type", "").partition(";")[0].strip().lower()

    def length(self, limit: int) -> Optional[int]:
        """How long the body is said to be, None if it comes in chunks. Over the limit it is a 413."""
        coding = self.headers.get("transfer-encoding")
        if coding is not None:
            if coding.strip().lower() != "chunked":
                words = "a body comes whole or in chunks, and in no other coding"
                raise HttpError(HTTPStatus.NOT_IMPLEMENTED, "NotImplemented", words)
            return None
        length = self.headers.get("content-length") or "0"
        if not _LENGTH.fullmatch(length):
            raise bad("BadLength", "the content's length isn't a number")
        if int(length) > limit:
            raise too_large(limit)
        return int(length)

    def knows(self, tag: str) -> bool:
        """Whether the client has what a tag is of already (If-None-Match)."""
        return tag in _tags(self.headers.get("if-none-match", ""))

    def parameters(self, *allowed: str, lists: "tuple[str, ...]" = ()) -> "dict[str, str]":
        """The members of the query string, none but the allowed ones, and each once; one of `lists` may come again.

        The values of one that comes again are put together with commas.
        """
        if not self.query:
            return {}
        if len(self.query) > _LONGEST_QUERY_STRING:
            raise HttpError(HTTPStatus.REQUEST_URI_TOO_LONG, "TooLong", "the query string is over 65,536 bytes")
        found: "dict[str, str]" = {}
        try:
            for name, value in parse_qsl(
                self.query.decode(), keep_blank_values=True, errors="strict", max_num_fields=_MOST_PARAMETERS,
            ):
                if name not in allowed + lists:
                    raise bad("BadParameter", f"there is no parameter {name!r} here")
                if name in found and name not in lists:
                    raise bad("BadParameter", f"the parameter {name} is given twice")
                found[name] = f"{found[name]},{value}" if name in found else value
        except UnicodeDecodeError:
            raise bad("BadParameter", "the query string isn't UTF-8") from None
        except ValueError as error:
            raise bad("BadParameter", f"the query string can't be read: {error}") from None
        return found

    def json(self) -> Any:
        """The body, one JSON text."""
        return _loaded(self.body)

    def json_lines(self) -> "Iterator[tuple[int, Any]]":
        """The JSON texts of the body's lines, each with its line's number, from 1. Blank lines are skipped."""
        for number, line in enumerate(self.body.split(b"\n"), 1):
            if line.strip(b" \t\r"):
                yield number, _loaded(line, number)

    def values(self) -> "Iterator[tuple[int, Any]]":
        """The values of the body, numbered from 1: of its lines, of the list that it is, or the one that it is."""
        if self.type == JSON_LINES:
            yield from self.json_lines()
        else:
            value = self.json()
            yield from enumerate(value if isinstance(value, list) else [value], 1)
