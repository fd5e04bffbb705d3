"""A client: a service over HTTP, with the methods of a store."""
from __future__ import annotations

import contextlib
import http.client
import json
import select
import socket
import threading
from collections.abc import Collection, Iterable, Iterator, Mapping, Sequence
from contextlib import contextmanager
from typing import Any, NamedTuple, NoReturn, Optional, Union
from urllib.parse import quote, urlencode, urlsplit

from dilforec.refusals import BY_NAME, Syntax, refused
from dilforec.service import _errors as errors
from dilforec.service._compact import Sizes
from dilforec.service._lines import Key, encode
from dilforec.service._parameters import MOST_VALUES
from dilforec.service._snapshot import Answer, Hit
from dilforec.service._transaction import Done
from dilforec.values import Field, Top, as_json

_JSON = {"Content-Type": "application/json"}


class NotAllowed(errors.Unavailable):
    """The service doesn't let the client do it: the token is missing, wrong, or only reads. Nothing was done."""


class ClientTransaction:
    """Operations that a service does together, in their order, or not at all. Client.transaction opens one."""

    def __init__(self) -> None:
        self.operations: "list[object]" = []
        self._done: Optional[Done] = None

    def add(self, document: "Mapping[str, Any]") -> None:
        """Adds a document, which gets a number; if its key is there, it replaces that document."""
        self.operations.append({"add": dict(document)})

    def delete(self, field: str, value: "Union[str, int]") -> None:
        """Deletes the documents that have a value: a whole keyword, a number, `id` too, or a word of a text."""
        self.operations.append({"delete": {field: value}})

    def delete_all(self) -> None:
        """Deletes all documents."""
        self.operations.append({"delete_all": True})

    def command(self, command: object) -> None:
        """Does what a script's line says, read from its JSON: {"add": ..}, {"delete": ..} or {"delete_all": true}."""
        self.operations.append(command)

    def committed(self, done: Done) -> None:
        """Notes what came of it."""
        self._done = done

    def __len__(self) -> int:
        """How many operations there are so far."""
        return len(self.operations)

    @property
    def done(self) -> Done:
        """What came of it, once it is committed. Until then ValueError is raised."""
        if self._done is None:
            raise ValueError("the transaction isn't committed")
        return self._done

    @property
    def ids(self) -> "tuple[int, ...]":
        """The numbers of the documents that it added, in its order, once it is committed."""
        return self.done.ids

    @property
    def commit(self) -> int:
        """The number of its commit, once it is committed."""
        return self.done.commit


class Client:
    """The store of a service elsewhere, with the methods of Store. Many threads may use one.

        with Client("http://localhost:8090", token="..") as store:
            pearls = store.add({"title": "Programming Pearls", "year": 1986})
            print(store.search("pearls").hits[0].document)

    What a store raises is raised here too. Beside it there are NotAllowed; OutcomeUnknown, if the connection broke
    before a change was answered; Unavailable, if the service can't be asked; and ValueError, if it refuses a call as it
    was made.
    """

    def __init__(self, url: str, *, token: Optional[str] = None, timeout: float = 60) -> None:
        """A client of the service at a URL, as http://localhost:8090 or unix:/run/dilforec/socket.

        `timeout` is how many seconds it waits for each part of an answer. Nothing is asked yet.
        """
        self._line = _Line(url, timeout)
        self._headers = {"Authorization": f"Bearer {token}"} if token else {}

    def __enter__(self) -> Client:
        return self

    def __exit__(self, *_: object) -> None:
        self.close()

    def close(self) -> None:
        """Closes the connections that are idle."""
        self._line.close()

    # What changes something

    @contextmanager
    def transaction(self) -> "Iterator[ClientTransaction]":
        """A transaction, which is committed at the end of the block; an exception within it does nothing.

        An operation that the index refuses raises TransactionRefused at the end.
        """
        transaction = ClientTransaction()
        yield transaction
        if not transaction.operations:
            raise ValueError("a transaction has at least one operation")
        told = self._ask("POST", "/transaction", transaction.operations, is_transaction=True)
        transaction.committed(_done(told))

    def add(self, document: "Mapping[str, Any]") -> int:
        """Adds a document, and returns its number; if its key is there, it replaces that document."""
        return _done(self._ask("POST", "/documents", dict(document))).ids[0]

    def replace(self, id: int, document: "Mapping[str, Any]", *, version: Optional[str] = None) -> Done:
        """Puts a document in the place of another, with its number."""
        return self._change("PUT", f"/documents/{id:d}", id, document, version)

    def delete(self, id: int, *, version: Optional[str] = None) -> Done:
        """Deletes a document."""
        return self._change("DELETE", f"/documents/{id:d}", id, None, version)

    def put_by_key(self, key: Key, document: "Mapping[str, Any]", *, version: Optional[str] = None) -> Done:
        """Adds a document, or puts it in the place of the one of its key; with a version, that has to be there."""
        return self._change("PUT", _of_key(key), key, document, version)

    def delete_by_key(self, key: Key, *, version: Optional[str] = None) -> Done:
        """Deletes the document of a key."""
        return self._change("DELETE", _of_key(key), key, None, version)

    def compact(self, *, schema: "Optional[Iterable[Field]]" = None, drop: "Collection[str]" = ()) -> Sizes:
        """Writes the journal anew with the live documents alone, maybe with another schema."""
        body = None if schema is None else {"schema": [as_json(field) for field in schema], "drop": list(drop)}
        return Sizes(**self._ask("POST", "/compact", body))

    def _change(
        self, method: str, path: str, id: Key, document: "Optional[Mapping[str, Any]]", version: Optional[str],
    ) -> Done:
        match = {} if version is None else {"If-Match": "*" if version == "*" else f'"{version}"'}
        return _done(self._ask(method, path, None if document is None else dict(document), match, id))

    # What searches

    def search(
        self, query: str, *, groups: Sequence[str] = (), top: Optional[Top] = None,
        fields: Optional[Sequence[str]] = None, after: "Optional[tuple[int, int]]" = None,
    ) -> Answer:
        """What a query finds in the last commit, as Store.search says.

        The groups of a field are its 10,000 most frequent values at most, the most frequent first; `shelf:10` asks for
        ten of them. A top list has 1,000 hits at most.
        """
        if isinstance(groups, str) or isinstance(fields, str):
            raise TypeError("groups and fields are lists of names")
        asked = {"q": query}
        if groups:
            asked["groups"] = ",".join(name if ":" in name else f"{name}:{MOST_VALUES}" for name in groups)
        if top is not None:
            asked["top"] = f"{top.by},{top.k},{top.order}"
        if fields is not None:
            asked["fields"] = ",".join(fields)
        if after is not None:
            asked["after"] = f"{after[0]:d},{after[1]:d}"
        try:
            told = self._ask("GET", f"/search?{urlencode(asked)}")
        except Syntax as error:
            # The service tells it in bytes.
            at = None if error.line is None else len(query.encode()[: error.line].decode(errors="ignore"))
            raise Syntax("Syntax", None, error.detail, at) from None
        counted = {name: {value: count for value, count in values} for name, values in told["groups"].items()}
        return Answer(told["count"], counted, tuple(Hit(**hit) for hit in told["hits"]), told["commit"])

    def get(self, id: int) -> "Optional[dict[str, Any]]":
        """The document of a number, its `id` in it; None if there is none."""
        return self._document(f"/documents/{id:d}")

    def get_by_key(self, key: Key) -> "Optional[dict[str, Any]]":
        """The document of a key, its `id` in it; None if there is none. ValueError if the store has no key."""
        return self._document(_of_key(key))

    def documents(self, after: int = 0, limit: int = 100) -> "list[dict[str, Any]]":
        """The documents with the smallest numbers above one, at most `limit`, 1 to 1,000; none at the end."""
        found: "list[dict[str, Any]]" = self._ask("GET", f"/documents?after={after:d}&limit={limit:d}")["documents"]
        return found

    def _document(self, path: str) -> "Optional[dict[str, Any]]":
        try:
            found: "dict[str, Any]" = self._ask("GET", path)
            return found
        except errors.NoSuchDocument:
            return None

    def __len__(self) -> int:
        """How many documents there are."""
        return int(self._status()["documents"])

    def __bool__(self) -> bool:
        # A store without documents is one all the same.
        return True

    @property
    def fields(self) -> "list[Field]":
        """The fields of its documents, without `id`."""
        return [Field(**field) for field in self._status()["schema"]]

    @property
    def key(self) -> Optional[str]:
        """The field by whose values documents are known, if there is one."""
        found: Optional[str] = self._status()["key"]
        return found

    @property
    def commits(self) -> int:
        """The number of the last commit. It never falls."""
        return int(self._status()["commit"])

    @property
    def journal_bytes(self) -> int:
        """The size of the journal."""
        return int(self._status()["journal_bytes"])

    @property
    def writable(self) -> bool:
        """Whether it takes writes."""
        return bool(self._status()["writable"])

    def _status(self) -> Any:
        return self._ask("GET", "/status")

    def _ask(
        self, method: str, path: str, body: object = None, headers: "Optional[dict[str, str]]" = None,
        id: "Optional[Key]" = None, *, is_transaction: bool = False,
    ) -> Any:
        sent = None if body is None else encode(body)
        given = {**self._headers, **(headers or {}), **(_JSON if method in ("POST", "PUT") else {})}
        status, told = self._line.ask(method, path, sent, given)
        if status >= 400:
            _refuse(status, told, id, is_transaction)
        return told


def _of_key(key: Key) -> str:
    return f"/documents/key/{quote(str(key), safe='')}"


def _done(told: Any) -> Done:
    return Done(tuple(told["ids"]), told["commit"])


def _refuse(status: int, told: Any, id: "Optional[Key]", is_transaction: bool) -> NoReturn:
    """Raises what an answer tells."""
    name, message, at = told.get("error", ""), told.get("message", ""), told.get("at")
    # The service names by this what isn't a store's operation, which the index is never asked.
    if name in BY_NAME and name != "BadCommand":
        refusal = refused(name, at if name == "Syntax" else None, message)
        raise errors.TransactionRefused(at, refusal) if is_transaction and at else refusal
    if name in ("NoSuchDocument", "VersionChanged"):
        raise getattr(errors, name)("" if id is None else id)
    if name == "KeyTaken":
        raise errors.KeyTaken(told["key"], told["id"])
    if name in ("Busy", "NotWritten", "OutcomeUnknown", "Stopped"):
        raise getattr(errors, name)(message)
    if name == "Memory":
        raise MemoryError(message)
    if status in (401, 403):
        raise NotAllowed(message)
    raise (ValueError if status < 500 else errors.Unavailable)(f"{name}: {message}")


# Connections


class _Answered(NamedTuple):
    status: int
    told: Any


class _Line:
    """Connections to a service: each request has one of its own, which another has afterwards."""

    def __init__(self, url: str, timeout: float) -> None:
        self._url, self._timeout = url, timeout
        if not url.startswith("unix:") and urlsplit(url).scheme not in ("http", "https"):
            raise ValueError(f"{url!r} isn't the URL of a service, as http://localhost:8090")
        self._lock = threading.Lock()
        self._idle: "list[http.client.HTTPConnection]" = []

    def _opened(self) -> http.client.HTTPConnection:
        if self._url.startswith("unix:"):
            return _Local(self._url[len("unix:"):], self._timeout)
        parts = urlsplit(self._url)
        if parts.scheme == "https":
            return http.client.HTTPSConnection(parts.hostname or "", parts.port, timeout=self._timeout)
        return http.client.HTTPConnection(parts.hostname or "", parts.port, timeout=self._timeout)

    def _taken(self) -> http.client.HTTPConnection:
        """A connection that the service hasn't closed."""
        while True:
            with self._lock:
                if not self._idle:
                    return self._opened()
                connection = self._idle.pop()
            if connection.sock and not _has_something(connection.sock):
                return connection
            connection.close()

    def ask(self, method: str, path: str, body: Optional[bytes], headers: "dict[str, str]") -> _Answered:
        """The status of an answer, and its JSON."""
        connection = self._taken()
        try:
            connection.request(method, path, body, headers)
            response = connection.getresponse()
            told = json.loads(response.read() or b"null")
        except ConnectionRefusedError as error:
            connection.close()
            raise errors.Unavailable(f"nothing answers at {self._url}") from error
        except (OSError, http.client.HTTPException, ValueError) as error:
            connection.close()
            words = f"the connection to {self._url} broke: {error or type(error).__name__}"
            raise (errors.Unavailable if method == "GET" else errors.OutcomeUnknown)(words) from error
        except BaseException:
            connection.close()
            raise
        if response.will_close:
            connection.close()
        else:
            with self._lock:
                self._idle.append(connection)
        return _Answered(response.status, told)

    def close(self) -> None:
        with self._lock:
            idle, self._idle = self._idle, []
        for connection in idle:
            with contextlib.suppress(OSError):
                connection.close()


def _has_something(sock: socket.socket) -> bool:
    """Whether there is something to read. On a connection that wasn't asked for anything, that is its end."""
    asked = select.poll()
    asked.register(sock, select.POLLIN)
    return bool(asked.poll(0))


class _Local(http.client.HTTPConnection):
    """A connection over a local socket."""

    def __init__(self, path: str, timeout: float) -> None:
        super().__init__("localhost", timeout=timeout)
        self._path = path

    def connect(self) -> None:
        made = socket.socket(socket.AF_UNIX, socket.SOCK_STREAM)
        made.settimeout(self.timeout)
        try:
            made.connect(self._path)
        except OSError:
            made.close()
            raise
        self.sock = made
