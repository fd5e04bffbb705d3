"""What bench/services.py times beside the service: the same application and server over SQLite's FTS5, and Groonga's server.

    python3 bench/service_peers.py fts5 DATABASE [alone]    serves FTS5, as the command serves a store
"""
from __future__ import annotations

import itertools
import json
import pathlib
import shutil
import socket
import sqlite3
import subprocess
import sys
import threading
from collections.abc import Callable, Iterable, Iterator, Sequence
from contextlib import contextmanager
from typing import Any, NamedTuple, Optional
from urllib.parse import quote

import corpus
from dilforec import Top
from dilforec.index import to_line
from dilforec.service import Transaction
from dilforec.service._app import Application
from dilforec.service._guard import Guard
from dilforec.service._uvicorn import Patience, Served
from dilforec.service._worker import Worker


class FtsStore:
    """What an application asks of a store, over FTS5. If it shares, posts that wait are one transaction."""

    key = None

    def __init__(self, path: str, shares: bool = True) -> None:
        self.path = path
        self.fields: list[Any] = []
        self.commit = 0
        self.local = threading.local()
        self.writer = self.opened()
        self.writer.executescript("""
            PRAGMA journal_mode = wal;
            CREATE TABLE IF NOT EXISTS documents (id INTEGER PRIMARY KEY, tag TEXT, price INTEGER, text TEXT);
            CREATE VIRTUAL TABLE IF NOT EXISTS bodies USING fts5(body, content='');
        """)
        self.last = self.writer.execute("SELECT coalesce(max(id), 0) FROM documents").fetchone()[0]
        self.worker: Worker[Transaction] = Worker("fts5", self.write if shares else self.write_one)

    def opened(self) -> sqlite3.Connection:
        connection = sqlite3.connect(self.path, check_same_thread=False, isolation_level=None)
        connection.execute("PRAGMA synchronous = full")
        connection.execute("PRAGMA cache_size = -262144")
        return connection

    def write(self, waiting: Iterable[Transaction]) -> int:
        transactions = list(waiting)
        self.writer.execute("BEGIN IMMEDIATE")
        for each in transactions:
            first = self.last + 1
            for operation in each.operations:
                self.last += 1
                document = json.loads(operation.text)
                self.writer.execute("INSERT INTO documents VALUES (?, ?, ?, ?)",
                                    (self.last, document["tag"], document["price"], operation.text.decode()))
                self.writer.execute("INSERT INTO bodies (rowid, body) VALUES (?, ?)", (self.last, document["body"]))
            each.drafted(b"", [], list(range(first, self.last + 1)))
        self.writer.execute("COMMIT")
        self.commit += 1
        for each in transactions:
            each.committed(self.last)
        return len(transactions)

    def write_one(self, waiting: Iterable[Transaction]) -> int:
        return self.write(itertools.islice(waiting, 1))

    def new_transaction(self) -> Transaction:
        return Transaction()

    def do(self, *transactions: Transaction) -> None:
        self.worker.do(*transactions)

    def submit(self, *transactions: Transaction, then: Callable[[], None]) -> None:
        self.worker.submit(*transactions, then=then)

    @contextmanager
    def snapshot(self) -> Iterator[FtsStore]:
        if not hasattr(self.local, "connection"):
            self.local.connection = self.opened()
        self.local.connection.execute("BEGIN")
        try:
            yield self
        finally:
            self.local.connection.execute("COMMIT")

    def search_json(
        self, query: str, *, groups: Sequence[str], top: Top, fields: Optional[Sequence[str]], after: object, most: dict[str, int],
    ) -> bytes:
        wanted = " ".join(f'"{word}"' for word in query.replace("+", "").split())
        one = self.local.connection
        joined = "FROM bodies JOIN documents ON id = bodies.rowid WHERE bodies MATCH ?"
        counts = one.execute(f"SELECT tag, count(*) {joined} GROUP BY tag ORDER BY count(*) DESC, tag", (wanted,)).fetchall()
        rows = one.execute(f"SELECT id, price, text {joined} ORDER BY price DESC, id LIMIT ?", (wanted, top.k))
        hits = [{"id": id, "value": value, "document": json.loads(document)} for id, value, document in rows]
        count = sum(count for _, count in counts)
        return to_line({"count": count, "groups": {"tag": counts[:most["tag"]]}, "hits": hits, "commit": self.commit}) + b"\n"


def serve_fts(path: str, shares: bool) -> None:
    bound = socket.socket()
    bound.bind(("127.0.0.1", 0))
    port = bound.getsockname()[1]
    store: Any = FtsStore(path, shares)
    application = Application(store, Guard([f"127.0.0.1:{port}"]))
    served = Served(application, bound, 16, Patience(idle=600))
    served.run(lambda: print(f"at http://127.0.0.1:{port}/", flush=True), lambda: None)


class Asking(NamedTuple):
    """How a server is asked: the bytes of a search for words that all have to match, and of a post of a document."""

    search: Callable[[int, list[str]], bytes]
    post: Callable[[int, dict[str, Any]], bytes]


def _head(line: str, port: int, body: Optional[bytes] = None) -> bytes:
    about = f"Content-Type: application/json\r\nContent-Length: {len(body)}\r\n" if body is not None else ""
    return f"{line} HTTP/1.1\r\nHost: 127.0.0.1:{port}\r\n{about}\r\n".encode() + (body or b"")


def _search_service(port: int, words: list[str]) -> bytes:
    query = words[0] if len(words) == 1 else "%2B" + "+%2B".join(words)
    return _head(f"GET /search?q={query}&groups=tag&top=price,10,falling", port)


def _post_service(port: int, document: dict[str, Any]) -> bytes:
    return _head("POST /documents", port, json.dumps(document).encode())


def _search_groonga(port: int, words: list[str]) -> bytes:
    asked = {
        "table": "Documents", "match_columns": "body", "query": " ".join(words), "sort_keys": "-price,_id", "limit": "10",
        "output_columns": "_id,price,tag,temp,body", "drilldown": "tag", "drilldown_sort_keys": "-_nsubrecs,_key",
        "drilldown_limit": "100",
    }
    return _head("GET /d/select?" + "&".join(f"{name}={quote(value)}" for name, value in asked.items()), port)


def _post_groonga(port: int, document: dict[str, Any]) -> bytes:
    return _head("POST /d/load?table=Documents", port, json.dumps([document]).encode())


SERVICE, GROONGA = Asking(_search_service, _post_service), Asking(_search_groonga, _post_groonga)


def has_groonga() -> bool:
    return shutil.which("groonga") is not None


def fill_groonga(path: pathlib.Path, documents: Sequence[dict[str, Any]]) -> None:
    """A base of Groonga with the documents, and an index of the texts and the tags."""
    commands = [
        "table_create Tags TABLE_PAT_KEY ShortText",
        "table_create Documents TABLE_NO_KEY",
        "column_create Documents body COLUMN_SCALAR Text", "column_create Documents tag COLUMN_SCALAR Tags",
        "column_create Documents price COLUMN_SCALAR UInt64", "column_create Documents temp COLUMN_SCALAR Int64",
        "table_create Words TABLE_PAT_KEY ShortText --default_tokenizer TokenBigram --normalizer NormalizerAuto",
        "column_create Words bodies COLUMN_INDEX|WITH_POSITION Documents body",
        "load --table Documents", json.dumps(list(documents)),
    ]
    subprocess.run(["groonga", "-n", path], input="\n".join(commands).encode() + b"\n", check=True, stdout=subprocess.DEVNULL)


def free_port() -> int:
    with socket.create_server(("127.0.0.1", 0)) as sock:
        port: int = sock.getsockname()[1]
        return port


def groonga_command(path: pathlib.Path, port: int) -> list[str]:
    return ["groonga", "-s", "--protocol", "http", "--bind-address", "127.0.0.1", "-p", str(port), str(path)]


if __name__ == "__main__":
    serve_fts(sys.argv[2], sys.argv[3:] != ["alone"])
