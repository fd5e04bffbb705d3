#!/usr/bin/env python3
"""Times the service beside the same service over SQLite's FTS5, and beside Groonga's own server.

    python3 bench/services.py [DOCUMENTS] [SECONDS] [--start DOCUMENTS]

Build and link the package's library first, by `make`. The documents are those of bench/corpus.py, 100,000 without an
argument; each measurement takes 5 seconds, and all servers run the whole time and are measured by turns. A search asks
for one word or two that both have to match, with the 100 most frequent values of the keyword and the first ten documents
by the price. A post has one document, and its answer says that it is on disk; Groonga's doesn't, since it syncs later.
Before the start the journal was compacted, and FTS5's table optimized. FTS5 has a write-ahead log and
`synchronous=full`, and groups and top lists join a table by the row's number. It has the service's own application and
server, and shares transactions as the service does. Clients are processes that keep their connection, where the server
does, as Groonga's doesn't; idle connections are open and silent. Last come the seconds of a start over 1,000,000 documents, and searches while the journal is
compacted again and again. The output is tables in Markdown. Groonga is skipped if it isn't there (Debian: groonga-bin).
"""
from __future__ import annotations

import argparse
import itertools
import json
import multiprocessing
import os
import pathlib
import random
import resource
import signal
import socket
import subprocess
import sys
import tempfile
import threading
import time
from collections.abc import Iterator, Sequence
from contextlib import ExitStack, contextmanager
from typing import Any, NamedTuple

ROOT = pathlib.Path(__file__).resolve().parent.parent
if not os.environ.get("PYTHONPATH"):
    sys.path.insert(0, str(ROOT / "bindings/python"))
    os.environ["PYTHONPATH"] = str(ROOT / "bindings/python")

import corpus  # noqa: E402
import service_peers as peers  # noqa: E402
from dilforec import Field  # noqa: E402
from dilforec.service import Client, Store  # noqa: E402

FIELDS = [Field(**field) for field in corpus.SCHEMA["schema"]]
PEERS = ROOT / "bench/service_peers.py"
IDLE = 2_000
# How many different requests a client has, which it repeats.
ASKED = 3_000


class Server(NamedTuple):
    """A server that runs: its name, its port, and how it is asked."""

    name: str
    port: int
    asking: peers.Asking


class Load(NamedTuple):
    """Clients that search and clients that post, at the same time, beside connections that are silent."""

    name: str
    searching: int
    posting: int = 0
    idle: int = 0


class Times(NamedTuple):
    """Requests a second, and the milliseconds of the middle one and of the one that 99 % are faster than."""

    rate: float
    half: float
    most: float

    def __str__(self) -> str:
        return f"{self.rate:,.0f}|{self.half:.2f}|{self.most:.2f}"


LOADS = [
    *(Load(f"search, {count} client{'s' * (count > 1)}", count) for count in (1, 16, 64)),
    *(Load(f"post, {count} client{'s' * (count > 1)}", 0, count) for count in (1, 16, 64)),
    Load(f"search, 16 clients, {IDLE:,} idle connections", 16, 0, IDLE),
    Load(f"post, 16 clients, {IDLE:,} idle connections", 0, 16, IDLE),
    Load("both", 8, 8),
]
OTHER = {"search": "post", "post": "search"}


# Servers


def filled(folder: pathlib.Path, count: int) -> None:
    """A journal, a database and, if it is there, a base of Groonga, with the same documents."""
    documents = [document._asdict() for document in corpus.documents(count)]
    fts = peers.FtsStore(str(folder / "database"))
    with Store(FIELDS, folder / "journal") as store:
        for start in range(0, count, 10_000):
            both: tuple[Store | peers.FtsStore, ...] = store, fts
            for each in both:
                transaction = each.new_transaction()
                for document in documents[start : start + 10_000]:
                    transaction.add(document)
                each.do(transaction)
        store.compact()
        fts.writer.execute("INSERT INTO bodies (bodies) VALUES ('optimize')")
    (folder / "schema.json").write_text(json.dumps([vars(field) for field in FIELDS]))
    if peers.has_groonga():
        (folder / "groonga").mkdir()
        peers.fill_groonga(folder / "groonga/base", documents)


@contextmanager
def running(*command: object) -> Iterator[bytes]:
    """What a server's first line is, which runs meanwhile."""
    process = subprocess.Popen(list(map(str, command)), stdout=subprocess.PIPE)
    assert process.stdout is not None
    try:
        yield process.stdout.readline()
    finally:
        process.send_signal(signal.SIGTERM)
        process.wait(60)


def port_of(line: bytes) -> int:
    return int(line.rstrip(b"/\n").rpartition(b":")[2])


def ours(folder: pathlib.Path) -> list[object]:
    return [sys.executable, "-m", "dilforec", "serve", "--listen", "127.0.0.1:0", "--log", "warning", "--idle", "600",
            "--schema", folder / "schema.json", "--journal", folder / "journal"]


@contextmanager
def groonga(folder: pathlib.Path) -> Iterator[int]:
    """The port of Groonga's server, which runs meanwhile."""
    port = peers.free_port()
    process = subprocess.Popen(peers.groonga_command(folder / "groonga/base", port), stdout=subprocess.DEVNULL)
    try:
        for _ in range(200):
            try:
                socket.create_connection(("127.0.0.1", port)).close()
                break
            except OSError:
                time.sleep(0.05)
        yield port
    finally:
        process.send_signal(signal.SIGTERM)
        process.wait(60)


@contextmanager
def all_served(folder: pathlib.Path) -> Iterator[list[Server]]:
    """All servers."""
    with ExitStack() as stack:
        fts = sys.executable, PEERS, "fts5", folder / "database"
        servers = [
            Server("the service", port_of(stack.enter_context(running(*ours(folder)))), peers.SERVICE),
            Server("over FTS5", port_of(stack.enter_context(running(*fts))), peers.SERVICE),
        ]
        if peers.has_groonga():
            servers.append(Server("Groonga", stack.enter_context(groonga(folder)), peers.GROONGA))
        yield servers


# Clients


def requests(kind: str, server: Server, seed: int) -> Iterator[bytes]:
    if kind == "post":
        for document in corpus.documents(ASKED, seed):
            yield server.asking.post(server.port, document._asdict())
        return
    chance = random.Random(seed)
    for _ in range(ASKED):
        words = corpus.words(chance, 2)
        yield server.asking.search(server.port, words[:1] if chance.random() < 0.5 else words)


class Line:
    """A connection to a server, opened again after each answer that closes it, as Groonga's do."""

    def __init__(self, port: int) -> None:
        self._port = port
        self._open()

    def _open(self) -> None:
        self._socket = socket.create_connection(("127.0.0.1", self._port))
        self._socket.setsockopt(socket.IPPROTO_TCP, socket.TCP_NODELAY, 1)

    def ask(self, request: bytes) -> bytes:
        """The body of the answer to a request."""
        self._socket.sendall(request)
        told = self._socket.recv(1 << 16)
        while b"\r\n\r\n" not in told:
            told += self._socket.recv(1 << 16)
        head, _, body = told.partition(b"\r\n\r\n")
        head = head.lower()
        length = int(head.partition(b"content-length: ")[2].partition(b"\r\n")[0])
        while len(body) < length:
            body += self._socket.recv(1 << 18)
        assert head[9:12] in (b"200", b"201"), told
        if b"connection: close" in head:
            self._socket.close()
            self._open()
        return body


def client(kind: str, server: Server, seed: int, seconds: float, start: Any, told: Any) -> None:
    """Asks until the time is over, and tells the milliseconds of each request."""
    asked, line = list(requests(kind, server, seed)), Line(server.port)
    start.wait()
    times = []
    end = time.perf_counter() + seconds
    for request in itertools.cycle(asked):
        began = time.perf_counter()
        if began > end:
            break
        line.ask(request)
        times.append(1e3 * (time.perf_counter() - began))
    told.put((kind, times))


def measured(load: Load, server: Server, seconds: float) -> dict[str, Times]:
    """The times of searches and of posts under a load."""
    kinds = ["search"] * load.searching + ["post"] * load.posting
    start = multiprocessing.Barrier(len(kinds))
    told: multiprocessing.SimpleQueue[tuple[str, list[float]]] = multiprocessing.SimpleQueue()
    with ExitStack() as stack:
        for _ in range(load.idle):
            stack.enter_context(socket.create_connection(("127.0.0.1", server.port)))
        if load.idle:
            # A request that is answered comes after all of them were accepted.
            counts(server)
        processes = [
            multiprocessing.Process(target=client, args=(kind, server, 100 * len(kinds) + number, seconds, start, told))
            for number, kind in enumerate(kinds)
        ]
        for process in processes:
            process.start()
        found = [told.get() for _ in processes]
        for process in processes:
            process.join()
    return {kind: times_of([time for of, times in found if of == kind for time in times], seconds) for kind in set(kinds)}


def times_of(times: Sequence[float], seconds: float) -> Times:
    ordered = sorted(times)
    return Times(len(ordered) / seconds, ordered[len(ordered) // 2], ordered[len(ordered) * 99 // 100])


def counts(server: Server) -> list[int]:
    """How many documents some searches find."""
    line = Line(server.port)
    found = [json.loads(line.ask(request)) for request in itertools.islice(requests("search", server, 7), 100)]
    return [told["count"] if isinstance(told, dict) else told[1][0][0][0] for told in found]


# Tables


def table_of_loads(servers: Sequence[Server], count: int, seconds: float) -> None:
    wanted = counts(servers[0])
    for server in servers[1:]:
        assert counts(server) == wanted, f"{server.name} answers differently"
    print(f"{count:,} documents. Requests a second, and the milliseconds within which half and 99 % of them were answered. "
          "Groonga's answer to a post doesn't say that it is on disk.\n")
    print("||" + "|".join(f"{server.name}: a second|50 %, ms|99 %, ms" for server in servers) + "|")
    print("|---" * (1 + 3 * len(servers)) + "|")
    for load in LOADS:
        found = [measured(load, server, seconds) for server in servers]
        for kind in sorted(found[0], reverse=True):
            name = load.name if len(found[0]) == 1 else f"{kind}, 8 clients, beside 8 that {OTHER[kind]}"
            print(f"|{name}|" + "|".join(str(each[kind]) for each in found) + "|", flush=True)


def table_of_compactions(server: Server, seconds: float) -> None:
    """Searches alone, and while the journal is compacted again and again."""
    load, ends = Load("search, 4 clients", 4), threading.Event()
    alone = measured(load, server, seconds)["search"]

    def compact() -> None:
        with Client(f"http://127.0.0.1:{server.port}") as asked:
            while not ends.is_set():
                asked.compact()

    thread = threading.Thread(target=compact)
    thread.start()
    try:
        beside = measured(load, server, seconds)["search"]
    finally:
        ends.set()
        thread.join()
    print("\n||a second|50 %, ms|99 %, ms|\n|---|---|---|---|")
    print(f"|{load.name}|{alone}|\n|{load.name}, while the journal is compacted|{beside}|", flush=True)


def table_of_starts(folder: pathlib.Path, count: int) -> None:
    """The seconds of a start over many documents."""
    place = folder / "many"
    place.mkdir()
    (place / "schema.json").write_text((folder / "schema.json").read_text())
    with Store(FIELDS, place / "journal") as store:
        documents = corpus.documents(count)
        while some := list(itertools.islice(documents, 10_000)):
            with store.transaction() as transaction:
                for document in some:
                    transaction.add(document._asdict())
        store.compact()
    size, began = (place / "journal").stat().st_size, time.monotonic()
    with running(*ours(place)):
        took = time.monotonic() - began
    print(f"\nA start over {count:,} documents, a journal of {size >> 20:,} MB, takes {took:.1f} seconds.")


def main() -> None:
    made = argparse.ArgumentParser()
    made.add_argument("documents", type=int, nargs="?", default=100_000)
    made.add_argument("seconds", type=float, nargs="?", default=5)
    made.add_argument("--start", type=int, default=1_000_000)
    given = made.parse_args()
    soft, hard = resource.getrlimit(resource.RLIMIT_NOFILE)
    resource.setrlimit(resource.RLIMIT_NOFILE, (max(soft, min(hard, 3 * IDLE)), hard))
    with tempfile.TemporaryDirectory(dir=os.environ.get("TMPDIR")) as name:
        folder = pathlib.Path(name)
        filled(folder, given.documents)
        with all_served(folder) as servers:
            for server in servers:
                measured(Load("", 4), server, 1)
            table_of_loads(servers, given.documents, given.seconds)
            table_of_compactions(servers[0], given.seconds)
        if given.start:
            table_of_starts(folder, given.start)


if __name__ == "__main__":
    main()
