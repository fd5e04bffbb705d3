"""What the tests of the service share: a schema, disks that fail, processes that are killed."""
from __future__ import annotations

import http.client
import importlib.util
import json
import logging
import os
import pathlib
import re
import signal
import socket
import subprocess
import sys
import tempfile
import time
import unittest
from collections.abc import Callable, Mapping, Sequence
from typing import Any, Optional
from unittest import mock

import dilforec
from dilforec.service import Store
from dilforec.service._disk import Disk

FIELDS = [dilforec.text("title", default=True), dilforec.keyword("shelf"), dilforec.u64("year")]
# Faults are asked for here, and their lines of the log aren't looked at.
logging.getLogger("dilforec.service").addHandler(logging.NullHandler())
logging.getLogger("dilforec.service").propagate = False
HERE = pathlib.Path(__file__).resolve().parent

# What a service has that is tried over HTTP.
SCHEMA: list[dict[str, Any]] = [
    {"name": "title", "kind": "text", "default": True}, {"name": "day", "kind": "keyword"},
    {"name": "year", "kind": "u64"},
]

# The command over a disk whose syncs take half a second.
SLOWLY = """
import sys, time
from dilforec.service import _command, _disk
sync = _disk._sync
_disk._sync = lambda fd: (time.sleep(0.5), sync(fd))
sys.exit(_command.main(sys.argv[1:]))
"""


class Failing(Disk):
    """A disk whose calls of a name fail, as many as `fails` says of it, after as many as `after` says."""

    def __init__(self, error: OSError = OSError(5, "Input/output error")) -> None:
        self.error = error
        self.fails: dict[str, int] = {}
        self.after: dict[str, int] = {}
        self.calls: list[str] = []

    def _call(self, name: str, *given: Any) -> None:
        self.calls.append(name)
        if self.after.get(name, 0) > 0:
            self.after[name] -= 1
        elif self.fails.get(name, 0) > 0:
            self.fails[name] -= 1
            if name == "write":
                # A part of it is there.
                super().write(given[0], given[1][: len(given[1]) // 2], given[2])
            raise self.error
        getattr(super(), name)(*given)

    def write(self, fd: int, data: bytes, at: int) -> None:
        self._call("write", fd, data, at)

    def cut(self, fd: int, size: int) -> None:
        self._call("cut", fd, size)

    def sync(self, fd: int) -> None:
        self._call("sync", fd)

    def rename(self, old: str, new: str) -> None:
        self._call("rename", old, new)

    def sync_folder(self, folder: str) -> None:
        self._call("sync_folder", folder)


class Killing(Failing):
    """A disk that ends the process before the nth call from now on, or in the middle of it, if it is a write."""

    left: Optional[int] = None

    def _call(self, name: str, *given: Any) -> None:
        if self.left is not None:
            self.left -= 1
            if self.left < 0:
                if name == "write":
                    Disk.write(self, given[0], given[1][: len(given[1]) // 2], given[2])
                os.kill(os.getpid(), signal.SIGKILL)
        getattr(Disk, name)(self, *given)


class Stored(unittest.TestCase):
    """A test with a folder of its own, and a journal in it."""

    def setUp(self) -> None:
        folder = tempfile.TemporaryDirectory()
        self.addCleanup(folder.cleanup)
        self.folder = pathlib.Path(folder.name)
        self.journal = self.folder / "journal"

    def opened(self, **more: Any) -> Store:
        store = Store(FIELDS, self.journal, **more)
        self.addCleanup(store.close)
        return store

    def put(self, target: object, name: str, call: Callable[..., object]) -> None:
        """Puts a call in the place of a method, until the test ends."""
        patch = mock.patch.object(target, name, call)
        patch.start()
        self.addCleanup(patch.stop)

    def all(self, store: Store) -> dict[int, dict[str, Any]]:
        """All documents, by their numbers."""
        all: dict[int, dict[str, Any]] = {}
        last = 0
        while page := store.documents(last, 10_000):
            last = page[-1]["id"]
            all.update((document.pop("id"), document) for document in page)
        return all


def child(code: str, *words: object, **more: Any) -> subprocess.Popen[bytes]:
    """A process of Python that runs a text, with this folder's modules."""
    environment = {**os.environ, "PYTHONPATH": os.pathsep.join([str(HERE), os.environ.get("PYTHONPATH", "")])}
    command = [sys.executable, "-c", code, *map(str, words)]
    return subprocess.Popen(command, stdout=subprocess.PIPE, env=environment, **more)


def need_uvicorn() -> None:
    """Skips a test that serves, without uvicorn."""
    if any(importlib.util.find_spec(name) is None for name in ("uvicorn", "httptools")):
        raise unittest.SkipTest("uvicorn or httptools isn't there")


def free_port() -> int:
    """A port that is free now."""
    with socket.create_server(("127.0.0.1", 0)) as sock:
        port: int = sock.getsockname()[1]
        return port


class Server:
    """A service in a process of its own, at a port that is free."""

    def __init__(
        self, *words: object, program: Sequence[str] = ("-m", "dilforec"), waits: bool = True,
        environment: Mapping[str, str] | None = None,
    ) -> None:
        """Starts it, and waits until it is ready, or only until it listens."""
        self.log, port = tempfile.TemporaryFile(), 0 if waits else free_port()
        self.process = subprocess.Popen(
            [sys.executable, *program, "serve", "--listen", f"127.0.0.1:{port}", *map(str, words)],
            stdout=subprocess.PIPE, stderr=self.log, env={**os.environ, **(environment or {})},
        )
        if not waits:
            self.port = port
            self.await_port()
            return
        assert self.process.stdout
        self.ready = self.process.stdout.readline().decode()
        found = re.search(r":([0-9]+)/", self.ready)
        if not found:
            self.stop(signal.SIGKILL)
            raise AssertionError(f"the service didn't begin: {self.said()}")
        self.port = int(found[1])

    def await_port(self) -> None:
        for _ in range(200):
            try:
                return socket.create_connection(("127.0.0.1", self.port)).close()
            except ConnectionRefusedError:
                time.sleep(0.05)
        raise AssertionError(f"the service doesn't listen: {self.said()}")

    def __enter__(self) -> Server:
        return self

    def __exit__(self, *_: object) -> None:
        self.stop(signal.SIGTERM)
        self.log.close()

    def said(self) -> str:
        # The service writes at the file's place, so that stays where it is.
        return os.pread(self.log.fileno(), os.fstat(self.log.fileno()).st_size, 0).decode()

    def seconds(self) -> float:
        """How many seconds of processors it took so far."""
        with open(f"/proc/{self.process.pid}/stat") as file:
            return sum(map(int, file.read().rpartition(")")[2].split()[11:13])) / os.sysconf("SC_CLK_TCK")

    def memory(self) -> list[int]:
        """The bytes of memory that it has, and the most that it had since the last call."""
        with open(f"/proc/{self.process.pid}/status") as file:
            told = file.read()
        with open(f"/proc/{self.process.pid}/clear_refs", "w") as file:
            file.write("5")
        found = (re.search(rf"{name}:\s*([0-9]+) kB", told) for name in ("VmRSS", "VmHWM"))
        return [1024 * int(each[1]) for each in found if each]

    def stop(self, number: int) -> int:
        self.process.send_signal(number)
        status = self.process.wait(30)
        if self.process.stdout:
            self.process.stdout.close()
        return status

    def connect(self) -> http.client.HTTPConnection:
        return http.client.HTTPConnection("127.0.0.1", self.port, timeout=30)

    def ask(self, method: str, path: str, body: object = None, **headers: str) -> tuple[int, Any]:
        """The status, and the answer, read if it is JSON."""
        connection = self.connect()
        try:
            given = {name.replace("_", "-"): value for name, value in headers.items()}
            if body is not None and not isinstance(body, (bytes, str)):
                body = json.dumps(body)
            if method != "GET" and "Content-Type" not in given and method != "DELETE":
                given["Content-Type"] = "application/json"
            connection.request(method, path, body, given)
            response = connection.getresponse()
            told = response.read()
            is_json = response.headers.get("Content-Type", "").startswith("application/json")
            self.headers = response.headers
            return response.status, json.loads(told) if is_json and told else told.decode()
        finally:
            connection.close()


class Served(Stored):
    def setUp(self) -> None:
        need_uvicorn()
        super().setUp()
        self.schema = self.folder / "schema.json"
        self.schema.write_text(json.dumps(SCHEMA))

    def serve(
        self, *words: object, journal: pathlib.Path | None = None, slow_syncs: bool = False, **more: Any,
    ) -> Server:
        if slow_syncs:
            more["program"] = ("-c", SLOWLY)
        server = Server("--schema", self.schema, "--journal", journal or self.journal, *words, **more)
        self.addCleanup(server.__exit__)
        return server

    def refused(self, *words: object, **more: Any) -> str:
        """What the command says if it can't begin."""
        command = [sys.executable, "-m", "dilforec", *map(str, words)]
        done: subprocess.CompletedProcess[str] = subprocess.run(
            command, capture_output=True, text=True, timeout=60, **more)
        self.assertEqual(done.returncode, 2, done.stderr)
        return done.stderr
