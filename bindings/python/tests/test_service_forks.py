"""Processes that have a store and fork: by themselves, for a pool of processes, and under a server that forks."""
from __future__ import annotations

import multiprocessing
import os
import pathlib
import shutil
import signal
import socket
import subprocess
import threading
import time
import unittest
from collections.abc import Callable
from typing import Any

import dilforec
from dilforec.service import Snapshot, Stopped, Store
from service_tools import FIELDS, HERE, Stored, child


def descriptors(path: str | pathlib.Path) -> list[str]:
    """The descriptors of this process that are of files whose names begin so."""
    found = []
    for name in os.listdir("/proc/self/fd"):
        try:
            found += [name] if os.readlink(f"/proc/self/fd/{name}").startswith(str(path)) else []
        except FileNotFoundError:
            pass
    return found


def is_left(store: Store, path: str | pathlib.Path) -> bool:
    """Whether a store is closed here, in a child, and has nothing of the file."""
    calls: tuple[Callable[[], object], ...] = (
        lambda: store.add({}), lambda: store.search("*"), lambda: store.delete(1), store.compact, store.snapshot,
    )
    for call in calls:
        try:
            call()
            return False
        except Stopped as error:
            if "fork" not in str(error):
                return False
    store.close()
    return not store.writable and not descriptors(path)


def count(snapshot: Snapshot, counts: Any) -> None:
    signal.alarm(20)
    counts.put(snapshot.search("rust").count)


class Forks(Stored):
    def forked(self, call: Callable[[], object]) -> int:
        """A child's number that makes a call. Its status is 0 if that returns true; an alarm ends it after 20 s."""
        pid = os.fork()
        if pid == 0:
            signal.alarm(20)
            status = 2
            try:
                status = 0 if call() else 1
            finally:
                os._exit(status)
        return pid

    def status(self, pid: int) -> int:
        """A child's status. One that hangs before it has set its alarm is aborted after 30 s, so that it tells where."""
        until = time.monotonic() + 30
        while (told := os.waitpid(pid, os.WNOHANG)) == (0, 0):
            if time.monotonic() > until:
                os.kill(pid, signal.SIGABRT)
                return os.waitpid(pid, 0)[1]
            time.sleep(0.002)
        return told[1]

    def test_both_write(self) -> None:
        """A child can't write, and what its parent writes is there after a restart."""
        store = self.opened()
        store.add({"title": "before"})
        pid = self.forked(lambda: is_left(store, self.journal))
        self.assertEqual(self.status(pid), 0)
        self.assertEqual((store.add({"title": "after"}), store.writable), (2, True))
        there = self.all(store)
        store.close()
        self.assertEqual(self.all(self.opened()), there)

    def test_the_lock_goes(self) -> None:
        """A child that lives longer than the parent's store doesn't keep the journal locked."""
        store = self.opened()
        store.add({})
        reader, writer = os.pipe()

        def closed() -> bool:
            os.close(writer)
            return os.read(reader, 1) == b""

        pid = self.forked(closed)
        os.close(reader)
        try:
            store.close()
            self.assertEqual(len(self.opened()), 1)
        finally:
            os.close(writer)
            self.assertEqual(self.status(pid), 0)

    def test_under_load(self) -> None:
        """Forks while threads write, search and compact: each child is apart, and no answered change is lost."""
        store, ended = self.opened(), threading.Event()
        added: dict[int, dict[str, Any]] = {}

        def write(writer: int) -> None:
            while not ended.is_set():
                title = f"w{writer} n{len(added)}"
                added[store.add({"title": title})] = {"title": title}

        def compact() -> None:
            while not ended.is_set():
                store.compact()

        threads = [threading.Thread(target=write, args=(writer,), daemon=True) for writer in range(3)]
        threads.append(threading.Thread(target=compact, daemon=True))
        for thread in threads:
            thread.start()
        ends = []
        try:
            for _ in range(20):
                time.sleep(0.01)
                ends.append(self.status(self.forked(lambda: is_left(store, self.journal))))
        finally:
            ended.set()
            for thread in threads:
                thread.join(60)
        self.assertEqual((ends, [thread for thread in threads if thread.is_alive()]), ([0] * 20, []))
        store.close()
        self.assertEqual(self.all(self.opened()), added)

    def add_in_both(self, store: Store, ends: list[int]) -> None:
        """Has a call add a document in the middle of which a child is forked, whose number `ends` gets.

        The parent's is done, and the child's isn't. No wait hangs: an alarm ends the child after 20 s.
        """
        main, status = os.getpid(), 2
        try:
            status = 0 if store.add({"title": "parent"}) == 1 else 1
        except Stopped:
            status = 7
        finally:
            if os.getpid() != main:
                os._exit(status)
        self.assertEqual((status, os.waitstatus_to_exitcode(self.status(ends[0]))), (0, 7))
        self.assertEqual(self.all(store), {1: {"title": "parent"}})

    def fork_in_a_call(self, ends: list[int]) -> None:
        ends.append(os.fork())
        if ends[0] == 0:
            signal.alarm(20)

    def test_in_a_handler(self) -> None:
        """A child of a fork in the middle of a wait isn't left waiting; the parent's change is done."""
        store = self.opened()
        slow = store._journal.disk.sync
        begun: list[bool] = []
        ends: list[int] = []
        main = os.getpid()

        def handle(*_: object) -> None:
            # One is enough: where a fork takes longer than the time between signals, each would begin within the last.
            if not begun:
                begun.append(True)
                self.fork_in_a_call(ends)

        def sync(fd: int) -> None:
            # A signal that comes just before the wait begins is handled after it, so it is sent again.
            end = time.monotonic() + 20
            while not ends and time.monotonic() < end:
                if not begun:
                    os.kill(main, signal.SIGUSR1)
                time.sleep(0.01)
            slow(fd)

        before = signal.signal(signal.SIGUSR1, handle)
        try:
            self.put(store._journal.disk, "sync", sync)
            self.add_in_both(store, ends)
        finally:
            signal.signal(signal.SIGUSR1, before)

    def test_before_a_wait(self) -> None:
        """A child of a fork between a change's handing in and the wait for it isn't left waiting either."""
        store = self.opened()
        slow, hand_in = store._journal.disk.sync, store._worker._hand_in
        ends: list[int] = []

        def handed_in(jobs: Any) -> None:
            hand_in(jobs)
            if not ends:
                self.fork_in_a_call(ends)

        def sync(fd: int) -> None:
            end = time.monotonic() + 20
            while not ends and time.monotonic() < end:
                time.sleep(0.001)
            slow(fd)

        self.put(store._journal.disk, "sync", sync)
        self.put(store._worker, "_hand_in", handed_in)
        self.add_in_both(store, ends)

    def test_within_a_fork(self) -> None:
        """A signal handler may fork in the middle of a fork: no lock that a fork takes is in its way."""
        program = child(WITHIN, self.journal)
        told = program.communicate(timeout=300)[0]
        self.assertEqual((program.returncode, told), (0, b"[0, 0] 2\n"))

    def test_readers(self) -> None:
        """Processes of multiprocessing search a snapshot that was taken before they were forked."""
        store = self.opened()
        for _ in range(5):
            store.add({"title": "rust"})
        kind = multiprocessing.get_context("fork")
        with store.snapshot() as snapshot:
            counts = kind.Queue()
            readers = [kind.Process(target=count, args=(snapshot, counts), daemon=True) for _ in range(3)]
            for reader in readers:
                reader.start()
                self.addCleanup(reader.kill)
            store.add({"title": "rust"})
            self.assertEqual([counts.get(timeout=20) for _ in readers], [5, 5, 5])
            for reader in readers:
                reader.join(20)
        self.assertEqual([reader.exitcode for reader in readers], [0, 0, 0])
        absolute: Callable[[int], int] = abs
        with kind.Pool(2) as pool:
            self.assertEqual(pool.map_async(absolute, [-1, 2]).get(20), [1, 2])
        self.assertEqual(len(store), 6)


# The hook is called while the fork has all locks but those of the modules that are imported before it.
WITHIN = """
import os, signal, sys

begun, inner = [], []

def handle(*_):
    inner.append(os.fork())
    if inner[0] == 0:
        os._exit(0)

def hook():
    if not begun:
        begun.append(True)
        signal.raise_signal(signal.SIGUSR1)

signal.signal(signal.SIGUSR1, handle)
os.register_at_fork(before=hook)

from dilforec.service import Store
from service_tools import FIELDS

with Store(FIELDS, sys.argv[1]) as store:
    store.add({})
    signal.alarm(20)
    outer = os.fork()
    if outer == 0:
        os._exit(0)
    print([os.waitpid(pid, 0)[1] for pid in (outer, *inner)], store.add({}))
"""


PRELOADED = """
import os
from dilforec.service import Stopped, Store
from service_tools import FIELDS

store = Store(FIELDS, os.environ["JOURNAL"])
store.add({"title": "before"})

def application(environ, start_response):
    try:
        store.add({"title": "from a worker"})
        status = "201 Created"
    except Stopped:
        status = "503 Service Unavailable"
    start_response(status, [("Content-Length", "0")])
    return [b""]
"""


@unittest.skipUnless(shutil.which("gunicorn"), "gunicorn isn't there")
class Gunicorn(Stored):
    def test_preload(self) -> None:
        """Workers that a server forks after it has loaded the application can't write, and damage nothing."""
        (self.folder / "preloaded.py").write_text(PRELOADED)
        with socket.socket() as bound:
            bound.bind(("127.0.0.1", 0))
            port = bound.getsockname()[1]
        paths = [str(self.folder), str(HERE), os.environ.get("PYTHONPATH", "")]
        gunicorn = shutil.which("gunicorn")
        assert gunicorn
        server = subprocess.Popen(
            [gunicorn, "--preload", "--workers", "2", "--graceful-timeout", "2",
             "--bind", f"127.0.0.1:{port}", "preloaded:application"],
            env={**os.environ, "PYTHONPATH": os.pathsep.join(paths), "JOURNAL": str(self.journal)},
            stdout=subprocess.DEVNULL, stderr=subprocess.DEVNULL,
        )
        try:
            statuses = [self.ask(port) for _ in range(8)]
        finally:
            server.send_signal(signal.SIGTERM)
            try:
                server.wait(30)
            finally:
                server.kill()
        self.assertEqual(set(statuses), {b"503"})
        self.assertEqual(self.all(self.opened()), {1: {"title": "before"}})

    def ask(self, port: int) -> bytes:
        until = time.monotonic() + 20
        while True:
            try:
                with socket.create_connection(("127.0.0.1", port), timeout=5) as asked:
                    asked.sendall(b"POST / HTTP/1.0\r\n\r\n")
                    return asked.recv(1000).split()[1]
            except (ConnectionError, IndexError):
                if time.monotonic() > until:
                    raise
                time.sleep(0.1)


if __name__ == "__main__":
    unittest.main()
