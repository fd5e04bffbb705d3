"""Forks, pools, signals and threads with small stacks."""
from __future__ import annotations

import concurrent.futures
import multiprocessing
import os
import signal
import threading
import time
import unittest
from collections.abc import Callable

import dilforec
from dilforec import memory

FIELDS = (dilforec.text("title", default=True), dilforec.u64("year"))


def search_badly(_: object) -> int:
    with dilforec.Index(*FIELDS) as index:
        return index.search("rust OR").count


class Pools(unittest.TestCase):
    def test_a_refusal_crosses(self) -> None:
        """A worker's refusal comes to the parent as it was, and the pool goes on."""
        kinds = multiprocessing.get_context("spawn")
        with concurrent.futures.ProcessPoolExecutor(1, mp_context=kinds) as pool:
            for _ in range(2):
                with self.assertRaises(dilforec.Syntax) as raised:
                    pool.submit(search_badly, 0).result(timeout=60)
                self.assertEqual(raised.exception.at, len("rust "))
                self.assertIn("can't be read from 'OR' on", str(raised.exception))
        with kinds.Pool(1) as pool:
            for _ in range(2):
                with self.assertRaises(dilforec.Syntax):
                    pool.apply_async(search_badly, (0,)).get(timeout=60)


class Forks(unittest.TestCase):
    @unittest.skipUnless(hasattr(os, "fork"), "needs fork")
    def test_forks_under_load(self) -> None:
        """A child of a fork in the middle of other threads' calls has an index and searchers that work."""
        stop = threading.Event()

        def work(index: dilforec.Index, searcher: dilforec.Searcher) -> None:
            while not stop.is_set():
                index.add_many({"title": "rust", "year": year} for year in range(50))
                index.commit()
                searcher.search("rust", groups="year")
                with index.searcher() as other:
                    other.search("rust")

        with dilforec.Index(*FIELDS) as index:
            index.add({"title": "rust"})
            index.commit()
            searcher = index.searcher()
            threads = [threading.Thread(target=work, args=(index, searcher)) for _ in range(3)]
            for thread in threads:
                thread.start()
            ended = [self.child(index, searcher) for _ in range(10)]
            stop.set()
            for thread in threads:
                thread.join()
        self.assertEqual(ended, [0] * 10)

    @staticmethod
    def child(index: dilforec.Index, searcher: dilforec.Searcher) -> int:
        """The status of a child that uses both. It is killed after ten seconds, by its alarm."""
        time.sleep(0.02)
        pid = os.fork()
        if pid == 0:
            signal.alarm(10)
            before = len(index)
            index.add({"title": "child"})
            index.commit()
            os._exit(not (index.search("child").count == 1 and len(index) >= before and len(searcher) == 1))
        return os.waitpid(pid, 0)[1]

    @unittest.skipUnless(hasattr(os, "fork"), "needs fork")
    def test_fork_while_a_merge_runs(self) -> None:
        """A fork doesn't wait for a merge; the child has the index without what it makes."""
        with dilforec.Index(*FIELDS) as index:
            index.limit_merges(0)
            for _ in range(8):
                index.add_many({"title": "rust"} for _ in range(1000))
                index.commit()
            begun = index.begin_merge()
            assert begun
            with begun as merge:
                thread = threading.Thread(target=merge.run)
                thread.start()
                pid = os.fork()
                if pid == 0:
                    is_right = not index.end_merge() or index.stats().segments == 1
                    os._exit(0 if is_right and index.search("rust").count == 8000 else 1)
                self.assertEqual(os.waitpid(pid, 0)[1], 0)
                thread.join()
                self.assertTrue(index.end_merge())

    def test_fork_in_a_handler(self) -> None:
        """A fork in a signal handler that interrupted a call doesn't wait for it."""
        children = []

        def handle(*_: object) -> None:
            # One is enough: where a fork takes longer than the timer, each would begin within the one before.
            signal.setitimer(signal.ITIMER_REAL, 0)
            pid = os.fork()
            if pid == 0:
                os._exit(0)
            children.append(pid)

        with dilforec.Index(*FIELDS) as index:
            interrupted(index, handle, lambda: children)
        self.assertEqual(os.waitpid(children[0], 0)[1], 0)


def interrupted(index: dilforec.Index, handle: Callable[..., None], done: Callable[[], object]) -> None:
    """Calls an index until a signal that comes meanwhile was handled in the middle of a call, or for ten seconds."""
    before = signal.signal(signal.SIGALRM, handle)
    signal.setitimer(signal.ITIMER_REAL, 0.001, 0.001)
    try:
        until = time.monotonic() + 10
        while not done() and time.monotonic() < until:
            index.add({"title": "rust " * 200})
    finally:
        signal.setitimer(signal.ITIMER_REAL, 0)
        signal.signal(signal.SIGALRM, before)


class Signals(unittest.TestCase):
    def test_a_handler_in_a_call(self) -> None:
        """A handler of a signal that came within a call gets an error that says so, and the call ends as ever."""
        told: list[str] = []
        calls = [0]

        def handle(*_: object) -> None:
            calls[0] += 1
            try:
                index.search("rust")
            except dilforec.Busy as busy:
                told.append(str(busy))

        with dilforec.Index(*FIELDS) as index:
            interrupted(index, handle, lambda: told)
            self.assertIn("in the middle of a call", told[0])
            stamp = index.commit()
            self.assertEqual(len(index), stamp - 1)


class Stacks(unittest.TestCase):
    def test_a_small_stack(self) -> None:
        """A call needs at most 512 KiB, and Python a little: a thread of 1 MiB takes the deepest query."""
        found = []

        def look() -> None:
            with dilforec.Index(*FIELDS) as index:
                found.append(index.search("(" * 32 + "rust" + ")" * 32).count)

        before = threading.stack_size(1 << 20)
        try:
            thread = threading.Thread(target=look)
            thread.start()
            thread.join()
        finally:
            threading.stack_size(before)
        self.assertEqual(found, [0])


class Memory(unittest.TestCase):
    def resident(self) -> int:
        with open("/proc/self/statm") as file:
            return int(file.read().split()[1]) * os.sysconf("SC_PAGE_SIZE")

    def test_trim(self) -> None:
        """What an index took goes back to the system, once it is closed."""
        with dilforec.Index(*FIELDS) as index:
            for block in range(200):
                index.add_many({"title": f"rust {block} {year}", "year": year} for year in range(100))
                index.commit()
        before = self.resident()
        memory.trim()
        self.assertLess(self.resident(), before - (1 << 20))


if __name__ == "__main__":
    unittest.main()
