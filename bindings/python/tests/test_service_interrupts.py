"""Interrupts, at each line that a caller runs of the service, and by Ctrl-C; and what a worker does with jobs."""
from __future__ import annotations

import functools
import gc
import pathlib
import random
import signal
import subprocess
import sys
import threading
import time
import unittest
import weakref
from collections.abc import Callable, Iterator
from types import FrameType
from typing import Any, Optional
from unittest import mock

import dilforec
from dilforec.service import Busy, Stopped, Store
from dilforec.service._worker import Job, Worker
from service_tools import FIELDS, Stored, child

# A function that sys.settrace takes.
Trace = Callable[[FrameType, str, Any], Optional[Callable[..., Any]]]

SERVICE = str(pathlib.Path(dilforec.__file__).parent / "service")


class Interrupted:
    """Raises KeyboardInterrupt in this thread, before the nth line of the service that it comes to."""

    def __init__(self, after: int) -> None:
        self.left = after

    def __enter__(self) -> Interrupted:
        sys.settrace(self.called)
        return self

    def __exit__(self, kind: type[BaseException] | None, *_: object) -> bool:
        sys.settrace(None)
        self.interrupted = kind is KeyboardInterrupt
        return self.interrupted

    def called(self, frame: FrameType, event: str, _: object) -> Trace | None:
        return self.line if frame.f_code.co_filename.startswith(SERVICE) else None

    def line(self, frame: FrameType, event: str, _: object) -> Trace:
        if event == "line":
            self.left -= 1
            if self.left == 0:
                sys.settrace(None)
                raise KeyboardInterrupt
        return self.line


class EachLine(Stored):
    def interrupt_each(self, call: Callable[[], object], look: Callable[[], object]) -> int:
        """Interrupts a call before each of its lines, and looks at what is left. Returns how many lines that were."""
        after, is_over = 0, False
        while not is_over:
            after += 1
            with self.subTest(after=after):
                with Interrupted(after) as interrupted:
                    call()
                is_over = not interrupted.interrupted
                self.in_time(look)
        return after - 1

    def in_time(self, call: Callable[[], object]) -> None:
        """Makes a call in another thread, which has to return soon."""
        raised = []

        def called() -> None:
            try:
                call()
            except BaseException as error:
                raised.append(error)

        thread = threading.Thread(target=called, daemon=True)
        thread.start()
        thread.join(20)
        self.assertFalse(thread.is_alive(), "it hangs")
        if raised:
            raise raised[0]

    def test_changes(self) -> None:
        """Whatever line a caller is interrupted at, its change is done whole or not at all, and others are done."""
        store = self.opened()

        def call() -> None:
            with store.transaction() as transaction:
                transaction.add({"title": "pair one"})
                transaction.add({"title": "pair two"})

        def look() -> None:
            store.delete(store.add({"title": "other"}))
            one, two = (store.search(f'"pair {word}"').count for word in ("one", "two"))
            self.assertEqual(one, two)

        self.assertGreater(self.interrupt_each(call, look), 20)
        there = self.all(store)
        self.in_time(store.close)
        self.assertEqual(self.all(self.opened()), there)

    def test_searches(self) -> None:
        store = self.opened()
        store.add({"title": "rust"})

        def look() -> None:
            self.assertEqual((store.search("rust").count, store.replace(1, {"title": "rust"}).ids), (1, (1,)))

        self.assertGreater(self.interrupt_each(lambda: store.search("rust", groups=["shelf"]), look), 20)

    def test_compactions(self) -> None:
        """An interrupted compaction is given up or done, and the next one is done."""
        store = self.opened()
        for year in range(50):
            store.add({"title": "rust", "year": year})

        def look() -> None:
            until = time.monotonic() + 20
            while True:
                try:
                    store.compact()
                    break
                except Busy:
                    self.assertLess(time.monotonic(), until)
            store.replace(1, {"title": "rust"})
            self.assertEqual([path.name for path in self.folder.iterdir()], ["journal"])

        self.assertGreater(self.interrupt_each(store.compact, look), 5)
        store.close()
        self.assertEqual(len(self.opened()), 50)

    def test_closing(self) -> None:
        """A store whose closing is interrupted is closed by another call, and its journal is free then."""
        stores = [self.opened()]
        stores[0].add({"title": "rust"})

        def look() -> None:
            stores[0].close()
            stores[0] = Store(FIELDS, self.journal)
            self.assertEqual(len(stores[0]), 1)

        self.assertGreater(self.interrupt_each(lambda: stores[0].close(), look), 5)
        stores[0].close()


class CtrlC(Stored):
    def test_programs(self) -> None:
        """A program that adds in a loop ends soon after Ctrl-C."""
        code = """if True:
            import signal, sys, service_tools
            from dilforec.service import Store
            # A shell has what it starts in the background ignore it.
            signal.signal(signal.SIGINT, signal.default_int_handler)
            try:
                with Store(service_tools.FIELDS, sys.argv[1]) as store:
                    print("begun", flush=True)
                    while True:
                        store.add({"title": "rust"})
            except KeyboardInterrupt:
                pass
        """
        chance = random.Random(79)
        for _ in range(12):
            process = child("import faulthandler; faulthandler.enable()\n" + code, self.journal, stderr=subprocess.PIPE)
            assert process.stdout
            self.assertEqual(process.stdout.readline(), b"begun\n")
            time.sleep(chance.uniform(0.01, 0.06))
            process.send_signal(signal.SIGINT)
            self.assertEqual(self.ended(process), (0, ""))
        self.assertGreater(len(self.opened()), 0)

    def ended(self, process: subprocess.Popen[bytes]) -> tuple[int, str]:
        """The status of a program and what it says of errors. If it doesn't end, that is where its threads are."""
        try:
            said = process.communicate(timeout=60)[1]
        except subprocess.TimeoutExpired:
            process.send_signal(signal.SIGABRT)
            said = process.communicate()[1]
        return process.returncode, said.decode()


class Workers(unittest.TestCase):
    def worker(self, work: Callable[[Iterator[Task]], int]) -> Worker[Task]:
        """A worker of tasks, which is ended after the test."""
        made = Worker("test", work)
        self.addCleanup(made.wait_for_end)
        self.addCleanup(made.call, lambda: made.end("over"))
        return made

    @staticmethod
    def one(waiting: Iterator[Task]) -> int:
        next(waiting).run()
        return 1

    def test_order(self) -> None:
        """Threads that hand in several jobs at a time get all of them done, in their order, however many are taken."""
        chance = random.Random(1)
        done: list[tuple[int, int]] = []
        early: list[int] = []

        def work(waiting: Iterator[Task]) -> int:
            time.sleep(0.0005)
            taken = list(waiting)[: chance.randint(1, 5)]
            for task in taken:
                task.run()
            return len(taken)

        def call(number: int) -> None:
            jobs = [(number, place) for place in range(number % 7)]
            worker.do(*[Task(functools.partial(done.append, job)) for job in jobs])
            if [job for job in done if job[0] == number] != jobs:
                early.append(number)

        worker = self.worker(work)
        threads = [threading.Thread(target=call, args=(number,)) for number in range(60)]
        for thread in threads:
            thread.start()
        for thread in threads:
            thread.join()
        self.assertEqual((early, len(done)), ([], sum(number % 7 for number in range(60))))

    def test_without_waiting(self) -> None:
        """After what was handed in without a wait a call is made once, also if it came too late."""
        worker, over = Worker("test", self.one), threading.Event()
        done: list[str] = []

        def end() -> None:
            done.append("then")
            over.set()

        tasks = [Task(lambda: done.append("done")) for _ in range(3)]
        worker.submit(*tasks, then=end)
        self.assertTrue(over.wait(20))
        self.assertEqual((done, [task.is_done for task in tasks]), (["done"] * 3 + ["then"], [True] * 3))
        worker.submit(then=lambda: done.append("none"))
        worker.call(lambda: worker.end("over"))
        worker.wait_for_end()
        late = Task(lambda: done.append("late"))
        worker.submit(late, then=lambda: done.append("refused"))
        self.assertEqual((done[4:], type(late.error)), (["none", "refused"], Stopped))
        self.assertRaises(Stopped, worker.call, lambda: done.append("late"))

    def test_then_fails(self) -> None:
        """If the call after a job fails, that is logged, and the next jobs are done."""
        def divide() -> None:
            raise ZeroDivisionError

        worker = self.worker(self.one)
        with self.assertLogs("dilforec.service", "ERROR"):
            worker.submit(Task(lambda: None), then=divide)
            worker.call(lambda: None)
        worker.call(lambda: None)

    def test_withdrawn(self) -> None:
        """What nobody waits for any more isn't begun."""
        began, go = threading.Event(), threading.Event()
        done: list[int] = []

        def wait() -> None:
            began.set()
            go.wait(20)

        worker = self.worker(self.one)
        worker.submit(Task(wait))
        self.assertTrue(began.wait(20))
        task = Task(lambda: done.append(1))
        with mock.patch.object(task, "wait", side_effect=KeyboardInterrupt), self.assertRaises(KeyboardInterrupt):
            worker.do(task)
        go.set()
        worker.call(lambda: done.append(2))
        self.assertEqual((done, task.is_done), ([2], True))

    def test_failing(self) -> None:
        """A job that fails as nobody thought of has that error, and the next ones are done."""
        worker, task = self.worker(self.one), Task(lambda: 1 // 0)
        with self.assertLogs("dilforec.service", "ERROR"):
            worker.do(task)
        self.assertIsInstance(task.error, ZeroDivisionError)
        self.assertRaises(ZeroDivisionError, worker.call, lambda: 1 // 0)
        task = Task(lambda: None)
        worker.do(task)
        self.assertIsNone(task.error)


class Task(Job):
    """A job that is a call."""

    def __init__(self, run: Callable[[], object]) -> None:
        super().__init__()
        self.run = run


class Merge:
    """A merge without anything to do."""

    def __enter__(self) -> Merge:
        return self

    def __exit__(self, *_: object) -> None:
        pass

    def run(self) -> None:
        pass


class Ends(Stored):
    def threads(self) -> list[str]:
        return [thread.name for thread in threading.enumerate() if thread.name.startswith("dilforec")]

    def test_all_ends(self) -> None:
        """A store that is closed has no thread any more, and is collected, though it began merges, and ended some."""
        stores = []
        for number in range(6):
            with mock.patch.object(dilforec.Index, "begin_merge", side_effect=[Merge()] + [None] * 50) as begun:
                store = Store(FIELDS, self.folder / str(number))
                store.add({})
                until = time.monotonic() + 20
                # Every other time, its thread waits for the next merge by then.
                while number % 2 and begun.call_count < 2 and time.monotonic() < until:
                    time.sleep(0.001)
                store.close()
                stores.append(weakref.ref(store))
                del store
        until = time.monotonic() + 20
        while self.threads() and time.monotonic() < until:
            time.sleep(0.01)
        gc.collect()
        self.assertEqual((self.threads(), [store() for store in stores]), ([], [None] * 6))

    def test_an_interpreter_that_ends(self) -> None:
        """A store that is closed when the interpreter has stopped its threads keeps nobody waiting."""
        code = """if True:
            import sys, service_tools
            from dilforec.service import Store

            class Owner:
                def __init__(self):
                    self.store = Store(service_tools.FIELDS, sys.argv[1])
                    self.store.add({"title": "rust"})

                def __del__(self):
                    self.store.close()
                    print("closed", flush=True)

            owner = Owner()
        """
        process = child(code, self.journal)
        try:
            self.assertEqual((process.communicate(timeout=20)[0], process.returncode), (b"closed\n", 0))
        finally:
            process.kill()
        self.assertEqual(len(self.opened()), 1)

    def test_a_merge_that_fails(self) -> None:
        """Whatever a merge raises is logged, and merges go on."""
        store = self.opened()
        for name in "begin_merge", "end_merge":
            with self.subTest(name), mock.patch.object(dilforec.Index, "begin_merge", side_effect=Merge), \
                    mock.patch.object(dilforec.Index, name, side_effect=RuntimeError("code 9")), \
                    self.assertLogs("dilforec.service", "WARNING") as logged:
                store.add({})
                until = time.monotonic() + 20
                while (store._merger._is_under_way or not logged.output) and time.monotonic() < until:
                    time.sleep(0.001)
        ended = threading.Event()
        with mock.patch.object(dilforec.Index, "begin_merge", side_effect=[Merge()] + [None] * 50), \
                mock.patch.object(dilforec.Index, "end_merge", side_effect=ended.set):
            store.add({})
            self.assertTrue(ended.wait(20))
            store.close()


if __name__ == "__main__":
    unittest.main()
