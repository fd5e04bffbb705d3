"""A thread that does jobs one after the other. Whoever hands one in waits for it at most, and does nothing of it."""
from __future__ import annotations

import logging
import queue
import sys
import threading
import time
from collections import deque
from collections.abc import Callable, Iterable, Iterator
from typing import Generic, Optional, TypeVar, Union

from dilforec.service._errors import Stopped

log = logging.getLogger("dilforec.service")

# Who handed in several jobs that were done together has a moment, in seconds, to hand in the next. So these share the
# work, and the callers don't want the interpreter whenever the worker waits for the disk.
_PAUSE_EACH, _LONGEST_PAUSE = 10e-6, 500e-6


class Event:
    """Something that happens once. Unlike that of threading, no interrupt of a wait is in the way of `set`."""

    __slots__ = "_waits", "is_set"

    def __init__(self) -> None:
        # Each wait has a lock of its own, so that it leaves nothing that others need.
        self._waits: "list[threading.Lock]" = []
        self.is_set = False

    def set(self) -> None:
        """Ends all waits, also later ones."""
        self.is_set = True
        while self._waits:
            self._waits.pop().release()

    def wait(self) -> None:
        """Returns when it has happened."""
        lock = threading.Lock()
        lock.acquire()
        self._waits.append(lock)
        if not self.is_set:
            lock.acquire()


class Job:
    """Something that a worker does once. `error` is what was in its way."""

    error: Optional[Exception] = None
    # It was handed in.
    is_submitted = False
    # Nobody waits for it any more, so it isn't begun if it wasn't.
    withdrawn = False
    _then: "Optional[_Countdown]" = None

    def __init__(self) -> None:
        self._over = Event()

    @property
    def is_done(self) -> bool:
        """Whether it is over."""
        return self._over.is_set

    def wait(self) -> None:
        """Returns when it is over."""
        self._over.wait()

    def finish(self) -> None:
        """Notes that it is over."""
        self._over.set()
        if self._then is not None:
            self._then.less()


class Call(Job):
    """A call that a worker makes."""

    def __init__(self, call: "Callable[[], None]") -> None:
        super().__init__()
        self._call = call

    def run(self) -> None:
        """Makes the call, and keeps its exception."""
        try:
            self._call()
        except Exception as error:
            self.error = error


class _Countdown:
    """A call that is made once each of several jobs is over, whatever threads they end in."""

    def __init__(self, count: int, call: "Callable[[], None]") -> None:
        self._left, self._call = list(range(count)), call

    def less(self) -> None:
        if self._left.pop() == 0:
            try:
                self._call()
            except Exception:
                log.exception("a call that was to follow a change failed")


J = TypeVar("J", bound=Job)


class Worker(Generic[J]):
    """A thread that has all the work, so that no other is ever in the middle of it.

    `work` is given the jobs that come next, does a beginning of them, one at least, and returns how many that were.
    Signals come to a program's first thread alone, so an interrupt may end a wait, and never the work.
    """

    def __init__(self, name: str, work: "Callable[[Iterator[J]], int]") -> None:
        """Starts the thread. RuntimeError is raised if the system has none."""
        self._work = work
        self._queue: "queue.SimpleQueue[tuple[Union[J, Call], ...]]" = queue.SimpleQueue()
        self._waiting: "deque[Union[J, Call]]" = deque()
        self._awaited: "set[Job]" = set()
        # Why it takes no more jobs.
        self._ended: Optional[str] = None
        # Whether its thread is the parent's, in a child of a fork, or was stopped by the interpreter's end.
        self._is_gone = False
        self._over = Event()
        # How many jobs were done together the last time.
        self._done = 0
        threading.Thread(target=self._run, name=name, daemon=True).start()

    def submit(self, *jobs: J, then: "Optional[Callable[[], None]]" = None) -> None:
        """Hands in jobs. `then` is called once all are over, in the worker's thread, or in this one if it has ended."""
        if then is not None and not jobs:
            then()
        countdown = _Countdown(len(jobs), then) if then is not None else None
        for job in jobs:
            job.is_submitted = True
            job._then = countdown
        self._hand_in(jobs)

    def do(self, *jobs: J) -> None:
        """Hands in jobs, and returns when they are over. After an interrupt, those that weren't begun aren't."""
        self.submit(*jobs)
        self.wait(*jobs)

    def call(self, call: "Callable[[], None]") -> None:
        """Has a call made between jobs, and raises what it raises, or Stopped."""
        job = Call(call)
        self._hand_in((job,))
        self.wait(job)
        if job.error:
            raise job.error

    def wait(self, *jobs: Job) -> None:
        """Returns when jobs are over; after an interrupt they are withdrawn."""
        self._awaited.update(jobs)
        try:
            if self._is_gone:
                # A handler may have forked after they were handed in.
                self._refuse_undone(jobs)
            for job in jobs:
                job.wait()
        except BaseException:
            for job in jobs:
                job.withdrawn = True
            raise
        finally:
            self._awaited.difference_update(jobs)

    def end(self, why: str) -> None:
        """Takes no more jobs: each that waits, or comes later, has the error Stopped. A call of its own does it."""
        self._ended = why
        # The first is the one that calls this.
        while len(self._waiting) > 1:
            self._refuse(self._waiting.pop())
        self._refuse_queued()

    def wait_for_end(self) -> None:
        """Returns when the thread has done its last job."""
        self._over.wait()

    def forget(self, why: str) -> None:
        """Ends it if its thread is gone, as in a child of a fork. A wait that the fork interrupted ends, too."""
        self._ended, self._queue, self._is_gone = why, queue.SimpleQueue(), True
        self._over.set()
        self._refuse_undone(self._awaited)

    def _hand_in(self, jobs: "tuple[Union[J, Call], ...]") -> None:
        if sys.is_finalizing():
            # The interpreter has stopped the thread already.
            self.forget("the interpreter ends")
        self._queue.put(jobs)
        if self._ended is not None:
            self._refuse_queued()

    def _run(self) -> None:
        try:
            while self._ended is None:
                self._take()
                if self._waiting:
                    self._done = self._worked()
                    for _ in range(self._done):
                        self._waiting.popleft().finish()
        except BaseException as error:
            log.critical("the thread of the store ended: %r", error)
            self._ended = f"nothing was done: the thread of the store ended ({error!r})"
        finally:
            while self._waiting:
                self._refuse(self._waiting.pop())
            self._refuse_queued()
            self._over.set()

    def _take(self) -> None:
        """Takes what was handed in; if nothing waits, as soon as something is."""
        if self._done > 1:
            time.sleep(min(self._done * _PAUSE_EACH, _LONGEST_PAUSE))
        if not self._waiting:
            self._add(self._queue.get())
        while not self._queue.empty():
            self._add(self._queue.get())

    def _add(self, jobs: "tuple[Union[J, Call], ...]") -> None:
        for job in jobs:
            if job.withdrawn:
                self._refuse(job)
            else:
                self._waiting.append(job)

    def _worked(self) -> int:
        """Does the call that comes first, or of the jobs up to the next call; how many that were."""
        first = self._waiting[0]
        if isinstance(first, Call):
            first.run()
            return 1
        try:
            return self._work(self._jobs())
        except BaseException as error:
            log.exception("a job of the store failed")
            first.error = error if isinstance(error, Exception) else RuntimeError(repr(error))
            return 1

    def _jobs(self) -> "Iterator[J]":
        for job in self._waiting:
            if isinstance(job, Call):
                return
            yield job

    def _refuse_queued(self) -> None:
        while True:
            try:
                jobs = self._queue.get_nowait()
            except queue.Empty:
                return
            for job in jobs:
                self._refuse(job)

    def _refuse_undone(self, jobs: Iterable[Job]) -> None:
        for job in jobs:
            if not job.is_done:
                self._refuse(job)

    def _refuse(self, job: Job) -> None:
        job.error = Stopped(self._ended or "nothing was done: nobody waits for it any more")
        job.finish()
