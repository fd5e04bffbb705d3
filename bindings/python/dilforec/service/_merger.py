"""Merges beside transactions: a thread makes the large segments, so that no transaction waits for one."""
from __future__ import annotations

import logging
import queue
import threading
from collections.abc import Callable
from typing import Optional

from dilforec import memory
from dilforec.index import Index, Merge
from dilforec.service._errors import Stopped

log = logging.getLogger("dilforec.service")

# The commit of a transaction merges segments of at most as many documents itself.
MOST_IN_A_COMMIT = 1_000


class Merger:
    """What is due above the limit of a commit is begun, run by a thread, and ended, one merge at a time.

    `alone` does a call while nothing is written; `show` is called so, once there are other segments. What the segments
    before them took is then given back to the system. What a merge can't do is logged, and left to a later one.
    """

    def __init__(self, index: Index, alone: "Callable[[Callable[[], None]], None]", show: "Callable[[], None]") -> None:
        index.limit_merges(MOST_IN_A_COMMIT)
        self._index, self._alone, self._show = index, alone, show
        self._begun: "queue.SimpleQueue[Optional[Merge]]" = queue.SimpleQueue()
        self._has_thread = self._is_under_way = self._closed = False

    def begin(self) -> None:
        """Begins what is due, unless a merge is under way. Nothing may be written meanwhile."""
        if self._is_under_way or self._closed:
            return
        try:
            merge = self._index.begin_merge()
            if merge:
                self._start()
                self._begun.put(merge)
                self._is_under_way = True
        except (MemoryError, RuntimeError) as error:
            log.warning("a merge waits for a later commit, since it can't be begun: %r", error)

    def _start(self) -> None:
        if not self._has_thread:
            threading.Thread(target=self._work, name="dilforec-merge", daemon=True).start()
            self._has_thread = True

    def _work(self) -> None:
        while True:
            merge = self._begun.get()
            if merge is None:
                return
            with merge:
                was_run = self._run(merge)
            try:
                self._alone(self._end if was_run else self._give_up)
                memory.trim()
            except Stopped:
                return
            except Exception:
                log.exception("a merge couldn't be ended, and waits for a later commit")

    def _run(self, merge: Merge) -> bool:
        try:
            merge.run()
            return True
        except MemoryError:
            log.warning("a merge waits for a later commit, since there was no memory for it")
        except Exception:
            log.exception("a merge failed, and waits for a later commit")
        return False

    def _end(self) -> None:
        self._is_under_way = False
        if self._closed:
            return
        try:
            if self._index.end_merge():
                self._show()
        except MemoryError:
            log.warning("a merge waits for a later commit, since there was no memory to end it")
        else:
            self.begin()

    def _give_up(self) -> None:
        self._is_under_way = False

    def close(self) -> None:
        """Begins and ends no more merges; one that runs goes on without its index, and then the thread ends.

        Nothing may be written meanwhile.
        """
        self._closed = True
        self._begun.put(None)
