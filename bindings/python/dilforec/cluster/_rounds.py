"""Searches of many threads, sent to the workers together."""
# Dask has no types.
# mypy: allow-untyped-calls
from __future__ import annotations

import asyncio
import collections
import concurrent.futures
import os
import time
from collections.abc import Coroutine, Sequence
from typing import Any, Callable, Optional, TypeVar

import distributed

from dilforec.cluster._connections import Connections
from dilforec.cluster._gathering import Gathering
from dilforec.cluster._partials import Partial
from dilforec.cluster._partitions import Summary
from dilforec.cluster._places import Part, Places
from dilforec.cluster._plan import Plan
from dilforec.cluster._requests import Asked
from dilforec.values import Stats

T = TypeVar("T")

# Rounds that are under way at once, so that a slow search doesn't hold the others up.
ROUNDS = 4
# Searches of a round, and bytes of their lines.
SEARCHES, LINES = 256, 1 << 20
# A thread that waits looks so often whether its client is still open.
LOOK = 1.0


class Rounds:
    """Asks the partitions for what threads want. What comes while ROUNDS are under way shares the next one.

    The partitions don't change. Threads wait in `search`, `summaries` and `stats`; all else runs in the client's event
    loop.
    """

    def __init__(
        self, client: distributed.Client, connections: Connections, places: Places, parts: Sequence[Part],
    ) -> None:
        self._client, self._connections, self._plan = client, connections, Plan(places, parts)
        self._process = os.getpid()
        self._waiting: collections.deque[_Waiting] = collections.deque()
        self._running: set[asyncio.Task[None]] = set()
        self._turn = 0

    @property
    def parts(self) -> Sequence[Part]:
        return self._plan.parts

    def search(self, searches: Sequence[Asked], timeout: Optional[float] = None) -> list[list[Partial]]:
        """The answers to each search, which together are over all partitions that it goes to.

        Besides what Gathering.results raises: TimeoutError if there are none in time.
        """
        self._check()
        deadline = _deadline(timeout)
        together = [_Waiting(searches[first:first + SEARCHES]) for first in range(0, len(searches), SEARCHES)]
        self._waiting.extend(together)
        self._client.loop.asyncio_loop.call_soon_threadsafe(self._begin)
        try:
            return [answer for waiting in together for answer in self._result(waiting.future, deadline)]
        finally:
            # Nobody waits for the others if one failed, or came too late.
            for waiting in together:
                waiting.future.cancel()

    def summaries(self) -> list[Summary]:
        """What each partition says of itself."""
        answers = self._call(lambda: self._gathering().results("tell"))
        return [summary for _, summary in sorted(each for answer in answers for each in answer)]

    def stats(self, timeout: Optional[float] = None) -> Stats:
        """How large the partitions are together."""
        answers = self._call(lambda: self._gathering().results("measure"), timeout)
        return Stats(*map(sum, zip(*(stats for answer in answers for _, stats in answer))))

    def _gathering(self) -> Gathering:
        self._turn += 1
        return Gathering(self._client, self._connections, self._plan, self._turn)

    def _check(self) -> None:
        """Refuses a call that nobody would answer."""
        if os.getpid() != self._process:
            raise RuntimeError("a forked process has no part in its parent's connection to the cluster: make a client")
        if self._client.status in ("closing", "closed"):
            raise RuntimeError("the client of this cluster is closed")
        if self._client.asynchronous:
            raise RuntimeError("a search waits, so it can't be made from the client's event loop: take a thread")

    def _call(self, begin: Callable[[], Coroutine[Any, Any, T]], timeout: Optional[float] = None) -> T:
        """What a coroutine of the client's event loop gives."""
        self._check()
        future = asyncio.run_coroutine_threadsafe(begin(), self._client.loop.asyncio_loop)
        return self._result(future, _deadline(timeout))

    def _result(self, future: concurrent.futures.Future[T], deadline: Optional[float]) -> T:
        """What a future gives, if it does so in time, and the client stays open."""
        while True:
            rest = LOOK if deadline is None else min(LOOK, deadline - time.monotonic())
            try:
                return future.result(max(rest, 0))
            except concurrent.futures.TimeoutError:
                if future.done():
                    return future.result()
            if deadline is not None and time.monotonic() >= deadline:
                future.cancel()
                raise TimeoutError("not all partitions answered in time")
            self._check()

    def _begin(self) -> None:
        """Begins rounds, as long as searches wait and one more may begin."""
        while self._waiting and len(self._running) < ROUNDS:
            self._begin_one()

    def _begin_one(self) -> None:
        together: list[_Waiting] = []
        count = size = 0
        while self._waiting and (not together or count < SEARCHES and size < LINES):
            waiting = self._waiting.popleft()
            if waiting.future.set_running_or_notify_cancel():
                together.append(waiting)
                count += len(waiting.searches)
                size += sum(len(each.line) for each in waiting.searches)
        if together:
            task = asyncio.ensure_future(self._round(together))
            self._running.add(task)
            task.add_done_callback(self._ended)

    def _ended(self, task: asyncio.Task[None]) -> None:
        self._running.discard(task)
        self._begin()

    async def _round(self, together: Sequence[_Waiting]) -> None:
        searches = [each for waiting in together for each in waiting.searches]
        try:
            results = await self._gathering().results("search", searches)
        except BaseException as error:
            for waiting in together:
                waiting.future.set_exception(error)
            return
        answers = iter([[result[place] for result in results if result] for place in range(len(searches))])
        for waiting in together:
            waiting.future.set_result([next(answers) for _ in waiting.searches])


def _deadline(timeout: Optional[float]) -> Optional[float]:
    return None if timeout is None else time.monotonic() + timeout


class _Waiting:
    """Searches of a thread, and the future that it waits for."""

    def __init__(self, searches: Sequence[Asked]) -> None:
        self.searches = searches
        self.future: concurrent.futures.Future[list[list[Partial]]] = concurrent.futures.Future()
