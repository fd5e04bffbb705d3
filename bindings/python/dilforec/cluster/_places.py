"""Where partitions are, as far as the client knows."""
# Dask has no types.
# mypy: allow-untyped-calls
from __future__ import annotations

import asyncio
import itertools
import math
import time
from collections.abc import Iterable, Sequence
from typing import Any, NamedTuple, Optional

import distributed

from dilforec.cluster._partitions import Summary
from dilforec.library import Closed

# A worker that couldn't be reached so many times in a row, and that the scheduler has, is asked through the scheduler,
# until it is reached otherwise.
FAILURES = 2
# Seconds between the looks whether the client was told something.
LOOK = 0.01


class Part(NamedTuple):
    """A partition on the cluster: its source's name, its future, and what it said of itself when it was added."""

    source: str
    future: Any
    summary: Optional[Summary] = None


class Places:
    """The addresses of the workers that have each partition. The scheduler is asked once, and again if they change.

    All its methods run in the client's event loop.
    """

    def __init__(self, client: distributed.Client) -> None:
        # How often something of this changed.
        self.changes = 0
        # By address: how often in a row a worker couldn't be reached, and when that was counted. Usually it is empty.
        self.failures: dict[str, tuple[int, float]] = {}
        self._client = client
        self._known: dict[str, Sequence[str]] = {}
        self._retrying: dict[str, asyncio.Future[Any]] = {}

    async def find(self, parts: Iterable[Part]) -> dict[str, Sequence[str]]:
        """The workers that have each partition, by its key; none if it is being made.

        Closed if the partitions were cancelled, as by a restart of the cluster.
        """
        keys = {part.future.key: part for part in parts}
        unknown = [part for key, part in keys.items() if key not in self._known]
        if unknown:
            self._known.update(await self.looked_up(unknown))
            self.changes += 1
            here = set(itertools.chain.from_iterable(self._known.values()))
            self.failures = {address: each for address, each in self.failures.items() if address in here}
        return {key: self._known.get(key, ()) for key in keys}

    async def looked_up(self, parts: Iterable[Part]) -> dict[str, Sequence[str]]:
        """The workers that have partitions, by their keys, as the scheduler knows; Closed as in `find`."""
        futures = [part.future for part in parts]
        if any(future.cancelled() for future in futures):
            raise Closed("the client cancelled the partitions, as a restart does")
        answer = await self._client.who_has(futures)
        return {key: addresses for key, addresses in answer.items() if addresses}

    def put_last(self, key: str, address: str) -> None:
        """Puts a worker that has the source of a partition alone after the others."""
        known = self._known.get(key, ())
        if address in known:
            self._known[key] = [*(each for each in known if each != address), address]
            self.changes += 1

    def forget(self, keys: Iterable[str]) -> None:
        """Has the scheduler asked for these again."""
        for key in keys:
            self._known.pop(key, None)
        self.changes += 1

    def failed(self, address: str, sent: float) -> None:
        """Counts that a worker couldn't be reached, once for all that had been sent by then."""
        count, counted = self.failures.get(address, (0, -math.inf))
        if sent > counted:
            self.failures[address] = count + 1, time.monotonic()

    def reached(self, address: str) -> None:
        """Forgets the failures of a worker."""
        self.failures.pop(address, None)

    def is_far(self, address: str) -> bool:
        """Whether the client couldn't reach a worker, as from outside of the cluster's network."""
        return address in self.failures and self.failures[address][0] >= FAILURES

    async def retry(self, future: Any, error: BaseException) -> None:
        """Has a partition made again whose making raised this error. Searches that met the same one share that."""
        if future.key not in self._retrying:
            retrying = self._retrying[future.key] = asyncio.ensure_future(self._retried(future, error))
            retrying.add_done_callback(lambda _: self._retrying.pop(future.key))
        await asyncio.shield(self._retrying[future.key])

    async def _retried(self, future: Any, error: BaseException) -> None:
        # The scheduler would begin anew what is being made, or is there.
        if await _has_failed(future, error):
            await self._client.scheduler.retry(keys=[future.key], client=self._client.id)
            # The scheduler tells the client of this and of how the task ends, in order. `Future.retry` doesn't wait for
            # that, and might mark a task that has ended as one that goes on.
            while await _has_failed(future, error):
                await asyncio.sleep(LOOK)


async def _has_failed(future: Any, error: BaseException) -> bool:
    """Whether this error is the last that the client was told of a task, and the task wasn't begun since."""
    return future.status == "error" and await future.exception() is error
