"""What all partitions reply to a request, whichever workers are lost meanwhile."""
# Dask has no types.
# mypy: allow-untyped-calls
from __future__ import annotations

import asyncio
import collections
import pickle
import time
from collections.abc import Mapping, Sequence
from typing import Any

import distributed
from distributed.scheduler import KilledWorker

from dilforec.cluster._connections import Connections, replied
from dilforec.cluster._frames import Data
from dilforec.cluster._partitions import PartitionLost, SourceChanged, SourceRefused, SourceUnreadable
from dilforec.cluster._places import Part
from dilforec.cluster._plan import Plan
from dilforec.cluster._requests import (
    ABSENT, CHANGED, FAILED, LOST, OPERATION, UNASKED, UNMADE, Asked, Missing, Node, Reply, Request, Wanted, trees,
)

# A worker that hasn't answered for so many seconds is looked up again: it may be lost.
PATIENCE = 1.0
# What is asked again waits for so many seconds, at first and at most.
FIRST_PAUSE, LONGEST_PAUSE = 0.02, 0.5
# How often a source that can't be read is tried, and the seconds between.
TRIES, BETWEEN_TRIES = 3, 0.3
# How often a partition may be lost while it is asked. What is met again at one worker within so many seconds is the
# same loss: the scheduler may not know of it yet.
LOSSES, SAME_LOSS = 5, 10.0
# Bytes of a reply that is read in a thread, since others wait for the event loop.
LONG = 65_536


class Gathering:
    """One request to all partitions of a plan. It runs in the client's event loop.

    Each worker is asked once for all its partitions. Those that didn't reply are looked up again, and asked again. A
    lost partition is Dask's to make again; those that wait for it wait for its future.
    """

    def __init__(self, client: distributed.Client, connections: Connections, plan: Plan, turn: int) -> None:
        self._client, self._connections, self._plan, self._turn = client, connections, plan, turn
        self._parts, self._places = plan.parts, plan.places
        self._left = list(range(len(self._parts)))
        # The workers that have the source of a partition alone.
        self._unmade: dict[int, set[str]] = collections.defaultdict(set)
        self._tries: collections.Counter[int] = collections.Counter()
        # Of each partition that was lost: how often, on which worker, and when.
        self._losses: dict[int, tuple[int, str, float]] = {}
        self._results: list[Sequence[Any]] = []

    async def results(self, task: str, searches: Sequence[Asked] = ()) -> list[Sequence[Any]]:
        """What workers replied. Each partition is in one of these results, if searches go to it.

        SourceChanged or SourceUnreadable if a partition can't be made again, or the exception of making it that is no
        fault of its source; PartitionLost if it is lost again and again; what keeps a worker from answering.
        """
        pause = FIRST_PAUSE
        sent = pickle.dumps([tuple(each) for each in searches], protocol=5)
        if searches and all(search.only is not None for search in searches):
            self._left = sorted({rank for search in searches for rank in search.only or ()})
        while self._left:
            before = len(self._left)
            nodes, lacking = await self._nodes()
            for node, reply in zip(nodes, await self._replies(nodes, task, sent)):
                lacking += await self._take(node, reply)
            self._left = sorted(lacking)
            if len(self._left) == before:
                await asyncio.sleep(pause)
                pause = min(2 * pause, LONGEST_PAUSE)
        return self._results

    async def _nodes(self) -> tuple[list[Node], list[int]]:
        """The workers to ask now, and the partitions that none of them has. If none has any, this waits for all.

        Those that are asked through the scheduler have a tree of their own.
        """
        wanted, homeless = await self._plan.wanted(self._left, self._unmade)
        if not wanted:
            await asyncio.gather(*(self._await_made(rank, self._parts[rank]) for rank in homeless))
        self._turn += 1
        if not self._places.failures:
            return trees(wanted, self._turn), homeless
        far = {address: each for address, each in wanted.items() if self._is_far(address)}
        near = {address: each for address, each in wanted.items() if address not in far}
        return trees(near, self._turn) + trees(far, self._turn), homeless

    async def _await_made(self, rank: int, part: Part) -> None:
        error = await part.future.exception()
        if error is not None:
            await self._try_again(rank, error)
            await self._places.retry(part.future, error)

    async def _try_again(self, rank: int, error: BaseException) -> None:
        """Waits before a source is read again, unless it was tried often enough, or that would be of no use."""
        part = self._parts[rank]
        if part.summary is None or isinstance(error, (MemoryError, KilledWorker)):
            raise error
        if isinstance(error, SourceRefused):
            raise SourceChanged(part.source) from error
        self._tries[rank] += 1
        if self._tries[rank] >= TRIES:
            raise SourceUnreadable(part.source) from error
        await asyncio.sleep(BETWEEN_TRIES * self._tries[rank])

    async def _replies(self, nodes: Sequence[Node], task: str, searches: bytes) -> list[Reply]:
        """What each worker, with those below it, replies."""
        self._sent = time.monotonic()
        sent = {self._send(node, Request(task, node, searches).pickled()): node for node in nodes}
        replies: dict[asyncio.Future[Data], Reply] = {}
        try:
            # A loop may send at the end of its turn. The workers search during what comes then.
            await asyncio.sleep(0)
            loop, waiting = asyncio.get_running_loop(), set(sent)
            patient_until = loop.time() + PATIENCE
            while waiting:
                done, waiting = await asyncio.wait(waiting, timeout=PATIENCE, return_when=asyncio.FIRST_COMPLETED)
                for reply in done:
                    replies[reply] = await self._read(sent[reply], reply)
                if loop.time() < patient_until:
                    continue
                for reply in waiting:
                    missing = await self._moved(sent[reply])
                    if missing and not reply.done():
                        replies[reply] = Reply([], missing)
                waiting.difference_update(replies)
                patient_until = loop.time() + PATIENCE
        finally:
            for reply in sent:
                reply.cancel()
        return [replies[reply] for reply in sent]

    def _send(self, node: Node, request: bytes) -> asyncio.Future[Data]:
        if self._places.failures and self._is_far(node.address):
            return asyncio.ensure_future(self._send_through_scheduler(node.address, request))
        return self._connections.ask(node.address, request)

    def _is_far(self, address: str) -> bool:
        """Whether a worker is asked through the scheduler. If so, it is also looked whether it can be reached again."""
        return self._places.is_far(address) and self._connections.find(address) is None

    async def _read(self, node: Node, sent: asyncio.Future[Data]) -> Reply:
        """What a worker replied."""
        if sent.cancelled() or isinstance(sent.exception(), OSError):
            return Reply([], node.unanswered())
        reply = sent.result()
        if len(reply) < LONG:
            return Reply.unpickled(reply)
        return await asyncio.get_running_loop().run_in_executor(None, Reply.unpickled, reply)

    async def _send_through_scheduler(self, address: str, request: bytes) -> Data:
        sent = {"op": OPERATION, "request": request}
        return replied(address, await self._client.scheduler.proxy(msg=sent, worker=address))

    async def _moved(self, node: Node) -> list[Missing]:
        """What is missing if a worker, with those below it, isn't waited for; nothing, if all is where it was."""
        held = list(node.holders())
        now = await self._places.looked_up([self._parts[wanted.rank] for wanted, _ in held])
        absent = {wanted.rank for wanted, address in held if address not in now.get(wanted.key, ())}
        return [Missing(wanted.rank, ABSENT if wanted.rank in absent else UNASKED) for wanted, _ in held if absent]

    async def _take(self, node: Node, reply: Reply) -> list[int]:
        """Takes a worker's reply in, and returns the partitions that it lacks."""
        self._results.append(reply.results)
        if reply.missing or self._places.failures:
            await self._take_lacking(node, {missing.rank: missing for missing in reply.missing})
        return [missing.rank for missing in reply.missing]

    async def _take_lacking(self, node: Node, missing: Mapping[int, Missing]) -> None:
        for wanted, address in node.holders():
            lacking = missing.get(wanted.rank)
            if lacking is not None:
                await self._take_missing(lacking, wanted, address)
            elif not self._is_far(address):
                self._places.reached(address)

    async def _take_missing(self, missing: Missing, wanted: Wanted, address: str) -> None:
        part = self._parts[missing.rank]
        if missing.why == CHANGED:
            raise SourceChanged(part.source)
        if missing.why == UNMADE:
            self._unmade[missing.rank].add(address)
            self._places.put_last(wanted.key, address)
        elif missing.why == FAILED:
            await self._try_again(missing.rank, pickle.loads(missing.error))
        elif missing.why != UNASKED:
            if missing.why == LOST:
                self._places.failed(address, self._sent)
            self._places.forget([wanted.key])
            self._count_loss(missing.rank, address)

    def _count_loss(self, rank: int, address: str) -> None:
        count, at, counted = self._losses.get(rank, (0, "", 0.0))
        if address != at or time.monotonic() - counted >= SAME_LOSS:
            if count + 1 == LOSSES:
                raise PartitionLost(self._parts[rank].source, LOSSES)
            self._losses[rank] = count + 1, address, time.monotonic()
