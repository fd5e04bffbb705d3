"""What answers searches on a worker, beside its tasks, so that a search asks the scheduler for nothing."""
# Dask has no types.
# mypy: allow-untyped-calls
from __future__ import annotations

import asyncio
import math
import pickle
from collections.abc import Sequence
from concurrent.futures import ThreadPoolExecutor
from typing import Any, Callable, NamedTuple, TypeVar

from distributed import WorkerPlugin
from distributed.core import Status
from distributed.protocol.pickle import dumps
from distributed.worker_state_machine import FreeKeysEvent

from dilforec.cluster._connections import Connections
from dilforec.cluster._frames import Data
from dilforec.cluster._listener import Listener
from dilforec.cluster._partials import Joining, Partial, joined
from dilforec.cluster._partitions import Built, Partition
from dilforec.cluster._requests import (
    ABSENT, CHANGED, FAILED, LISTENER, OPERATION, UNMADE, Asked, Missing, Reply, Request, Wanted, read_wanted,
)
from dilforec.index import channel_of
from dilforec.library import Asking

T = TypeVar("T")

# Requests that are under way at once have up to so many threads for each of the worker's own.
REQUESTS = 4


class Found(NamedTuple):
    """A partition that is on this worker, and its place among all."""

    rank: int
    built: Built


class ResponderPlugin(WorkerPlugin):  # type: ignore[misc]
    """Gives each worker a Responder, once: a plugin that takes the place of another leaves it as it is."""

    name = "dilforec"

    def setup(self, worker: Any) -> None:
        if OPERATION not in worker.handlers:
            responder = Responder(worker)
            worker.handlers.update({OPERATION: responder.answer, LISTENER: responder.listener.tell})

    def teardown(self, worker: Any) -> None:
        # This is also called when another plugin takes the place of this one.
        if worker.status == Status.closing and OPERATION in worker.handlers:
            worker.handlers[OPERATION].__self__.close()


class Responder:
    """Answers for the partitions of a worker, and asks other workers for theirs."""

    def __init__(self, worker: Any) -> None:
        self.listener = Listener(worker, self.reply_to)
        self._worker = worker
        self._connections = Connections(worker.rpc, asyncio.get_running_loop())
        self._threads = worker.state.nthreads
        # Idle threads end with the pools, which go with the worker.
        self._searching = ThreadPoolExecutor(REQUESTS * self._threads, "dilforec-search")
        self._making = ThreadPoolExecutor(self._threads, "dilforec-make")

    async def answer(self, comm: Any, request: bytes) -> bytes:
        """A handler of Dask's, for what doesn't come through the listener."""
        return await self.reply_to(request)

    async def reply_to(self, request: Data) -> bytes:
        """A Reply to a Request, both pickled. It raises nothing: an OSError is that of who couldn't ask."""
        try:
            task, node, pickled_searches = Request.unpickled(request)
            others = [asyncio.ensure_future(self._others(Request(task, each, pickled_searches))) for each in node.below]
            try:
                searches = [Asked._make(each) for each in pickle.loads(pickled_searches)]
                return await self._joined(task, searches, read_wanted(node.wanted), others)
            finally:
                for other in others:
                    other.cancel()
        except Exception as error:
            return Reply([], (), pickled(error)).pickled()

    async def _joined(
        self, task: str, searches: Sequence[Asked], wanted: Sequence[Wanted], others: Sequence[asyncio.Future[Reply]],
    ) -> bytes:
        """The Reply of partitions on this worker and of others, pickled."""
        found, missing = await self._found(wanted)
        chunks, slices = self._cut(found, searches)
        if len(chunks) == len(slices) == 1 and not others:
            return await self._in_thread(_pickled_reply, task, found, searches, missing)
        replies = list(await asyncio.gather(*(self._own(task, chunk, slices) for chunk in chunks), *others))
        return await self._in_thread(_joined_replies, task, searches, [*replies, Reply([], missing)])

    def _cut(
        self, found: Sequence[Found], searches: Sequence[Asked],
    ) -> tuple[list[Sequence[Found]], list[Sequence[Asked]]]:
        """Partitions and searches, cut so that each thread has some of both."""
        if self._threads == 1:
            return [found], [searches]
        count = min(self._threads, len(found)) or 1
        size = math.ceil(len(searches) * count / self._threads) or 1
        chunks = [found[place::count] for place in range(count)]
        return chunks, [searches[first:first + size] for first in range(0, len(searches), size)] or [searches]

    async def _own(self, task: str, found: Sequence[Found], slices: Sequence[Sequence[Asked]]) -> Reply:
        """What partitions on this worker reply."""
        parts = await asyncio.gather(*(self._in_thread(results, task, found, searches) for searches in slices))
        return Reply([answer for part in parts for answer in part], ())

    async def _others(self, request: Request) -> Reply:
        """What another worker, with those below it, replies."""
        try:
            reply = await self._connections.ask(request.node.address, request.pickled())
        except OSError:
            return Reply([], request.node.unanswered())
        return await self._in_thread(Reply.unpickled, reply)

    async def _found(self, wanted: Sequence[Wanted]) -> tuple[list[Found], list[Missing]]:
        """The partitions that are here, made now if that is asked for, and why the others aren't."""
        every = [self._looked_up(each) for each in wanted]
        unmade = {place: each for place, each in enumerate(every) if isinstance(each, Partition)}
        if unmade:
            every += await asyncio.gather(*(self._made(wanted[place], each) for place, each in unmade.items()))
        found = [each for each in every if isinstance(each, Found)]
        return found, [each for each in every if isinstance(each, Missing)]

    def _looked_up(self, wanted: Wanted) -> Found | Missing | Partition:
        """A partition that is here, or why it isn't, or one that has to be made."""
        partition = self._worker.data.get(wanted.key)
        if partition is None:
            self._forget(wanted.key)
            return Missing(wanted.rank, ABSENT)
        built = partition.built_before()
        if built is not None:
            return _found(wanted, built)
        return partition if wanted.make else Missing(wanted.rank, UNMADE)

    async def _made(self, wanted: Wanted, partition: Partition) -> Found | Missing:
        try:
            built = await asyncio.get_running_loop().run_in_executor(self._making, partition.built)
        except Exception as error:
            return Missing(wanted.rank, FAILED, pickled(error))
        return _found(wanted, built)

    def close(self) -> None:
        """Ends the connections, those that others made and those to others."""
        self.listener.close()
        self._connections.close()

    def _forget(self, key: str) -> None:
        """Tells Dask, if it believes that a partition is here, that it isn't. It is made again then."""
        task = self._worker.state.tasks.get(key)
        if task is not None and task.state == "memory":
            self._worker.handle_stimulus(FreeKeysEvent(keys=[key], stimulus_id="dilforec-partition-absent"))

    async def _in_thread(self, function: Callable[..., T], *given: Any) -> T:
        # The loop's run_in_executor takes longer than a short search.
        loop = asyncio.get_running_loop()
        result: asyncio.Future[T] = loop.create_future()
        self._searching.submit(_run, loop, result, function, given)
        return await result


def _run(loop: asyncio.AbstractEventLoop, result: asyncio.Future[T], function: Callable[..., T], given: Any) -> None:
    """Has a future of a loop get what a function gives or raises, unless nobody waits for it any more."""
    if result.cancelled():
        return
    try:
        value = function(*given)
    except BaseException as error:
        loop.call_soon_threadsafe(_settle, result, result.set_exception, error)
    else:
        loop.call_soon_threadsafe(_settle, result, result.set_result, value)


def _settle(result: asyncio.Future[T], settle: Callable[[Any], None], value: Any) -> None:
    if not result.cancelled():
        settle(value)


def results(task: str, found: Sequence[Found], searches: Sequence[Asked]) -> list[Any]:
    """What partitions reply: the joined answers to the searches, or what each says of itself."""
    if task == "search":
        return search(found, searches)
    return [(each.rank, TASKS[task](each.built)) for each in found]


def search(found: Sequence[Found], searches: Sequence[Asked]) -> list[Partial]:
    """The answers of some partitions to some searches, joined."""
    joinings = [Joining(asked.k, asked.is_falling) for asked in searches]
    for each in found:
        with each.built.searcher() as searcher:
            channel = channel_of(searcher)
            for asked, joining in zip(searches, joinings):
                if asked.only is None or each.rank in asked.only:
                    try:
                        joining.add(_reply(channel, asked), each.rank, each.built.source)
                    except Exception as error:
                        joining.fault = pickled(error)
    return [_or_fault(joining.answer) for joining in joinings]


def _or_fault(function: Callable[..., Partial], *given: Any) -> Partial:
    """What a function gives for a search. What it raises is the fault of that one, and not of those beside it."""
    try:
        return function(*given)
    except Exception as error:
        return Partial(fault=pickled(error))


def _reply(channel: Asking, asked: Asked) -> bytes:
    """A partition's own reply."""
    if asked.names is None:
        return channel.ask(asked.line)
    (reply,) = channel.ask_each([asked.line], asked.names)
    return reply


def _pickled_reply(
    task: str, found: Sequence[Found], searches: Sequence[Asked], missing: Sequence[Missing],
) -> bytes:
    return Reply(results(task, found, searches), missing).pickled()


def _joined_replies(task: str, searches: Sequence[Asked], replies: Sequence[Reply]) -> bytes:
    """One reply of several, pickled. Those that lack all of their partitions have no results."""
    lists = [reply.results for reply in replies if reply.results]
    answers = [each for some in lists for each in some]
    if task == "search":
        answers = [_or_fault(joined, each, asked.k) for each, asked in zip(zip(*lists), searches)]
    return Reply(answers, [each for reply in replies for each in reply.missing]).pickled()


def pickled(error: BaseException) -> bytes:
    """An exception for another process; if it can't be pickled, one that says the same."""
    try:
        data: bytes = dumps(error)
        pickle.loads(data)
    except Exception:
        data = pickle.dumps(RuntimeError(f"{type(error).__name__}: {error}"))
    return data


def _found(wanted: Wanted, built: Built) -> Found | Missing:
    """A partition, if it was made of the lines that it has to be made of."""
    if wanted.digest not in (None, built.summary.digest):
        return Missing(wanted.rank, CHANGED)
    return Found(wanted.rank, built)


# What is asked of a partition besides searches.
TASKS: dict[str, Callable[[Built], Any]] = {
    "measure": lambda built: built.index.stats(),
    "tell": lambda built: built.summary,
}
