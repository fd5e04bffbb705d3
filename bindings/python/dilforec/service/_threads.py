"""Threads that make calls for a loop."""
from __future__ import annotations

import asyncio
import queue
import threading
from collections.abc import Callable
from contextlib import suppress
from typing import Any, NamedTuple, Optional, TypeVar

T = TypeVar("T")


class _Call(NamedTuple):
    make: "Callable[[], object]"
    loop: asyncio.AbstractEventLoop
    done: "asyncio.Future[Any]"


class Threads:
    """Up to so many threads, each of which is started when all others have a call to make.

    Those of concurrent.futures take several locks for each call, which is as much work as to find a document.
    """

    def __init__(self, most: int, name: str) -> None:
        self._most, self._name = most, name
        self._calls: "queue.SimpleQueue[Optional[_Call]]" = queue.SimpleQueue()
        # How many there are, and how many calls aren't over. Only the loop's thread changes these.
        self._started = self._open = 0
        self._closed = False

    async def call(self, make: "Callable[[], T]") -> T:
        """Has a thread make a call, and returns or raises what that does. RuntimeError is raised after `close`."""
        if self._closed:
            raise RuntimeError("the threads were ended")
        loop = asyncio.get_running_loop()
        done: "asyncio.Future[Any]" = loop.create_future()
        self._open += 1
        try:
            if self._started < min(self._open, self._most):
                self._start()
            self._calls.put(_Call(make, loop, done))
            told: T = await done
            return told
        finally:
            self._open -= 1

    def close(self) -> None:
        """Ends the threads, each after the call that it makes."""
        self._closed = True
        for _ in range(self._started):
            self._calls.put(None)

    def _start(self) -> None:
        """Starts a thread. RuntimeError is raised if the system has none, and there is no other."""
        try:
            threading.Thread(target=self._run, name=f"{self._name}_{self._started}", daemon=True).start()
            self._started += 1
        except RuntimeError:
            if not self._started:
                raise

    def _run(self) -> None:
        while (call := self._calls.get()) is not None:
            told: object = None
            error: Optional[BaseException] = None
            try:
                told = call.make()
            except BaseException as raised:
                error = raised
            # A loop that was closed has nobody who waits.
            with suppress(RuntimeError):
                call.loop.call_soon_threadsafe(_settle, call.done, told, error)
            del call, told, error


def _settle(done: "asyncio.Future[Any]", told: object, error: Optional[BaseException]) -> None:
    if done.done():
        return
    if error is None:
        done.set_result(told)
    else:
        done.set_exception(error)
