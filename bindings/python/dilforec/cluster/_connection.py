"""The asking end of a connection to a worker."""
from __future__ import annotations

import asyncio
from collections.abc import Awaitable, Callable
from typing import Optional

from dilforec.cluster._frames import Data, Frames

# What rpc replies to a request.
ByRpc = Callable[[bytes], Awaitable[Data]]


class Connection(Frames):
    """Requests to a worker's Listener, several of which may be under way at once. Those that it can't answer go by rpc.

    What the worker hasn't read is kept in memory: the caller limits how much is under way.
    """

    def __init__(self, token: bytes, by_rpc: ByRpc) -> None:
        super().__init__()
        self._token, self._by_rpc = token, by_rpc
        self._last = 0
        self._waiting: dict[int, tuple[bytes, asyncio.Future[Data]]] = {}
        self._again: set[asyncio.Task[None]] = set()

    def connection_made(self, transport: asyncio.BaseTransport) -> None:
        super().connection_made(transport)
        self.send(self._last, self._token)

    def ask(self, request: bytes) -> asyncio.Future[Data]:
        """The reply to a request; ConnectionResetError if the connection ends before it comes."""
        self._last += 1
        reply: asyncio.Future[Data] = asyncio.get_running_loop().create_future()
        self._waiting[self._last] = request, reply
        self.send(self._last, request)
        return reply

    def received(self, number: int, data: memoryview) -> None:
        request, reply = self._waiting.pop(number, (b"", None))
        # One that was cancelled is done.
        if reply is not None and not reply.done():
            if data:
                reply.set_result(data)
            else:
                again = asyncio.ensure_future(self._ask_again(request, reply))
                self._again.add(again)
                again.add_done_callback(self._again.discard)

    async def _ask_again(self, request: bytes, reply: asyncio.Future[Data]) -> None:
        try:
            by_rpc = await self._by_rpc(request)
        except Exception as error:
            if not reply.done():
                reply.set_exception(error)
        else:
            if not reply.done():
                reply.set_result(by_rpc)

    def connection_lost(self, error: Optional[Exception]) -> None:
        for _, reply in self._waiting.values():
            if not reply.done():
                reply.set_exception(ConnectionResetError("the connection to the worker ended"))
        self._waiting.clear()
