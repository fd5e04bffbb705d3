"""The answering end of connections to a worker."""
# Dask has no types.
# mypy: allow-untyped-calls
from __future__ import annotations

import asyncio
import hmac
import secrets
from collections.abc import Awaitable, Callable
from typing import Any, Optional, Union

from distributed.comm.addressing import parse_address, parse_host_port

from dilforec.cluster._connections import tls
from dilforec.cluster._frames import LONGEST, Frames

# Bytes of the token, and the seconds that a client has to send it.
TOKEN, PATIENCE = 32, 10.0

Answer = Callable[[Union[bytes, memoryview]], Awaitable[bytes]]


class Listener:
    """A socket beside a worker's own, opened when a client first asks for it. It answers who sends the token first.

    The token is told by rpc alone. A request whose reply is too long gets an empty frame, and is sent again by rpc. So
    is one whose answer raised, if that couldn't be told in a reply; rpc tells it.
    """

    def __init__(self, worker: Any, answer: Answer) -> None:
        self._worker, self._answer = worker, answer
        self._token = secrets.token_bytes(TOKEN)
        self._accepted: set[_Accepted] = set()
        self._opening = asyncio.Lock()
        self._server: Optional[asyncio.base_events.Server] = None

    async def tell(self, comm: Any) -> Optional[tuple[int, bytes]]:
        """A handler of Dask's: the port and the token; None if there is no socket."""
        async with self._opening:
            if self._server is None:
                try:
                    self._server = await self._opened()
                except OSError:
                    return None
        return self._server.sockets[0].getsockname()[1], self._token

    async def _opened(self) -> asyncio.base_events.Server:
        """A socket on the interface of the worker's own, with TLS if that has it."""
        scheme, place = parse_address(self._worker.address)
        host, _ = parse_host_port(place)
        context = tls(scheme, self._worker.security.get_listen_args("worker"))
        return await asyncio.get_running_loop().create_server(
            self._accept, host, 0, ssl=context, ssl_handshake_timeout=PATIENCE if context else None)

    def _accept(self) -> _Accepted:
        return _Accepted(self._token, self._answer, self._accepted)

    def close(self) -> None:
        """Ends the socket and its connections."""
        if self._server is not None:
            self._server.close()
        for each in self._accepted:
            each.close()


class _Accepted(Frames):
    """A connection, from which nothing but the token is read until that has come.

    While a client doesn't read its replies, none of its requests is read.
    """

    limit = TOKEN

    def __init__(self, token: bytes, answer: Answer, accepted: set[_Accepted]) -> None:
        super().__init__()
        self._token, self._answer, self._accepted = token, answer, accepted
        self._is_known = False
        self._replying: set[asyncio.Task[None]] = set()

    def connection_made(self, transport: asyncio.BaseTransport) -> None:
        super().connection_made(transport)
        self._accepted.add(self)
        self._giving_up = asyncio.get_running_loop().call_later(PATIENCE, self.close)

    def received(self, number: int, data: memoryview) -> None:
        if self._is_known:
            replying = asyncio.get_running_loop().create_task(self._reply(number, data))
            self._replying.add(replying)
            replying.add_done_callback(self._replying.discard)
        elif hmac.compare_digest(data, self._token):
            self._giving_up.cancel()
            self._is_known, self.limit = True, LONGEST
        else:
            self.close()

    async def _reply(self, number: int, request: memoryview) -> None:
        try:
            reply = await self._answer(request)
        except Exception:
            reply = b""
        self.send(number, reply if len(reply) <= LONGEST else b"")

    def pause_writing(self) -> None:
        if self.is_open:
            self._transport.pause_reading()

    def resume_writing(self) -> None:
        if self.is_open:
            self._transport.resume_reading()

    def connection_lost(self, error: Optional[Exception]) -> None:
        self._accepted.discard(self)
        self._giving_up.cancel()
        for replying in self._replying:
            replying.cancel()
