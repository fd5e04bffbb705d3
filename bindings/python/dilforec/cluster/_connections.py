"""The ways to workers: a connection of our own to each, and Dask's rpc beside it."""
# Dask has no types.
# mypy: allow-untyped-calls
from __future__ import annotations

import asyncio
import contextlib
import functools
import ssl
from collections.abc import Callable
from typing import Any, Optional

from distributed.comm.addressing import parse_address, parse_host_port

from dilforec.cluster._connection import Connection
from dilforec.cluster._frames import LONGEST, Data
from dilforec.cluster._requests import LISTENER, OPERATION

# Seconds that a connection may take to be made, and that are between two tries of one.
MAKING, BETWEEN = 10.0, 30.0


class Connections:
    """Asks workers, each over a connection of its own as soon as it has one. Until then, and if it has none, by rpc.

    `rpc` is the pool of a Dask client or worker. All methods but `end` run in its event loop. `reached` is called with
    the address of a worker that answered as a connection to it was to be made.
    """

    def __init__(
        self, rpc: Any, loop: asyncio.AbstractEventLoop, reached: Callable[[str], object] = lambda address: None,
    ) -> None:
        self._rpc, self._loop, self._reached = rpc, loop, reached
        self._connections: dict[str, Connection] = {}
        # By address: when the next connection may be made.
        self._next_try: dict[str, float] = {}
        self._making: set[asyncio.Task[None]] = set()
        self._is_closed = False

    def ask(self, address: str, request: bytes) -> asyncio.Future[Data]:
        """A worker's reply to a request. OSError if it can't be reached, or is lost."""
        connection = self.find(address)
        if connection is not None and len(request) <= LONGEST:
            # A task would take longer than all else that is done here.
            return connection.ask(request)
        return asyncio.ensure_future(self._ask_by_rpc(address, request))

    def find(self, address: str) -> Optional[Connection]:
        """The connection to a worker. If there is none, one is made soon, as far as it can be."""
        connection = self._connections.get(address)
        if connection is not None and connection.is_open:
            return connection
        self._make_soon(address)
        return None

    async def _ask_by_rpc(self, address: str, request: bytes) -> Data:
        return replied(address, await getattr(self._rpc(address), OPERATION)(request=request))

    def _make_soon(self, address: str) -> None:
        now = self._loop.time()
        if not self._is_closed and now >= self._next_try.get(address, now):
            self._next_try[address] = now + BETWEEN
            making = asyncio.ensure_future(self._make(address))
            self._making.add(making)
            making.add_done_callback(self._making.discard)

    async def _make(self, address: str) -> None:
        """Makes a connection to a worker, if it has a listener, and that can be reached."""
        with contextlib.suppress(OSError, asyncio.TimeoutError):
            scheme, place = parse_address(address)
            context = tls(scheme, self._rpc.connection_args)
            told = await getattr(self._rpc(address), LISTENER)()
            self._reached(address)
            if told is not None:
                port, token = told
                connection = self._connections[address] = Connection(
                    token, functools.partial(self._ask_by_rpc, address))
                host, _ = parse_host_port(place)
                made = self._loop.create_connection(lambda: connection, host, port, ssl=context)
                try:
                    await asyncio.wait_for(made, MAKING)
                except BaseException:
                    connection.close()
                    raise

    def end(self) -> None:
        """As `close`, from any thread; it does nothing once the loop has ended."""
        with contextlib.suppress(RuntimeError):
            self._loop.call_soon_threadsafe(self.close)

    def close(self) -> None:
        """Ends the connections, and what is asked over them as if the workers were lost. Then all goes by rpc."""
        self._is_closed = True
        for making in self._making:
            making.cancel()
        for connection in self._connections.values():
            connection.close()


def replied(address: str, reply: Optional[bytes]) -> bytes:
    """What a worker replied, if it has a handler."""
    if reply is None:
        raise RuntimeError(f"{address} can't answer searches: has it another version of dilforec?")
    return reply


def tls(scheme: str, arguments: dict[str, Any]) -> Optional[ssl.SSLContext]:
    """The TLS of connections beside one of Dask's, which has these arguments; none if that has none.

    OSError if it has neither TCP nor TLS.
    """
    if scheme == "tcp":
        return None
    context = arguments.get("ssl_context")
    if scheme != "tls" or not isinstance(context, ssl.SSLContext):
        raise OSError(f"no connection can be made beside one of {scheme}")
    return context
