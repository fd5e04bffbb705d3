"""Connections to a worker's listener beside Dask's rpc, in one event loop, with stand-ins for a worker and for rpc.

Each test runs in asyncio's loop, and in uvloop's if that is there; none may leave a task or a socket.

It needs `distributed`. tests/cluster.py runs it.
"""
from __future__ import annotations

import asyncio
import contextlib
import functools
import gc
import os
import pathlib
import shutil
import socket
import subprocess
import tempfile
import unittest
import warnings
from collections.abc import AsyncIterator, Callable, Coroutine
from typing import Any, TypeVar
from unittest import mock

from distributed.security import Security

from dilforec.cluster import _connections, _frames, _listener
from dilforec.cluster._connections import Connections
from dilforec.cluster._frames import HEAD, Frames
from dilforec.cluster._listener import TOKEN, Listener
from dilforec.cluster._requests import LISTENER, OPERATION

Test = TypeVar("Test", bound=unittest.TestCase)

LOOPS: dict[str, Callable[[], asyncio.AbstractEventLoop]] = {"asyncio": asyncio.new_event_loop}
with contextlib.suppress(ImportError):
    import uvloop

    LOOPS["uvloop"] = uvloop.new_event_loop

SIZES = (0, 1, 300, 65_536, 3_000_000)


def in_each_loop(test: Callable[[Test], Coroutine[Any, Any, None]]) -> Callable[[Test], None]:
    """A test that is a coroutine, run in each loop. Then no task, no open socket and no exception is left."""
    @functools.wraps(test)
    def run(self: Test) -> None:
        for name, new_loop in LOOPS.items():
            with self.subTest(loop=name), warnings.catch_warnings(record=True) as warned:
                warnings.simplefilter("always", ResourceWarning)
                loop, troubles = new_loop(), []
                asyncio.set_event_loop(loop)
                loop.set_exception_handler(lambda _, trouble: troubles.append(trouble["message"]))
                loop.run_until_complete(asyncio.wait_for(test(self), 60))
                # What a closed socket needs.
                loop.run_until_complete(asyncio.sleep(0.05))
                left = asyncio.all_tasks(loop)
                # A handshake that fails is told if the loop is in debug mode.
                troubles = [each for each in troubles if "incoming connection" not in each]
                asyncio.set_event_loop(None)
                loop.close()
                gc.collect()
                self.assertEqual((left, troubles, list(map(str, warned))), (set(), [], []))

    return run


class Worker:
    """A stand-in for a worker, with the handlers of `rpc`. It answers requests by themselves, turned around."""

    def __init__(self, address: str = "tcp://127.0.0.1:0", security: Any = None) -> None:
        self.address, self.security = address, security or Security()
        self.listener = Listener(self, self.reply_to)
        self.wait: Callable[[bytes], Coroutine[Any, Any, None]] | None = None
        self.asked: list[bytes] = []

    async def reply_to(self, request: bytes | memoryview) -> bytes:
        request = bytes(request)
        self.asked.append(request)
        if self.wait:
            await self.wait(request)
        if request == b"fail":
            raise ValueError("no")
        return request[::-1]

    async def told(self) -> tuple[int, bytes]:
        """The port and the token of its listener."""
        told = await self.listener.tell(None)
        assert told is not None
        return told


class Rpc:
    """A stand-in for the rpc of a client that knows one worker. It counts what is asked."""

    def __init__(self, worker: Worker) -> None:
        self.worker, self.connection_args = worker, worker.security.get_connection_args("client")
        self.requests, self.listeners = 0, 0
        self.reached: list[str] = []

    def __call__(self, address: str) -> Rpc:
        assert address == self.worker.address
        return self

    async def answer(self, request: bytes) -> bytes:
        self.requests += 1
        return await self.worker.reply_to(request)

    async def tell(self) -> tuple[int, bytes] | None:
        self.listeners += 1
        # Another process goes on.
        return await asyncio.shield(self.worker.listener.tell(None))

    def __getattr__(self, name: str) -> Callable[..., Any]:
        handlers: dict[str, Callable[..., Any]] = {OPERATION: self.answer, LISTENER: self.tell}
        return handlers[name]


@contextlib.asynccontextmanager
async def connected(worker: Worker | None = None) -> AsyncIterator[tuple[Worker, Rpc, Connections]]:
    """A worker, its rpc, and connections of which the one to the worker is there if it can be."""
    worker = worker or Worker()
    rpc = Rpc(worker)
    connections = Connections(rpc, asyncio.get_running_loop(), rpc.reached.append)
    assert await connections.ask(worker.address, b"first") == b"tsrif"
    await asyncio.gather(*connections._making, return_exceptions=True)
    try:
        yield worker, rpc, connections
    finally:
        connections.close()
        worker.listener.close()


class Stranger(Frames):
    """Who connects without knowing the token."""

    def __init__(self) -> None:
        super().__init__()
        self.frames: asyncio.Queue[tuple[int, bytes]] = asyncio.Queue()
        self.lost: asyncio.Future[None] = asyncio.get_running_loop().create_future()

    def received(self, number: int, data: memoryview) -> None:
        self.frames.put_nowait((number, bytes(data)))

    def connection_lost(self, error: Exception | None) -> None:
        self.lost.set_result(None)


async def stranger(worker: Worker, *sent: bytes) -> Stranger:
    port, _ = await worker.told()
    _, come = await asyncio.get_running_loop().create_connection(Stranger, "127.0.0.1", port)
    for data in sent:
        come._transport.write(data)
    return come


def frame(number: int, data: bytes) -> bytes:
    return HEAD.pack(number, len(data)) + data


class ConnectionsTest(unittest.TestCase):
    @in_each_loop
    async def test_as_by_rpc(self) -> None:
        """The reply is that of rpc, whatever its length; rpc is asked once, before there is a connection."""
        async with connected() as (worker, rpc, connections):
            for size in SIZES[1:]:
                data = os.urandom(size)
                self.assertEqual(bytes(await connections.ask(worker.address, data) or b""), data[::-1])
            self.assertEqual((rpc.requests, rpc.listeners), (1, 1))

    @in_each_loop
    async def test_at_once(self) -> None:
        """Several requests under way, whose replies come in another order."""
        async def wait(request: bytes) -> None:
            await asyncio.sleep(0.1 / (1 + request[0]))

        async with connected() as (worker, rpc, connections):
            worker.wait = wait
            sent = [bytes([number]) * (1 + 40_000 * (number % 3)) for number in range(40)]
            replies = await asyncio.gather(*(connections.ask(worker.address, each) for each in sent))
            self.assertEqual((list(map(bytes, replies)), rpc.requests), (sent, 1))

    @in_each_loop
    async def test_what_rpc_does(self) -> None:
        """A failure is raised by rpc; what is too long, there and back, goes by rpc."""
        async with connected() as (worker, rpc, connections):
            with self.assertRaises(ValueError):
                await connections.ask(worker.address, b"fail")
            self.assertEqual(rpc.requests, 2)
            with mock.patch.object(_connections, "LONGEST", 100):
                self.assertEqual(await connections.ask(worker.address, b"x" * 101), b"x" * 101)
                self.assertEqual(rpc.requests, 3)
            with mock.patch.object(_listener, "LONGEST", 100):
                self.assertEqual(await connections.ask(worker.address, b"y" * 101), b"y" * 101)
                self.assertEqual(bytes(await connections.ask(worker.address, b"z" * 100) or b""), b"z" * 100)
            self.assertEqual(rpc.requests, 4)

    @in_each_loop
    async def test_broken(self) -> None:
        """A connection that ends while it is asked, as with a worker that dies, and is made again later."""
        async with connected() as (worker, rpc, connections):
            worker.wait = lambda request: asyncio.sleep(60)
            asking = [asyncio.ensure_future(connections.ask(worker.address, b"x")) for _ in range(3)]
            while len(worker.asked) < 4:
                await asyncio.sleep(0.01)
            for accepted in worker.listener._accepted:
                accepted.close()
            for each in asking:
                with self.assertRaises(ConnectionResetError):
                    await each
            worker.wait = None
            for _ in range(2):
                self.assertEqual(await connections.ask(worker.address, b"ab"), b"ba")
            self.assertEqual((rpc.requests, rpc.listeners), (3, 1))
            with mock.patch.object(_connections, "BETWEEN", 0):
                connections._next_try.clear()
                self.assertEqual(await connections.ask(worker.address, b"ab"), b"ba")
                await asyncio.gather(*connections._making)
                self.assertEqual(bytes(await connections.ask(worker.address, b"ab") or b""), b"ba")
            self.assertEqual((rpc.requests, rpc.listeners), (4, 2))

    @in_each_loop
    async def test_cancelled(self) -> None:
        """A reply to one that doesn't wait any more is dropped."""
        async with connected() as (worker, rpc, connections):
            worker.wait = lambda request: asyncio.sleep(0.05)
            asking = asyncio.ensure_future(connections.ask(worker.address, b"ab"))
            await asyncio.sleep(0.01)
            asking.cancel()
            self.assertEqual(bytes(await connections.ask(worker.address, b"cd") or b""), b"dc")
            self.assertEqual(rpc.requests, 1)

    @in_each_loop
    async def test_no_listener(self) -> None:
        """A worker of another kind of transport, one whose interface isn't here, one without the handler."""
        for address in "inproc://1.2.3.4/5/6", "tcp://192.0.2.1:80":
            async with connected(Worker(address)) as (worker, rpc, connections):
                self.assertEqual(await connections.ask(worker.address, b"ab"), b"ba")
                self.assertEqual(rpc.requests, 2)
        worker = Worker()
        patch = mock.patch.object(worker.listener, "tell", mock.AsyncMock(return_value=None))
        patch.start()
        self.addCleanup(patch.stop)
        async with connected(worker) as (_, rpc, connections):
            self.assertEqual(await connections.ask(worker.address, b"ab"), b"ba")
            self.assertEqual((rpc.requests, rpc.listeners, rpc.reached), (2, 1, [worker.address]))

    @in_each_loop
    async def test_unreachable(self) -> None:
        """A port that can't be reached, and one that takes no connection in time: rpc goes on."""
        async def closed_port(comm: Any) -> tuple[int, bytes]:
            with socket.create_server(("127.0.0.1", 0)) as unused:
                return unused.getsockname()[1], b"x" * TOKEN

        worker = Worker()
        patch = mock.patch.object(worker.listener, "tell", closed_port)
        patch.start()
        self.addCleanup(patch.stop)
        async with connected(worker) as (_, rpc, connections):
            self.assertEqual(await connections.ask(worker.address, b"ab"), b"ba")
            self.assertEqual((rpc.requests, rpc.listeners), (2, 1))

    @in_each_loop
    async def test_closed_meanwhile(self) -> None:
        """Connections that are closed while one is being made, or is asked."""
        worker = Worker()
        for steps in range(30):
            rpc = Rpc(worker)
            connections = Connections(rpc, asyncio.get_running_loop())
            await connections.ask(worker.address, b"ab")
            for _ in range(steps):
                await asyncio.sleep(0)
            connections.close()
            await asyncio.gather(*connections._making, return_exceptions=True)
            while worker.listener._accepted:
                await asyncio.sleep(0.001)
            self.assertEqual(await connections.ask(worker.address, b"ab"), b"ba")
            self.assertEqual(rpc.requests, 2)
        await asyncio.sleep(0.05)
        worker.listener.close()
        async with connected() as (worker, rpc, connections):
            worker.wait = lambda request: asyncio.sleep(60)
            asking = asyncio.ensure_future(connections.ask(worker.address, b"ab"))
            await asyncio.sleep(0.05)
            connections.close()
            with self.assertRaises(ConnectionResetError):
                await asking


class ListenerTest(unittest.TestCase):
    @in_each_loop
    async def test_strangers(self) -> None:
        """Who doesn't begin with the token gets nothing, and nothing of his is taken for a request."""
        async with connected() as (worker, rpc, connections):
            _, token = await worker.told()
            request = frame(1, b"request")
            for sent in (
                request, frame(0, b"x" * TOKEN) + request, frame(0, token[:-1]) + request, frame(0, b"") + request,
                frame(0, token + b"x") + request, b"GET / HTTP/1.1\r\nHost: a\r\n\r\n", HEAD.pack(0, 2**32 - 1),
            ):
                come = await stranger(worker, sent)
                await asyncio.wait_for(come.lost, 5)
                self.assertTrue(come.frames.empty())
            self.assertEqual(worker.asked, [b"first"])
            come = await stranger(worker, frame(0, token) + request[:5])
            await asyncio.sleep(0.05)
            come._transport.write(request[5:] + frame(2, b"ab"))
            self.assertEqual([await come.frames.get(), await come.frames.get()], [(1, b"tseuqer"), (2, b"ba")])
            come.close()
            await come.lost

    @in_each_loop
    async def test_silent(self) -> None:
        """Who says nothing is given up."""
        async with connected() as (worker, rpc, connections):
            with mock.patch.object(_listener, "PATIENCE", 0.1):
                come = await stranger(worker, frame(0, b"x")[:7])
                await asyncio.wait_for(come.lost, 5)

    @in_each_loop
    async def test_too_long(self) -> None:
        """A frame that is too long ends the connection, on either side, before it is read."""
        async with connected() as (worker, rpc, connections):
            _, token = await worker.told()
            come = await stranger(worker, frame(0, token), HEAD.pack(1, _frames.LONGEST + 1) + b"x" * 100)
            await asyncio.wait_for(come.lost, 5)
            (accepted,) = worker.listener._accepted
            worker.wait = lambda request: asyncio.sleep(60)
            asking = asyncio.ensure_future(connections.ask(worker.address, b"ab"))
            await asyncio.sleep(0.05)
            accepted._transport.write(HEAD.pack(1, _frames.LONGEST + 1) + b"x" * 100)
            with self.assertRaises(ConnectionResetError):
                await asking

    @in_each_loop
    async def test_pieces(self) -> None:
        """Frames that come byte by byte, and many at once."""
        async with connected() as (worker, rpc, connections):
            _, token = await worker.told()
            come = await stranger(worker)
            for byte in frame(0, token) + frame(1, b"ab") + frame(2, b"") + frame(3, b"cd"):
                come._transport.write(bytes([byte]))
                await asyncio.sleep(0)
            told = sorted([await come.frames.get() for _ in range(3)])
            self.assertEqual(told, [(1, b"ba"), (2, b""), (3, b"dc")])
            come._transport.write(b"".join(frame(number, b"%d" % number) for number in range(10, 10_010)))
            told = sorted([await come.frames.get() for _ in range(10_000)])
            self.assertEqual(told, [(number, str(number)[::-1].encode()) for number in range(10, 10_010)])
            come.close()
            await come.lost

    @in_each_loop
    async def test_slow_reader(self) -> None:
        """Who doesn't read his replies isn't read either, until he does."""
        async with connected() as (worker, rpc, connections):
            _, token = await worker.told()
            come = await stranger(worker, frame(0, token))
            come._transport.pause_reading()
            for number in range(200):
                come._transport.write(frame(number, bytes([number]) * 1_000_000))
                await asyncio.sleep(0.001)
            await asyncio.sleep(0.2)
            held = len(worker.asked)
            await asyncio.sleep(0.2)
            self.assertEqual(len(worker.asked), held)
            self.assertLess(held, 100)
            come._transport.resume_reading()
            for number in range(200):
                self.assertEqual(await come.frames.get(), (number, bytes([number]) * 1_000_000))
            come.close()
            await come.lost

    @in_each_loop
    async def test_closed(self) -> None:
        """A listener that is closed while it is asked leaves nothing, and takes nobody in any more."""
        async with connected() as (worker, rpc, connections):
            port, token = await worker.told()
            worker.wait = lambda request: asyncio.sleep(60)
            asking = asyncio.ensure_future(connections.ask(worker.address, b"ab"))
            await asyncio.sleep(0.05)
            worker.listener.close()
            with self.assertRaises(ConnectionResetError):
                await asking
            with self.assertRaises(OSError):
                await asyncio.get_running_loop().create_connection(Stranger, "127.0.0.1", port)


@unittest.skipUnless(shutil.which("openssl"), "there is no openssl")
class TlsTest(unittest.TestCase):
    # Each is a Security of Dask's.
    security: Any
    other: Any

    @classmethod
    def setUpClass(cls) -> None:
        folder = tempfile.TemporaryDirectory()
        cls.addClassCleanup(folder.cleanup)
        cls.security, cls.other = (cls.made(pathlib.Path(folder.name), name) for name in ("own", "other"))

    @staticmethod
    def made(folder: pathlib.Path, name: str) -> Any:
        """An authority of its own, and a certificate of it."""
        for words in (
            f"req -x509 -newkey rsa:2048 -nodes -days 2 -subj /CN=authority -keyout {name}.a.key -out {name}.a.pem",
            f"req -newkey rsa:2048 -nodes -subj /CN=cluster -keyout {name}.key -out {name}.csr",
            f"x509 -req -in {name}.csr -CA {name}.a.pem -CAkey {name}.a.key -CAcreateserial -days 2 -out {name}.pem",
        ):
            subprocess.run(["openssl", *words.split()], cwd=folder, check=True, capture_output=True)
        given = {f"tls_{role}_{kind}": f"{folder}/{name}.{end}" for role in ("client", "worker")
                 for kind, end in (("cert", "pem"), ("key", "key"))}
        return Security(require_encryption=True, tls_ca_file=f"{folder}/{name}.a.pem", **given)

    @in_each_loop
    async def test_tls(self) -> None:
        """The same over TLS; the bytes of a request aren't to be seen, and who has no certificate isn't heard."""
        async with connected(Worker("tls://127.0.0.1:0", self.security)) as (worker, rpc, connections):
            for size in SIZES[1:]:
                data = os.urandom(size)
                self.assertEqual(bytes(await connections.ask(worker.address, data) or b""), data[::-1])
            self.assertEqual(rpc.requests, 1)
            (connection,) = connections._connections.values()
            self.assertIsNotNone(connection._transport.get_extra_info("cipher"))
            _, token = await worker.told()
            come = await stranger(worker, frame(0, token) + frame(1, b"request"))
            await asyncio.wait_for(come.lost, 5)
            self.assertNotIn(b"request", worker.asked)

    @in_each_loop
    async def test_other_authority(self) -> None:
        """A client with the certificate of another authority asks by rpc, which is refused as it may be."""
        worker = Worker("tls://127.0.0.1:0", self.security)
        rpc = Rpc(worker)
        rpc.connection_args = self.other.get_connection_args("client")
        connections = Connections(rpc, asyncio.get_running_loop())
        for _ in range(2):
            self.assertEqual(await connections.ask(worker.address, b"ab"), b"ba")
            await asyncio.gather(*connections._making)
            await asyncio.sleep(0.05)
        self.assertEqual((rpc.requests, rpc.listeners), (2, 1))
        connections.close()
        worker.listener.close()

    @in_each_loop
    async def test_without_certificates(self) -> None:
        """A worker of TLS without certificates opens no socket in the clear."""
        worker = Worker("tls://127.0.0.1:0")
        self.assertIsNone(await worker.listener.tell(None))


if __name__ == "__main__":
    unittest.main()
