"""The application without the command: as ASGI, called as a server calls it, and as WSGI, on servers of the library."""
from __future__ import annotations

import asyncio
import concurrent.futures
import functools
import json
import threading
import time
import unittest
import urllib.error
import urllib.request
import wsgiref.simple_server
import wsgiref.validate
from collections.abc import Iterable
from socketserver import ThreadingMixIn
from typing import Any
from unittest import mock

from dilforec.service import application, asgi
from dilforec.service._threads import Threads
from service_tools import Stored


class Asgi(Stored):
    def setUp(self) -> None:
        super().setUp()
        self.store = self.opened()
        self.app = asgi(self.store, hosts=["here"], token="abcdefghijklmnop", body_limit=100, body_seconds=0.2)
        self.addCleanup(self.app.close)

    async def ask(
        self, method: str, path: str, *parts: bytes, token: str = "abcdefghijklmnop", ends: bool | None = True,
        scope: dict[str, Any] | None = None, headers: Iterable[tuple[bytes, bytes]] = (),
    ) -> Any:
        """The status, the headers and the body of an answer; parts of a body come one after another."""
        given = [(b"host", b"here"), (b"content-type", b"application/json"), *headers]
        given += [(b"authorization", b"Bearer " + token.encode())] if token else []
        path, _, query = path.partition("?")
        asked = {"type": "http", "method": method, "path": path, "query_string": query.encode(), "headers": given,
                 **(scope or {})}
        sent, left, self.read = [], list(parts), 0

        async def receive() -> dict[str, Any]:
            self.read += 1
            if left:
                return {"type": "http.request", "body": left.pop(0), "more_body": bool(left) or not ends}
            if ends is None:
                return {"type": "http.disconnect"}
            if not ends:
                await asyncio.sleep(60)
            return {"type": "http.request"}

        async def send(message: dict[str, Any]) -> None:
            sent.append(message)

        await self.app(asked, receive, send)
        if not sent:
            return None
        start, body = sent
        self.assertEqual([type(value) for pair in start["headers"] for value in pair],
                         [bytes] * 2 * len(start["headers"]))
        told = dict(start["headers"])
        self.assertEqual(int(told.get(b"content-length", 0)),
                         len(body["body"]) if method != "HEAD" else int(told[b"content-length"]))
        return start["status"], told, json.loads(body["body"] or b"null")

    def asked(self, *given: Any, **more: Any) -> Any:
        return asyncio.run(self.ask(*given, **more))

    def test_calls(self) -> None:
        """A body in parts, a search, a head without a body, and errors."""
        self.assertEqual(self.asked("POST", "/documents", b'{"tit', b'le":', b'"a"}')[::2],
                         (201, {"ids": [1], "commit": 1}))
        self.assertEqual(self.asked("GET", "/search?q=a")[2]["count"], 1)
        self.assertEqual(self.asked("HEAD", "/documents/1")[2], None)
        self.assertEqual(self.asked("GET", "/documents/7")[2]["error"], "NoSuchDocument")
        self.assertEqual(self.asked("POST", "/documents", b"x" * 60, b"x" * 60)[::2][0], 413)
        self.assertEqual(self.asked("GET", "/", headers=[(b"x", b"a" * 90_000)])[0], 431)

    def test_body(self) -> None:
        """A body isn't read before the token is looked at, has a time, and a client may go away within it."""
        status, headers, _ = self.asked("POST", "/documents", b"{}", token="wrong")
        self.assertEqual((status, self.read), (401, 0))
        status, headers, told = self.asked("POST", "/documents", b"{", ends=False)
        self.assertEqual((status, headers[b"connection"], told["error"]), (408, b"close", "TooSlow"))
        self.assertIsNone(self.asked("POST", "/documents", b"{", ends=None))
        self.assertEqual(len(self.store), 0)

    def test_bodies(self) -> None:
        """Bodies that arrive at a time are held up to a number of bytes; others are refused, and taken again later."""
        async def many() -> tuple[Any, list[Any]]:
            half = b"[" + b" " * 80
            slow = [asyncio.create_task(self.ask("POST", "/documents", half, ends=False)) for _ in range(19)]
            await asyncio.sleep(0.05)
            told = await self.ask("POST", "/documents", half + b"]")
            return told, await asyncio.gather(*slow)

        told, slow = asyncio.run(many())
        self.assertEqual((told[0], told[2]["error"], told[1][b"connection"]), (503, "TooManyBodies", b"close"))
        self.assertEqual({status for status, _, _ in slow}, {408})
        self.assertEqual(self.asked("POST", "/documents", b"{}")[0], 201)

    def test_together(self) -> None:
        """Changes of one round share a sync, and each has its own answer; a failing store answers each."""
        async def many() -> list[Any]:
            bodies = [b"{}", b'{"year":"x"}', b"{}", b"["] * 5
            return list(await asyncio.gather(*(self.ask("POST", "/documents", body) for body in bodies)))

        told = asyncio.run(many())
        self.assertEqual([status for status, _, _ in told], [201, 400, 201, 400] * 5)
        self.assertEqual(len({body["commit"] for _, _, body in told if "commit" in body}), 1)
        broken = mock.patch.object(type(self.store), "submit", side_effect=RuntimeError("broken"))
        with broken, self.assertLogs("dilforec.service", "ERROR"):
            self.assertEqual({status for status, _, _ in asyncio.run(many())}, {500, 400})
        self.assertEqual(self.asked("POST", "/documents", b"{}")[0], 201)
        self.store.close()
        self.assertEqual(self.asked("POST", "/documents", b"{}")[::2], (503, {"error": "Stopped", "message": mock.ANY}))

    def test_lifespan(self) -> None:
        """A server tells it when it begins and ends."""
        sent, events = [], [{"type": "lifespan.startup"}, {"type": "lifespan.shutdown"}]

        async def receive() -> dict[str, Any]:
            return events.pop(0)

        async def send(message: dict[str, Any]) -> None:
            sent.append(message["type"])

        asyncio.run(self.app({"type": "lifespan"}, receive, send))
        self.assertEqual(sent, ["lifespan.startup.complete", "lifespan.shutdown.complete"])
        with self.assertRaises(ValueError):
            asyncio.run(self.app({"type": "websocket"}, receive, send))


class Calls(unittest.TestCase):
    def test_threads(self) -> None:
        """Calls are made by so many threads at most, which are started when they are needed, and end."""
        threads = Threads(3, "test-call")
        wait, at_a_time, most = threading.Barrier(3), [], []

        def call(number: int) -> int:
            at_a_time.append(number)
            most.append(len(at_a_time))
            wait.wait(20)
            at_a_time.remove(number)
            if number % 2:
                raise KeyError(number)
            return number

        async def made() -> None:
            self.assertEqual(await threads.call(lambda: "alone"), "alone")
            self.assertEqual(len(self.named()), 1)
            calls = [threads.call(functools.partial(call, number)) for number in range(12)]
            told = await asyncio.gather(*calls, return_exceptions=True)
            self.assertEqual([type(each) for each in told], [int, KeyError] * 6)
            self.assertEqual((max(most), len(self.named())), (3, 3))
            given_up = asyncio.create_task(threads.call(lambda: time.sleep(0.2)))
            await asyncio.sleep(0.05)
            given_up.cancel()
            self.assertEqual(await threads.call(lambda: "goes on"), "goes on")
            threads.close()
            with self.assertRaises(RuntimeError):
                await threads.call(lambda: "never")

        asyncio.run(made())
        until = time.monotonic() + 20
        while self.named() and time.monotonic() < until:
            time.sleep(0.01)
        self.assertEqual(self.named(), [])

    @staticmethod
    def named() -> list[threading.Thread]:
        return [thread for thread in threading.enumerate() if thread.name.startswith("test-call")]

    def test_no_thread(self) -> None:
        """A system without threads is an error of the first call alone, and later ones are made by those there are."""
        threads = Threads(2, "test-call")
        self.addCleanup(threads.close)

        async def made() -> None:
            none = mock.patch.object(threading.Thread, "start", side_effect=RuntimeError("can't start new thread"))
            with none, self.assertRaises(RuntimeError):
                await threads.call(lambda: 1)
            self.assertEqual(await threads.call(lambda: 2), 2)
            with none:
                waiting = threads.call(lambda: time.sleep(0.1)), threads.call(lambda: 3)
                self.assertEqual(await asyncio.gather(*waiting), [None, 3])

        asyncio.run(made())


class Threading(ThreadingMixIn, wsgiref.simple_server.WSGIServer):
    daemon_threads = True


class Quiet(wsgiref.simple_server.WSGIRequestHandler):
    def log_message(self, *_: object) -> None:
        pass


class Wsgi(Stored):
    def test_served(self) -> None:
        """On a server with threads, which looks whether it is WSGI: searches, changes of many clients, refusals."""
        store = self.opened()
        server = Threading(("127.0.0.1", 0), Quiet)
        port = server.server_port
        made = application(store, hosts=[f"127.0.0.1:{port}"], body_limit=1000)
        # It lets no answer be without a type, as one of 304 is.
        server.set_app(wsgiref.validate.validator(made))
        thread = threading.Thread(target=server.serve_forever)
        thread.start()
        self.addCleanup(server.server_close)
        self.addCleanup(thread.join)
        self.addCleanup(server.shutdown)

        def ask(path: str, body: bytes | None = None) -> tuple[int, Any]:
            asked = urllib.request.Request(f"http://127.0.0.1:{port}{path}", body, {"Content-Type": "application/json"})
            try:
                with urllib.request.urlopen(asked, timeout=30) as told:
                    return told.status, json.load(told)
            except urllib.error.HTTPError as error:
                with error:
                    return error.code, json.load(error)

        with concurrent.futures.ThreadPoolExecutor(8) as pool:
            told = list(pool.map(lambda number: ask("/documents", json.dumps({"title": f"é {number}"}).encode()),
                                 range(40)))
        self.assertEqual(sorted(body["ids"][0] for _, body in told), list(range(1, 41)))
        self.assertEqual(ask("/search?q=%C3%A9")[1]["count"], 40)
        self.assertEqual(ask("/documents/1")[1]["id"], 1)
        self.assertEqual(ask("/documents", b"x" * 2000)[0], 413)
        self.assertEqual(ask("/documents", b"[")[1]["error"], "BadJson")
        self.assertEqual(ask("/n%C3%A9")[0], 404)
        self.assertEqual(ask("/readyz"), (200, {"ready": True, "documents": 40, "writable": True}))


if __name__ == "__main__":
    unittest.main()
