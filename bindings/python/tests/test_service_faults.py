"""The service over HTTP under what the world does to it: clients that don't read, drip, are silent, or send what is no
request; and an end in the middle of an answer."""
from __future__ import annotations

import contextlib
import json
import re
import signal
import socket
import time
import unittest

from service_tools import Served, Server

JSON = "Content-Type: application/json"


class Faults(Served):
    def connected(self, server: Server, data: bytes = b"", room: int | None = None) -> socket.socket:
        """A connection that sends something. With `room`, the system takes so many bytes for it, and no more."""
        sock = socket.socket()
        self.addCleanup(sock.close)
        if room:
            sock.setsockopt(socket.SOL_SOCKET, socket.SO_RCVBUF, room)
        sock.settimeout(30)
        sock.connect(("127.0.0.1", server.port))
        sock.sendall(data)
        return sock

    @staticmethod
    def request(server: Server, line: str, *headers: str, body: bytes = b"") -> bytes:
        head = "\r\n".join([f"{line} HTTP/1.1", f"Host: localhost:{server.port}", *headers, "", ""])
        return head.encode() + body

    @staticmethod
    def received(sock: socket.socket) -> bytes:
        """All that comes before the connection ends."""
        told = b""
        with contextlib.suppress(ConnectionResetError):
            while data := sock.recv(1 << 20):
                told += data
        return told

    def refusal(self, sock: socket.socket) -> tuple[int, str]:
        """The status and the error of an answer, which is the documented JSON, and after which the connection ends."""
        head, _, body = self.received(sock).partition(b"\r\n\r\n")
        self.assertIn(b"content-type: application/json", head.lower())
        told = json.loads(body)
        self.assertRegex(told["message"], "[a-z]")
        return int(head[9:12]), told["error"]

    def count(self, server: Server, name: str) -> int:
        found = re.search(rf"^dilforec_{name} ([0-9]+)$", server.ask("GET", "/metrics")[1], re.MULTILINE)
        assert found
        return int(found[1])

    def fill(self, server: Server) -> bytes:
        """Documents of 6 MB, which all are the answer to a search."""
        for _ in range(4):
            status, _ = server.ask("POST", "/documents", [{"title": "x" * 6000, "year": 1}] * 250)
            self.assertEqual(status, 201)
        return self.request(server, "GET /search?top=id,1000,rising")

    def size(self, server: Server, line: str) -> int:
        """How many bytes the answer to a request has, its head included."""
        closing = "Connection: close"
        return len(self.received(self.connected(server, self.request(server, line, closing)))) - len(closing) - 2

    @staticmethod
    def taken(server: Server, sock: socket.socket) -> int:
        """How many bytes for a client the system has, sent or not."""
        ours, count = {sock.getsockname()[1], server.port}, 0
        with open("/proc/net/tcp") as file:
            next(file)
            for _, here, there, _, queues, *_ in map(str.split, file):
                if {int(end.partition(":")[2], 16) for end in (here, there)} == ours:
                    count += sum(int(queue, 16) for queue in queues.split(":"))
        return count

    @staticmethod
    def await_quiet(server: Server) -> None:
        """Returns when a server has done next to nothing for a second."""
        before, until = -1.0, time.monotonic() + 60
        while (spent := server.seconds()) - before > 0.05 and time.monotonic() < until:
            before = spent
            time.sleep(1)

    def others(self, server: Server) -> None:
        """Others search and change."""
        began = time.monotonic()
        self.assertEqual(server.ask("GET", "/search?q=none")[0], 200)
        self.assertEqual(server.ask("POST", "/documents", {})[0], 201)
        self.assertLess(time.monotonic() - began, 10)


class Readers(Faults):
    def test_no_reader(self) -> None:
        """As many clients as threads ask for large answers and don't read: others are answered, and they are closed.

        A server that has a thread wait for a client once 64 MB are unsent had none left, and answered no search.
        """
        server = self.serve("--threads", 2, "--idle", 3)
        large = self.fill(server)
        silent = [self.connected(server, large * 30, room=4096) for _ in range(4)]
        until = time.monotonic() + 20
        while server.said().count("doesn't read") < 4 and time.monotonic() < until:
            self.others(server)
            time.sleep(0.1)
        time.sleep(1.5)
        self.assertEqual(server.said().count("doesn't read"), 4)
        self.others(server)
        for sock in silent:
            # Far less than all arrives, whatever the system has taken.
            self.assertLess(len(self.received(sock)), 30_000_000)

    def test_no_reader_of_a_change(self) -> None:
        """A client asks for large answers, then for changes, and doesn't read: small changes of others are done.

        A server that has a thread wait once 64 MB are unsent answers the searches up to a little less than that, and
        then the change that goes beyond it has the one thread of changes wait for this client. Nobody else's change was
        done, nor was the client ever closed for its silence, since it had requests.
        """
        server = self.serve("--idle", 60)
        large = self.fill(server)
        search = "GET /search?top=id,{},rising".format
        whole, half = (self.size(server, search(count)) for count in (1000, 500))
        each, taken = (whole - half) // 500, 0
        # What the system takes is the same for each such client, and is known after the first.
        for _ in range(2):
            searches, rest = divmod((64 << 20) - 1000 + taken, whole)
            count = max(1, (rest - whole) // each + 1000)
            changes = self.request(server, "DELETE /documents/9999") * 80
            asked = large * searches + self.request(server, search(count)) + changes
            # So many bytes a server reads at once.
            self.assertLess(len(asked), 8192)
            sock = self.connected(server, asked, room=4096)
            self.await_quiet(server)
            taken = self.taken(server, sock)
            self.others(server)
            sock.close()

    def test_memory(self) -> None:
        """A client that asks for large answers and doesn't read costs two of them at most, however many it asks for.

        While answers are made, each thread has six at most. Until its client has read the one that waits, no further
        request of it is begun.
        """
        clients, threads = 6, 2
        # The C library gives large blocks back when they are freed, so what is measured is what the service has.
        given_back = {"MALLOC_MMAP_THRESHOLD_": "131072"}
        server = self.serve("--threads", threads, "--idle", 60, environment=given_back)
        large = self.fill(server)
        # What the first answers take for good isn't counted.
        answer = min(self.size(server, "GET /search?top=id,1000,rising") for _ in range(2 * threads))
        before, _ = server.memory()
        for _ in range(clients):
            self.connected(server, large * 30, room=4096)
        # On a busy machine a server may be quiet for a second although it has more to do.
        kept, most, until = 2 * clients * answer, 0, time.monotonic() + 60
        while kept >= 2 * clients * answer and time.monotonic() < until:
            self.await_quiet(server)
            kept, highest = (count - before for count in server.memory())
            most = max(most, highest)
        self.assertLess(kept, 2 * clients * answer)
        self.assertLess(most, (2 * clients + 6 * threads) * answer)
        self.others(server)

    def test_idle_connections(self) -> None:
        """What a request costs the service doesn't grow with the connections that are silent."""
        server = self.serve("--idle", 600)

        def cost() -> float:
            sock, asked = self.connected(server), self.request(server, "GET /status")
            before = server.seconds()
            for _ in range(600):
                sock.sendall(asked)
                self.assertIn(b"200 OK", sock.recv(65536))
            return server.seconds() - before

        cost()
        alone = cost()
        silent = [self.connected(server) for _ in range(700)]
        server.ask("GET", "/status")
        beside = cost()
        self.assertLess(beside, 3 * alone + 0.1)
        for sock in silent:
            sock.close()

    def test_sent_ahead(self) -> None:
        """Requests that are sent ahead are answered in their order, up to a number."""
        server = self.serve()
        asked = self.request(server, "GET /documents/1")
        sock = self.connected(server, asked * 2000)
        told = self.received(sock)
        self.assertIn(told.count(b'"NoSuchDocument"'), range(256, 2000))


class Heads(Faults):
    def test_no_request(self) -> None:
        """What is no request is answered by the documented JSON, and counted."""
        server = self.serve("--body", 1000)
        before = self.count(server, "refusals_total")
        tried: list[tuple[str, list[str], bytes, int, str]] = [
            ("POST /documents", [JSON, "Content-Length: 5000000"], b"", 413, "BodyTooLarge"),
            ("POST /documents", [JSON, "Transfer-Encoding: chunked"], b"800\r\n" + b"x" * 2048 + b"\r\n", 413,
             "BodyTooLarge"),
            ("POST /documents", [JSON, "Transfer-Encoding: chunked"], b"2\r\n{}\r\nzz\r\n", 400, "BadRequest"),
            ("GET /search", ["Connection: Upgrade", "Upgrade: websocket"], b"", 400, "BadRequest"),
            ("GET /", ["X: " + "a" * 99_000], b"", 431, "HeadTooLarge"),
            ("GET /", [f"X{number}: {'a' * 900}" for number in range(100)], b"", 431, "HeadTooLarge"),
            ("GET /search?q=" + "a" * 70_000, [], b"", 414, "TooLong"),
            ("POST /documents", ["Content-Length: x"], b"", 400, "BadRequest"),
            ("POST /documents", ["Content-Length: -1"], b"", 400, "BadRequest"),
            ("POST /documents", ["Content-Length: 1", "Content-Length: 2"], b"", 400, "BadRequest"),
            ("POST /documents", [JSON, "Content-Length: 4", "Transfer-Encoding: chunked"], b"", 400, "BadRequest"),
            ("POST /documents", [JSON, "Transfer-Encoding: gzip"], b"", 501, "NotImplemented"),
            ("BREW /documents", [], b"", 501, "NotImplemented"),
            ("GET", [], b"", 400, "BadRequest"),
            ("GET http://[", [], b"", 400, "BadRequest"),
            ("\0\1\2", [], b"", 501, "NotImplemented"),
        ]
        for line, headers, body, status, name in tried:
            with self.subTest(line=line[:40], headers=[header[:40] for header in headers]):
                sock = self.connected(server, self.request(server, line, *headers, body=body))
                self.assertEqual(self.refusal(sock), (status, name))
        failures = self.count(server, "failures_total")
        refusals = self.count(server, "refusals_total") - before
        self.assertEqual((refusals, failures), (len(tried) - 3, 3))

    def test_after_a_request(self) -> None:
        """What comes after a request and is none doesn't take the place of its answer."""
        server = self.serve(slow_syncs=True)
        post = self.request(server, "POST /documents", JSON, "Content-Length: 2", body=b"{}")
        told = self.received(self.connected(server, post + b"nonsense\r\n\r\n"))
        self.assertEqual((told.count(b"HTTP/1.1"), told.count(b"201 Created")), (1, 1))

    def test_chunks_of_an_older_version(self) -> None:
        """What a request of HTTP/1.0 sends as chunks is no request of its own."""
        server = self.serve()
        within = self.request(server, "GET /healthz")
        chunked = self.request(server, "POST /documents", JSON, "Connection: keep-alive", "Transfer-Encoding: chunked")
        told = self.received(self.connected(server, chunked.replace(b"HTTP/1.1", b"HTTP/1.0", 1) + within))
        self.assertEqual((told.count(b"HTTP/1.1 400 "), told.count(b"HTTP/1.")), (1, 1), told)

    def test_slow(self) -> None:
        """A head and a body that drip are refused after their time; one that is silent is closed."""
        server = self.serve("--head-seconds", 1, "--body-seconds", 2, "--idle", 3)
        head = self.request(server, "POST /documents", JSON, "Content-Length: 50")
        began = time.monotonic()
        slow = [self.connected(server, head[:30]), self.connected(server, head + b"{"), self.connected(server)]
        for _ in range(20):
            for sock in slow[:2]:
                with contextlib.suppress(OSError):
                    sock.sendall(b" ")
            time.sleep(0.2)
        self.assertEqual([self.refusal(sock) for sock in slow[:2]], [(408, "TooSlow")] * 2)
        self.assertEqual(self.received(slow[2]), b"")
        self.assertLess(time.monotonic() - began, 15)

    def test_token_before_body(self) -> None:
        """Who may not change anything needn't send a body, and is told so before it comes."""
        token = self.folder / "token"
        token.write_text("abcdefghijklmnop")
        server = self.serve("--token-file", token)
        for wanted in "Content-Length: 10000000", "Transfer-Encoding: chunked", "Content-Length: 99999999":
            sock = self.connected(server, self.request(server, "POST /documents", JSON, wanted))
            self.assertIn(b" 401 ", sock.recv(1000))
        sock = self.connected(server, self.request(
            server, "POST /documents", JSON, "Content-Length: 1000000", "Expect: 100-continue"))
        self.assertNotIn(b"100 Continue", sock.recv(1000))
        # A body that comes anyway is read over, and what comes then is answered.
        sock.sendall(b"x" * 1_000_000 + self.request(server, "GET /healthz"))
        self.assertIn(b'{"healthy":true}', sock.recv(1000))

    def test_connections(self) -> None:
        """More connections than there may be are refused with JSON, and taken again when others went."""
        server = self.serve("--connections", 20, "--idle", 60)
        held = [self.connected(server, self.request(server, "GET /healthz")) for _ in range(20)]
        for sock in held:
            self.assertIn(b"200 OK", sock.recv(1000))
        self.assertEqual(self.refusal(self.connected(server)), (503, "TooManyConnections"))
        held.pop().close()
        time.sleep(0.5)
        self.assertEqual(server.ask("GET", "/healthz"), (200, {"healthy": True}))


class Ends(Faults):
    def slow_reader(self, server: Server) -> socket.socket:
        """A client that was sent a part of a large answer."""
        large = self.fill(server)
        sock = self.connected(server, large, room=65536)
        time.sleep(1)
        return sock

    def test_answer_under_way(self) -> None:
        """SIGTERM in the middle of a large answer: all of it arrives, and what comes new is refused."""
        server = self.serve("--grace", 20)
        sock = self.slow_reader(server)
        waiting = self.connected(server)
        server.process.send_signal(signal.SIGTERM)
        time.sleep(0.5)
        with self.assertRaises(OSError):
            self.connected(server)
        self.assertEqual(self.received(waiting), b"")
        head, _, body = self.received(sock).partition(b"\r\n\r\n")
        length = re.search(rb"(?i)content-length: ([0-9]+)", head)
        assert length
        self.assertEqual(len(body), int(length[1]))
        self.assertEqual(server.process.wait(10), 0)

    def test_grace(self) -> None:
        """A client that doesn't read holds the end up for the time of grace, and no longer."""
        server = self.serve("--grace", 2)
        self.slow_reader(server)
        began = time.monotonic()
        self.assertEqual(server.stop(signal.SIGTERM), 0)
        self.assertLess(time.monotonic() - began, 15)
        self.assertIn("are cut off", server.said())

    def test_twice(self) -> None:
        """SIGTERM again, and SIGINT, change nothing about the end."""
        server = self.serve(slow_syncs=True)
        sock = self.connected(server, self.request(server, "POST /documents", JSON, "Content-Length: 2", body=b"{}"))
        time.sleep(0.2)
        for number in signal.SIGTERM, signal.SIGTERM, signal.SIGTERM:
            server.process.send_signal(number)
            time.sleep(0.02)
        self.assertIn(b"201 Created", self.received(sock))
        self.assertEqual(server.process.wait(10), 0)


if __name__ == "__main__":
    unittest.main()
