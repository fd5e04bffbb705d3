"""The service over HTTP, as its command serves it: answers, refusals, and clients that mean no good."""
from __future__ import annotations

import concurrent.futures
import contextlib
import json
import os
import pathlib
import random
import re
import resource
import shutil
import signal
import socket
import subprocess
import sys
import threading
import time
import unittest
from unittest import mock

import dilforec
from dilforec.service import Store
from service_tools import SCHEMA, Served, Server

GUIDE = pathlib.Path(__file__).resolve().parents[3] / "docs/SERVICE.md"
class Answers(Served):
    def test_calls(self) -> None:
        """Each call, as docs/SERVICE.md has it."""
        server = self.serve()
        self.assertRegex(server.ready, r"^0 documents in [0-9.]+ s, at http://127\.0\.0\.1:[0-9]+/\n$")
        ask = server.ask
        told = ask("POST", "/documents", {"title": "Rust book", "year": 2018})
        self.assertEqual(told, (201, {"ids": [1], "commit": 1}))
        two = b'{"title":"a","day":"mon"}\n\n{"title":["b","c"],"day":"tue"}\n'
        told = ask("POST", "/documents", two, Content_Type="application/x-ndjson")
        self.assertEqual(told, (201, {"ids": [2, 3], "commit": 2}))
        self.assertEqual(ask("POST", "/documents", [{}, {"day": "mon"}]), (201, {"ids": [4, 5], "commit": 3}))
        self.assertEqual(ask("GET", "/documents/1"), (200, {"id": 1, "title": "Rust book", "year": 2018}))
        self.assertEqual(ask("PUT", "/documents/1", {"title": "Rust", "id": 1}), (200, {"ids": [1], "commit": 4}))
        self.assertEqual(ask("DELETE", "/documents/4"), (200, {"ids": [], "commit": 5}))
        lines = b'{"delete":{"day":"mon"}}\n{"add":{"title":"\xc3\xa9"}}\n{"add":{}}\n'
        told = ask("POST", "/transaction", lines, Content_Type="application/x-ndjson")
        self.assertEqual(told, (201, {"ids": [6, 7], "commit": 6}))
        self.assertEqual(ask("GET", "/documents?after=1&limit=2"), (200, {"documents": [
            {"id": 3, "title": ["b", "c"], "day": "tue"}, {"id": 6, "title": "é"}]}))
        self.assertEqual(ask("GET", "/documents?after=7"), (200, {"documents": []}))
        self.assertEqual(ask("GET", "/search?q=rust+OR+b&groups=day&groups=year&top=id,1,rising&fields=title"), (200, {
            "count": 2, "groups": {"day": [["tue", 1]], "year": []},
            "hits": [{"id": 1, "value": 1, "document": {"title": "Rust"}}], "commit": 6}))
        self.assertEqual([hit["id"] for hit in ask("GET", "/search")[1]["hits"]], [7, 6, 3, 1])
        self.assertEqual(ask("GET", "/search?q=%C3%A9")[1]["count"], 1)
        status = ask("GET", "/status")[1]
        self.assertEqual((status["documents"], status["commit"], status["schema"][0]), (4, 6, SCHEMA[0]))
        self.assertGreaterEqual(status["segments"], 1)
        code, text = ask("GET", "/metrics")
        self.assertEqual(code, 200)
        self.assertIn("\ndilforec_documents 4\n", text)
        self.assertIn(f"\ndilforec_segments {status['segments']}\n", text)
        self.assertRegex(text, r"\ndilforec_deleted_documents [0-9]+\n")
        self.assertIn("\ndilforec_searches_total 3\n", text)
        self.assertEqual(ask("POST", "/compact")[0], 200)
        self.assertEqual(ask("POST", "/transaction", [{"delete_all": True}]), (201, {"ids": [], "commit": 7}))
        self.assertEqual(ask("HEAD", "/documents"), (200, ""))
        found, page = ask("GET", "/")
        self.assertEqual((found, "<script>" in page), (200, True))
        self.assertIn("default-src 'none'", server.headers["Content-Security-Policy"])
        self.assertEqual(server.stop(signal.SIGTERM), 0)
        with Store([dilforec.Field(**field) for field in SCHEMA], self.journal) as store:
            self.assertEqual((len(store), store.commits), (0, 7))

    def test_refusals(self) -> None:
        """A bad request says what is wrong and where, and changes nothing."""
        server = self.serve("--body", 100_000)
        server.ask("POST", "/documents", {"title": "kept"})
        lines = {"Content_Type": "application/x-ndjson"}
        refused: list[tuple[str, str, object, int, str, int | None, dict[str, str]]] = [
            ("POST", "/documents", {"titel": "x"}, 400, "UnknownField", 1, {}),
            ("POST", "/documents", [{}, {"year": "late"}], 400, "WrongKind", 2, {}),
            ("POST", "/documents", b'{}\n\n{"year":-1}\n', 400, "WrongKind", 3, lines),
            ("POST", "/documents", b'{}\nnonsense\n', 400, "BadJson", 2, lines),
            ("POST", "/documents", b'{"title":"\xff"}', 400, "BadJson", None, {}),
            ("POST", "/documents", b'{"title":"\\ud800"}', 400, "BadJson", 1, {}),
            ("POST", "/documents", b'{"year":NaN}', 400, "BadJson", None, {}),
            ("POST", "/documents", b"[" * 50_000, 400, "BadJson", None, {}),
            ("POST", "/documents", b"", 400, "BadJson", None, {}),
            ("POST", "/documents", b"\n", 400, "Empty", None, lines),
            ("POST", "/documents", {"id": 9}, 400, "BadCommand", 1, {}),
            ("POST", "/documents", "[1]", 400, "NotAnObject", 1, {}),
            ("POST", "/transaction", b'{"add":{}}\n{"commit":true}\n', 400, "BadCommand", 2, lines),
            ("POST", "/transaction", b'{"add":{}}\n{"delete":{"year":"x"}}\n', 400, "WrongKind", 2, lines),
            ("POST", "/documents", b"{}", 415, "BadContentType", None, {"Content_Type": "text/plain"}),
            ("POST", "/compact", b"", 415, "BadContentType", None, {"Content_Type": "multipart/form-data"}),
            ("PUT", "/documents/1", {"id": 2}, 400, "BadId", None, {}),
            ("PUT", "/documents/2", {}, 404, "NoSuchDocument", None, {}),
            ("PUT", "/documents/1", {"year": "late"}, 400, "WrongKind", None, {}),
            ("DELETE", "/documents/2", None, 404, "NoSuchDocument", None, {}),
            ("GET", "/documents/2", None, 404, "NoSuchDocument", None, {}),
            ("GET", "/documents/01", None, 404, "NotFound", None, {}),
            ("GET", "/documents/99999999999999999999", None, 400, "BadParameter", None, {}),
            ("GET", "/documents?after=x", None, 400, "BadParameter", None, {}),
            ("GET", "/documents?limit=1001", None, 400, "BadLimit", None, {}),
            ("GET", "/search?q=title:%5Ba+TO+b%5D", None, 400, "RangeOnText", None, {}),
            ("GET", "/search?q=%ff", None, 400, "BadParameter", None, {}),
            ("GET", "/search?q=a&q=b", None, 400, "BadParameter", None, {}),
            ("GET", "/search?query=a", None, 400, "BadParameter", None, {}),
            ("GET", "/search?top=year", None, 400, "BadParameter", None, {}),
            ("GET", "/search?top=year,0,rising", None, 400, "BadLimit", None, {}),
            ("GET", "/search?top=title,1,rising", None, 400, "NotANumberField", None, {}),
            ("GET", "/search?groups=colour", None, 400, "UnknownField", None, {}),
            ("GET", "/search?q=" + "a" * 5000, None, 400, "TooLong", None, {}),
            ("GET", "/search?q=" + "a" * 70_000, None, 414, "TooLong", None, {}),
            ("GET", "/nowhere", None, 404, "NotFound", None, {}),
            ("POST", "/search", b"{}", 405, "MethodNotAllowed", None, {}),
            ("BREW", "/documents", b"{}", 501, "NotImplemented", None, {}),
        ]
        for method, path, body, status, name, at, headers in refused:
            with self.subTest(method=method, path=path[:40], name=name):
                got, told = server.ask(method, path, body, **headers)
                self.assertEqual((got, told["error"], told.get("at")), (status, name, at), told)
                self.assertRegex(told["message"], "[a-z]")
        self.assertEqual(server.ask("POST", "/documents", b"[" + b" " * 200_000 + b"]")[0], 413)
        for query, at in ("rust+OR", 5), ("(rust", 5), ("%D1%8F+AND", 3), ("a+NOT(b)", 5):
            told = server.ask("GET", f"/search?q={query}")
            self.assertEqual((told[0], told[1]["error"], told[1]["at"]), (400, "Syntax", at))
        self.assertEqual(server.ask("GET", "/documents"), (200, {"documents": [{"id": 1, "title": "kept"}]}))
        self.assertNotIn("Traceback", server.said())

    def test_groups(self) -> None:
        """Groups are cut: the most frequent values first, equal counts by value, 100 if nothing is said."""
        server = self.serve()
        days = [f"d{number:03}" for number in range(150)]
        documents = [{"day": day, "year": place % 3} for place, day in enumerate(days)]
        server.ask("POST", "/documents", documents + [{"day": "d149"}, {"day": "d007"}])
        told = server.ask("GET", "/search?groups=day&groups=year")[1]["groups"]
        others = [[day, 1] for day in days if day not in ("d007", "d149")]
        self.assertEqual(told["day"], [["d007", 2], ["d149", 2], *others[:98]])
        self.assertEqual(told["year"], [[0, 50], [1, 50], [2, 50]])
        told = server.ask("GET", "/search?groups=day:3,year:1")[1]["groups"]
        self.assertEqual(told, {"day": [["d007", 2], ["d149", 2], ["d000", 1]], "year": [[0, 50]]})
        self.assertEqual(len(server.ask("GET", "/search?groups=day:10000")[1]["groups"]["day"]), 150)
        for groups, name in [
            ("day:0", "BadLimit"), ("day:10001", "BadLimit"), ("day:", "BadParameter"), ("day:x", "BadParameter"),
        ]:
            status, told = server.ask("GET", f"/search?groups={groups}")
            self.assertEqual((status, told["error"]), (400, name))
        status, told = server.ask("GET", "/search?groups=" + ",".join(f"f{number}" for number in range(9)))
        self.assertEqual((status, told["error"]), (400, "TooManyGroups"))

    def test_limits(self) -> None:
        """What one search may ask and be answered is bounded, and the refusal says so."""
        server = self.serve("--clauses", 5, "--answer", 5000)
        server.ask("POST", "/documents", [{"title": "word " * 100}] * 30)
        for query, status in [
            ("a+b+c+d+e", 200), ("a+b+c+d+e+f", 400), ("(a+OR+b)+AND+NOT+(c+OR+d)+AND+e", 200),
            ("%22a+b+c+d+e%22", 200),
            ("%22a+b+c+d+e+f%22", 400), ("year:[1+TO+2]+year:%3E3+title:a+day:b+c", 200),
            ("year:[1+TO+2]+year:%3E3+title:a+day:b+c+*", 400),
        ]:
            with self.subTest(query=query):
                got, told = server.ask("GET", f"/search?q={query}&fields=day")
                self.assertEqual((got, told.get("error")), (status, None if status == 200 else "TooManyClauses"))
        for path, status in [
            ("/search", 400), ("/search?fields=day", 200), ("/documents", 400), ("/documents?limit=5", 200),
        ]:
            got, told = server.ask("GET", path)
            self.assertEqual((got, told.get("error")), (status, None if status == 200 else "AnswerTooLarge"))
        self.assertIn("fields", server.ask("GET", "/search")[1]["message"])

    @unittest.skipUnless(shutil.which("curl"), "there is no curl")
    def test_documented(self) -> None:
        """The commands of docs/SERVICE.md that ask a service do what they say."""
        server = self.serve()
        blocks = re.findall(r"(?:^    .*\n)+", GUIDE.read_text("utf-8"), re.MULTILINE)
        lines = [line for block in blocks if "localhost:8090" in block for line in block.splitlines()]
        script = "\n".join(line[4:] for line in lines if "-m dilforec" not in line)
        (self.folder / "books.jsonl").write_text('{"title":"Managing Gigabytes","year":1994,"day":"2026-11-25"}\n' * 3)
        script = script.replace("localhost:8090", f"localhost:{server.port}").replace("curl ", "curl -sS ")
        done = subprocess.run(["sh", "-ec", script], cwd=self.folder, capture_output=True, text=True, timeout=60)
        self.assertEqual((done.returncode, done.stderr), (0, ""))
        self.assertEqual([json.loads(line) for line in done.stdout.splitlines()], [
            {"ids": [1], "commit": 1}, {"ids": [2, 3, 4], "commit": 2},
            {"count": 1, "groups": {"year": [[1986, 1]]}, "commit": 2, "hits": [
                {"id": 1, "value": 1, "document": {"id": 1, "title": "Programming Pearls", "year": 1986}}]},
            {"ids": [5, 6, 7], "commit": 3}, {"ids": [], "commit": 4}])
        self.assertEqual(server.ask("GET", "/status")[1]["documents"], 1)

    def test_retention(self) -> None:
        """A keyword `day`, and one delete a day."""
        server = self.serve()
        for day in ("2026-11-25", "2026-11-26", "2026-11-27"):
            server.ask("POST", "/documents", [{"title": "line", "day": day}] * 3)
        delete = b'{"delete":{"day":"2026-11-25"}}\n'
        self.assertEqual(server.ask("POST", "/transaction", delete, Content_Type="application/x-ndjson")[0], 201)
        found = server.ask("GET", "/search?q=line&groups=day")[1]
        self.assertEqual(found["groups"], {"day": [["2026-11-26", 3], ["2026-11-27", 3]]})

    def test_killed(self) -> None:
        """kill -9 while clients post: what was acknowledged is there after the next start."""
        acknowledged, lock = set(), threading.Lock()
        for _ in range(3):
            server = self.serve()

            def post() -> None:
                while True:
                    try:
                        status, told = server.ask("POST", "/documents", [{"title": "pair"}, {"title": "pair"}])
                    except (OSError, ValueError, Exception):
                        return
                    if status == 201:
                        with lock:
                            acknowledged.update(told["ids"])

            clients = [threading.Thread(target=post) for _ in range(4)]
            for client in clients:
                client.start()
            time.sleep(random.uniform(0.2, 0.5))
            server.stop(signal.SIGKILL)
            for client in clients:
                client.join()
        with self.serve() as server:
            after, there = 0, []
            while found := server.ask("GET", f"/documents?after={after}&limit=1000")[1]["documents"]:
                there += [document["id"] for document in found]
                after = there[-1]
        self.assertEqual((acknowledged - set(there), len(there) % 2), (set(), 0))
        self.assertGreater(len(acknowledged), 10)


class Connections(Served):
    """What clients do with their connections."""

    @staticmethod
    def request(server: Server, title: str, *more: str) -> tuple[bytes, bytes]:
        body = json.dumps({"title": title}).encode()
        lines = ["POST /documents HTTP/1.1", f"Host: 127.0.0.1:{server.port}", "Content-Type: application/json",
                 f"Content-Length: {len(body)}", *more]
        return "\r\n".join([*lines, "", ""]).encode(), body

    @staticmethod
    def answers(sock: socket.socket, count: int) -> list[int]:
        """The ids of so many answers."""
        told = b""
        while told.count(b"\n{") < count or not told.endswith(b"\n"):
            data = sock.recv(1 << 16)
            if not data:
                break
            told += data
        return [int(id) for id in re.findall(rb'^\{"ids":\[([0-9]+)\]', told, re.MULTILINE)]

    def connected(self, server: Server) -> socket.socket:
        sock = socket.create_connection(("127.0.0.1", server.port), timeout=30)
        self.addCleanup(sock.close)
        return sock

    def test_one_connection(self) -> None:
        """Requests that come at once, one after another, in pieces, after a pause, and after a question."""
        server = self.serve()
        sock = self.connected(server)
        sock.sendall(b"".join(b"".join(self.request(server, f"at once {number}")) for number in range(20)))
        self.assertEqual(self.answers(sock, 20), list(range(1, 21)))
        for number in range(21, 31):
            head, body = self.request(server, f"pieces {number}")
            for piece in head[:9], head[9:], body[:5], body[5:]:
                sock.sendall(piece)
                time.sleep(0.02 if number % 3 == 0 else 0.002 if number % 3 == 1 else 0)
            self.assertEqual(self.answers(sock, 1), [number])
        head, body = self.request(server, "asked first", "Expect: 100-continue")
        sock.sendall(head)
        self.assertEqual(sock.recv(1 << 16), b"HTTP/1.1 100 Continue\r\n\r\n")
        sock.sendall(body)
        self.assertEqual(self.answers(sock, 1), [31])
        head, body = self.request(server, "the last", "Connection: close")
        sock.sendall(head + body)
        self.assertEqual(self.answers(sock, 2), [32])

    def test_more_connections_than_threads(self) -> None:
        server = self.serve("--threads", "2")
        found = []

        def post(number: int) -> None:
            with socket.create_connection(("127.0.0.1", server.port), timeout=30) as sock:
                for place in range(25):
                    sock.sendall(b"".join(self.request(server, f"{number} {place}")))
                    found.extend(self.answers(sock, 1))
                if number % 2:
                    # It goes away in the middle of a request.
                    sock.sendall(self.request(server, "half")[0])

        threads = [threading.Thread(target=post, args=(number,)) for number in range(12)]
        idle = [self.connected(server) for _ in range(4)]
        for thread in threads:
            thread.start()
        for thread in threads:
            thread.join()
        self.assertEqual(sorted(found), list(range(1, 301)))
        for number, sock in enumerate(idle, 301):
            sock.sendall(b"".join(self.request(server, "at last")))
            self.assertEqual(self.answers(sock, 1), [number])

    def test_end(self) -> None:
        """It ends under a client that never stops, and what was answered is there."""
        server = self.serve()
        last: list[int] = []

        def post() -> None:
            with contextlib.suppress(OSError), socket.create_connection(("127.0.0.1", server.port), timeout=30) as sock:
                while not last or last[-1]:
                    sock.sendall(b"".join(self.request(server, "again")))
                    last.append((self.answers(sock, 1) or [0])[0])

        thread = threading.Thread(target=post)
        thread.start()
        while len(last) < 20:
            time.sleep(0.01)
        self.assertEqual(server.stop(signal.SIGTERM), 0)
        thread.join()
        with Store([dilforec.Field(**field) for field in SCHEMA], self.journal) as store:
            self.assertGreaterEqual(len(store), max(last))

    def test_end_in_progress(self) -> None:
        """What is on its way to the disk when it ends is answered."""
        server = self.serve(slow_syncs=True)
        sock, before = self.connected(server), self.journal.stat().st_size
        sock.sendall(b"".join(self.request(server, "the last")))
        while self.journal.stat().st_size == before:
            time.sleep(0.001)
        self.assertEqual(server.stop(signal.SIGTERM), 0)
        self.assertEqual(self.answers(sock, 1), [1])

    def test_together(self) -> None:
        """Changes that wait at the same time share a sync, and each is answered by itself."""
        server = self.serve(slow_syncs=True)
        self.assertEqual(server.ask("POST", "/documents", [{"title": "a"}, {"title": "b"}])[0], 201)
        asked = [
            ("POST", "/documents", {"title": "c"}, 201, None), ("POST", "/documents", b"{", 400, "BadJson"),
            ("POST", "/documents", {"year": "x"}, 400, "WrongKind"), ("PUT", "/documents/1", {"title": "d"}, 200, None),
            ("PUT", "/documents/99", {}, 404, "NoSuchDocument"), ("DELETE", "/documents/2", None, 200, None),
            ("POST", "/documents", [{}, {"none": 1}], 400, "UnknownField"),
            ("PATCH", "/documents", None, 405, "MethodNotAllowed"),
            ("POST", "/transaction", {"add": {"title": "c"}}, 201, None), ("POST", "/documents/", {}, 404, "NotFound"),
            ("POST", "/documents", {"title": "long " * 20_000}, 201, None), ("POST", "/documents", [], 400, "Empty"),
        ] * 2
        with concurrent.futures.ThreadPoolExecutor(len(asked)) as pool:
            answers = list(pool.map(lambda each: server.ask(*each[:3]), asked))
        # The second DELETE finds nothing, whichever that is.
        gone = [(status, told) for (method, *_), (status, told) in zip(asked, answers) if method == "DELETE"]
        self.assertEqual(sorted(status for status, _ in gone), [200, 404])
        for (method, path, _, status, error), (found, told) in zip(asked, answers):
            if method != "DELETE":
                self.assertEqual((found, told.get("error")), (status, error), (method, path, told))
        self.assertLess(len({told["commit"] for _, told in answers if "commit" in told}), 6)
        there = server.ask("GET", "/search?q=c")[1]
        self.assertEqual((there["count"], sorted(hit["document"]["title"] for hit in there["hits"])), (4, ["c"] * 4))


class Starts(Served):
    def test_refused(self) -> None:
        """What stops a start says so, with status 2."""
        schema, journal = ("--schema", self.schema), ("--journal", self.journal)
        bad = self.folder / "bad.json"
        for content, words in [
            ("[", "isn't JSON"), ("{}", "isn't a schema"), ('[{"name":"a","kind":"date"}]', "isn't a schema"),
            ('[{"name":"id","kind":"u64"}]', "the store's own"), ('[{"name":"OR","kind":"u64"}]', "refused"),
            (json.dumps([{"name": f"n{n}", "kind": "u64"} for n in range(32)]), "31 at most"),
        ]:
            bad.write_text(content)
            self.assertIn(words, self.refused("serve", "--schema", bad, *journal))
        self.assertIn("can't be read", self.refused("serve", "--schema", self.folder / "none", *journal))
        self.assertIn("--journal", self.refused("serve", *schema))
        self.assertIn("HOST:PORT", self.refused("serve", *schema, *journal, "--listen", "nowhere"))
        self.assertIn("--token-file", self.refused("serve", *schema, *journal, "--token-reads"))
        self.assertIn("--token-file", self.refused("serve", *schema, *journal, "--read-token-file", bad))
        bad.write_text("sixteen-letters-")
        same = ("--token-file", bad, "--read-token-file", bad)
        self.assertIn("are the same", self.refused("serve", *schema, *journal, *same))
        bad.write_text("short")
        self.assertIn("16 letters", self.refused("serve", *schema, *journal, "--token-file", bad))
        self.assertIn("isn't there", self.refused("compact", *journal))
        self.assertFalse(self.journal.exists())
        limit = lambda: resource.setrlimit(resource.RLIMIT_NOFILE, (500, 500))
        self.assertIn("descriptors", self.refused("serve", *schema, *journal, preexec_fn=limit))
        server = self.serve()
        self.assertIn("open in another process", self.refused("serve", *schema, *journal, "--listen", "127.0.0.1:0"))
        self.assertIn("open in another process", self.refused("compact", *journal))
        port = f"127.0.0.1:{server.port}"
        other = ("--journal", self.folder / "other")
        self.assertIn("can't listen", self.refused("serve", *schema, *other, "--listen", port))
        server.ask("POST", "/documents", {"title": "x"})
        server.stop(signal.SIGTERM)
        bad.write_text('[{"name":"title","kind":"text"}]')
        self.assertIn("isn't that of", self.refused("serve", "--schema", bad, *journal))
        with self.journal.open("ab") as damaged:
            damaged.write(b'{"add":{"id":2,"year":"x"}}\n{"commit":true}\n')
        before = self.journal.read_bytes()
        self.assertRegex(self.refused("serve", *schema, *journal), "line 4, byte [0-9]+: WrongKind")
        self.assertEqual(self.journal.read_bytes(), before)

    def test_without_uvicorn(self) -> None:
        (self.folder / "uvicorn.py").write_text("raise ImportError\n")
        path = os.pathsep.join([str(self.folder), os.environ.get("PYTHONPATH", "")])
        told = self.refused("serve", "--example", env={**os.environ, "PYTHONPATH": path})
        self.assertIn("python3-uvicorn", told)

    def test_torn(self) -> None:
        """A torn tail is cut off and told."""
        server = self.serve()
        server.ask("POST", "/documents", {"title": "x"})
        server.stop(signal.SIGKILL)
        with self.journal.open("ab") as journal:
            journal.write(b'{"add":{"id":2')
        with self.serve() as server:
            self.assertEqual(server.ask("GET", "/status")[1]["documents"], 1)
            self.assertIn("cut 14 bytes", server.said())

    def test_not_ready(self) -> None:
        """While the journal is read the port is open: it says how far it is, and answers nothing else."""
        server = self.serve()
        for _ in range(3):
            server.ask("POST", "/documents", [{"title": "x" * 5000}] * 250)
        server.stop(signal.SIGTERM)
        slow = "import sys, time; from dilforec.service import _command, _files; blocks = _files.blocks\n"
        slow += "_files.blocks = lambda *given: (time.sleep(0.7) or each for each in blocks(*given))\n"
        server = self.serve(program=("-c", slow + "sys.exit(_command.main(sys.argv[1:]))"), waits=False)
        self.assertEqual(server.ask("GET", "/healthz"), (200, {"healthy": True}))
        found = []
        while (told := server.ask("GET", "/readyz", Host="anything"))[0] == 503:
            self.assertFalse(told[1]["ready"])
            found.append(told[1]["documents"])
            status, answer = server.ask("GET", "/search")
            self.assertIn((status, answer.get("error")), [(503, "Starting"), (200, None)])
            time.sleep(0.1)
        self.assertEqual(told[1], {"ready": True, "documents": 750, "writable": True})
        self.assertEqual((found, found[0]), (sorted(found), 0))
        self.assertIn(found[-1], range(1, 751))
        self.assertEqual(server.ask("GET", "/search")[1]["count"], 750)
        # It may be ended, too, before it is ready.
        server.stop(signal.SIGTERM)
        server = self.serve(program=("-c", slow + "sys.exit(_command.main(sys.argv[1:]))"), waits=False)
        self.assertEqual(server.stop(signal.SIGTERM), 0)

    def test_systemd(self) -> None:
        """systemd is told when it is ready, and when it ends."""
        path = str(self.folder / "notify")
        with socket.socket(socket.AF_UNIX, socket.SOCK_DGRAM) as told, mock.patch.dict(os.environ, NOTIFY_SOCKET=path):
            told.bind(path)
            told.settimeout(30)
            with self.serve() as server:
                self.assertEqual(told.recv(100), b"READY=1")
                self.assertEqual(server.stop(signal.SIGINT), 0)
                self.assertEqual(told.recv(100), b"STOPPING=1")

    def test_example(self) -> None:
        """The example's books, in a journal that goes with the process."""
        with Server("--example") as server:
            found = server.ask("GET", "/search?q=whale+OR+windmills&groups=language")[1]
            self.assertEqual(found["groups"], {"language": [["English", 1], ["Spanish", 1]]})


class Guards(Served):
    def test_hosts_and_origins(self) -> None:
        """A page elsewhere can't use it: neither by a name that leads here, nor by a request of its own."""
        server = self.serve("--host", "search.example.org")
        port = server.port
        for host, status in [
            (f"127.0.0.1:{port}", 200), (f"localhost:{port}", 200), (f"[::1]:{port}", 200), ("search.example.org", 200),
            ("SEARCH.example.org:8443", 200), ("evil.example", 421), (f"evil.example:{port}", 421), ("127.0.0.1", 421),
            ("127.0.0.1:1", 421), ("", 421), ("search.example.org.evil.example", 421),
        ]:
            with self.subTest(host=host):
                self.assertEqual(server.ask("GET", "/status", Host=host)[0], status)
        for origin, status in [
            (f"http://127.0.0.1:{port}", 201), (f"http://localhost:{port}", 403), ("http://evil.example", 403),
            ("null", 403), (f"ftp://127.0.0.1:{port}", 403), ("", 403),
        ]:
            with self.subTest(origin=origin):
                self.assertEqual(server.ask("POST", "/documents", {}, Origin=origin)[0], status)
        self.assertEqual(server.ask("DELETE", "/documents/1", Origin="http://evil.example")[0], 403)
        self.assertEqual(server.ask("DELETE", "/documents/1", Content_Type="text/plain")[0], 415)

    def test_tokens(self) -> None:
        """With a token, what changes something needs it, and, if wanted, what reads; the page alone doesn't."""
        token = self.folder / "token"
        token.write_text("abcdefghijklmnop\n")
        right, wrong = {"Authorization": "Bearer abcdefghijklmnop"}, {"Authorization": "Bearer abcdefghijklmnoq"}
        ways: tuple[tuple[str, ...], ...] = (), ("--token-reads",)
        for reads in ways:
            server = self.serve("--token-file", token, *reads, journal=self.folder / f"journal{len(reads)}")
            basic = {"Authorization": "Basic abcdefghijklmnop"}
            tokens: tuple[tuple[dict[str, str], int], ...] = ({}, 401), (wrong, 401), (basic, 401), (right, 201)
            for headers, status in tokens:
                self.assertEqual(server.ask("POST", "/documents", {}, **headers)[0], status)
            self.assertEqual(server.ask("DELETE", "/documents/1")[0], 401)
            self.assertEqual(server.headers["WWW-Authenticate"], "Bearer")
            for path in "/search", "/documents", "/documents/1", "/status", "/metrics":
                self.assertEqual(server.ask("GET", path)[0], 401 if reads else 200)
                self.assertEqual(server.ask("GET", path, **right)[0], 200)
            self.assertEqual(server.ask("GET", "/")[0], 200)

    def test_read_token(self) -> None:
        """A token that only reads: reads need one of the two, changes the other, and SIGHUP reads both again."""
        write, read = self.folder / "write", self.folder / "read"
        write.write_text("writes-and-reads-all")
        read.write_text("reads-and-no-more")
        server = self.serve("--token-file", write, "--read-token-file", read)

        def statuses(token: str) -> list[int]:
            given = {"Authorization": f"Bearer {token}"} if token else {}
            asked: list[tuple[str, str, object]] = [
                ("GET", "/search", None), ("GET", "/status", None), ("POST", "/documents", {}),
                ("DELETE", "/documents/9", None),
            ]
            return [server.ask(method, path, body, **given)[0] for method, path, body in asked]

        self.assertEqual(statuses(""), [401] * 4)
        self.assertEqual(statuses("neither-of-the-two"), [401] * 4)
        self.assertEqual(statuses("reads-and-no-more"), [200, 200, 403, 403])
        self.assertEqual(statuses("writes-and-reads-all"), [200, 200, 201, 404])
        self.assertEqual(server.ask("GET", "/readyz")[0], 200)
        read.write_text("reads-from-now-on")
        server.process.send_signal(signal.SIGHUP)
        for _ in range(100):
            if statuses("reads-from-now-on")[0] == 200:
                break
            time.sleep(0.05)
        self.assertEqual(statuses("reads-from-now-on"), [200, 200, 403, 403])
        self.assertEqual(statuses("reads-and-no-more"), [401] * 4)
        read.write_text("short")
        server.process.send_signal(signal.SIGHUP)
        for _ in range(100):
            if "the tokens stay as they are" in server.said():
                break
            time.sleep(0.05)
        self.assertIn("the tokens stay as they are", server.said())
        self.assertEqual(statuses("reads-from-now-on"), [200, 200, 403, 403])

    def test_log(self) -> None:
        """Who isn't let in is logged with the address, and no path can forge a line."""
        token = self.folder / "token"
        token.write_text("abcdefghijklmnop")
        server = self.serve("--token-file", token, "--log", "debug")
        forged = "/documents%0a2026-11-28%2000:00:00,000%20INFO%20ended%1b[31m"
        server.ask("POST", forged, {})
        server.ask("POST", "/documents", {}, X_Forwarded_For="203.0.113.7\x9b0m")
        server.ask("POST", "/documents", {}, Origin="http://evil.example")
        server.ask("POST", "/" + "long" * 10_000, {}, X_Forwarded_For="long" * 5_000)
        said = server.said()
        self.assertLess(max(map(len, said.splitlines())), 1000)
        self.assertRegex(said, r"WARNING 'POST' '/documents' 401, asked by 127\.0\.0\.1 for '203\.0\.113\.7\\x9b0m'\n")
        self.assertRegex(said, r"WARNING 'POST' '/documents' 403, asked by 127\.0\.0\.1\n")
        self.assertIn(r"'/documents\n2026-11-28 00:00:00,000 INFO ended\x1b[31m' 404", said)
        self.assertNotIn("\x1b", said)

    def test_other_sites(self) -> None:
        """Pages of a site that is allowed may search, and none may change anything."""
        friend, other = "https://www.example.org", "https://www.example.net"
        server = self.serve("--allow-origin", friend, "--allow-origin", "http://localhost:3000")
        shown = "Access-Control-Allow-Origin"
        for path in "/search?q=x", "/documents", "/documents/1", "/status":
            for origin, wanted in (friend, friend), ("http://localhost:3000", "http://localhost:3000"), (other, None):
                server.ask("GET", path, Origin=origin)
                self.assertEqual((server.headers.get(shown), server.headers["Vary"]), (wanted, "Origin"))
        server.ask("GET", "/metrics", Origin=friend)
        self.assertNotIn(shown, server.headers)
        asks = {"Access-Control-Request-Method": "GET", "Access-Control-Request-Headers": "authorization"}
        self.assertEqual(server.ask("OPTIONS", "/search", Origin=friend, **asks), (204, ""))
        self.assertEqual((server.headers[shown], server.headers["Access-Control-Allow-Methods"]), (friend, "GET, HEAD"))
        self.assertIn("Authorization", server.headers["Access-Control-Allow-Headers"])
        self.assertEqual(server.ask("OPTIONS", "/search", Origin=other, **asks)[0], 405)
        asks["Access-Control-Request-Method"] = "POST"
        self.assertEqual(server.ask("OPTIONS", "/documents", Origin=friend, **asks)[0], 405)
        self.assertEqual(server.ask("POST", "/documents", {}, Origin=friend)[0], 403)
        self.assertEqual(server.ask("DELETE", "/documents/1", Origin=friend)[0], 403)
        for bad in "www.example.org", "https://www.example.org/", "*", "null", "https://a,b":
            with self.subTest(origin=bad):
                told = self.refused("serve", "--example", "--allow-origin", bad)
                self.assertIn("isn't an origin", told)

    def test_local_socket(self) -> None:
        """A local socket, which only its owner and group may use, and which is gone at the end."""
        path = self.folder / "socket"
        with socket.socket(socket.AF_UNIX) as left:
            left.bind(str(path))
        words = [sys.executable, "-m", "dilforec", "serve", "--example", "--listen", f"unix:{path}"]
        with subprocess.Popen(words, stdout=subprocess.PIPE, stderr=subprocess.DEVNULL) as served:
            assert served.stdout
            self.assertIn(f"at unix:{path}", served.stdout.readline().decode())
            self.assertEqual(path.stat().st_mode & 0o777, 0o660)
            self.assertIn("can't listen", self.refused("serve", "--example", "--listen", f"unix:{path}"))
            for host, status in ("localhost", b" 200 "), ("elsewhere", b" 421 "):
                with socket.socket(socket.AF_UNIX) as sock:
                    sock.connect(str(path))
                    sock.sendall(f"GET /search HTTP/1.1\r\nHost: {host}\r\n\r\n".encode())
                    self.assertIn(status, sock.recv(100))
            served.send_signal(signal.SIGTERM)
            self.assertEqual(served.wait(30), 0)
        self.assertFalse(path.exists())

    def test_beyond_the_machine(self) -> None:
        """Where it listens beyond the machine, nothing can be changed without a token, and it says so."""
        server = Server("--schema", self.schema, "--journal", self.journal, "--listen", "0.0.0.0:0")
        with server:
            self.assertEqual((server.ask("GET", "/status")[0], server.ask("POST", "/documents", {})[0]), (200, 403))
            self.assertIn("WARNING it listens beyond this machine without a token", server.said())


class Hostile(Served):
    def setUp(self) -> None:
        super().setUp()
        self.server = self.serve("--idle", 3, "--connections", 1500)
        self.assertEqual(self.server.ask("POST", "/documents", [{"title": "rust"}] * 10)[0], 201)

    def resident(self) -> int:
        bytes: int = self.server.ask("GET", "/status")[1]["resident_bytes"]
        return bytes

    def connected(self, data: bytes = b"") -> socket.socket:
        connection = socket.create_connection(("127.0.0.1", self.server.port), timeout=30)
        self.addCleanup(connection.close)
        connection.sendall(data)
        return connection

    def answers(self, count: int = 20) -> None:
        """Whether others are answered, each within ten seconds."""
        for _ in range(count):
            began = time.monotonic()
            self.assertEqual(self.server.ask("GET", "/search?q=rust")[1]["count"], 10)
            self.assertLess(time.monotonic() - began, 10)

    def test_idle(self) -> None:
        """1,000 connections that are silent or drip: others are answered, and the silent ones are closed."""
        before = self.resident()
        head = f"POST /documents HTTP/1.1\r\nHost: 127.0.0.1:{self.server.port}\r\nContent-Length: 999999\r\n".encode()
        silent = [self.connected() for _ in range(500)]
        dripping = [self.connected(head[:40] if number % 2 else head + b"\r\n{") for number in range(500)]
        began = time.monotonic()
        while time.monotonic() - began < 6:
            for connection in dripping:
                # One that dripped too slowly, on a busy machine, is closed, too.
                with contextlib.suppress(OSError):
                    connection.sendall(b"x")
            self.answers(5)
        closed = sum(connection.recv(1) == b"" for connection in silent[::50])
        self.assertEqual(closed, 10)
        self.answers()
        self.assertLess(self.resident() - before, 100 << 20)

    def test_large(self) -> None:
        """Bodies of 1 GB, announced and in chunks, are refused, and memory stays."""
        before, port = self.resident(), self.server.port
        head = f"POST /documents HTTP/1.1\r\nHost: 127.0.0.1:{port}\r\nContent-Type: application/json\r\n"
        for _ in range(50):
            connection = self.connected((head + "Content-Length: 1073741824\r\n\r\n").encode())
            self.assertIn(b" 413 ", connection.recv(100))
        connection = self.connected((head + "Transfer-Encoding: chunked\r\n\r\n").encode())
        block = b"100000\r\n" + b"x" * 0x100000 + b"\r\n"
        with self.assertRaises(OSError):
            for _ in range(1000):
                connection.sendall(block)
        self.answers()
        self.assertLess(self.resident() - before, 100 << 20)

    def test_broken(self) -> None:
        """Requests that aren't ones, pipelined ones, and clients that go away."""
        port = self.server.port
        for data in (b"\0\0\0\0\r\n\r\n", b"GET\r\n\r\n", b"GET / HTTP/9.9\r\n\r\n",
                     b"GET /\xff?\xff HTTP/1.1\r\nHost: \xff\r\n\r\n",
                     b"POST / HTTP/1.1\r\nContent-Length: -1\r\n\r\n", b"POST / HTTP/1.1\r\nContent-Length: x\r\n\r\n",
                     b"POST / HTTP/1.1\r\nTransfer-Encoding: chunked\r\n\r\nzz\r\n", b"x" * 200_000):
            connection = self.connected()
            try:
                connection.sendall(data)
                told = connection.recv(1000)
            except OSError:
                continue
            self.assertRegex(told, rb"^(HTTP/1\.[01] [45][0-9][0-9] |$)")
        request = f"GET /search?q=rust HTTP/1.1\r\nHost: 127.0.0.1:{port}\r\n\r\n".encode()
        connection, told = self.connected(request * 100), b""
        while told.count(b'{"count":10') < 100:
            read = connection.recv(1 << 16)
            self.assertNotEqual(read, b"")
            told += read
        for number in range(200):
            self.connected(request[: number % len(request)] if number % 2 else request).close()
        self.answers()
        self.assertEqual(self.server.ask("GET", "/documents")[1]["documents"][9]["id"], 10)


if __name__ == "__main__":
    unittest.main()
