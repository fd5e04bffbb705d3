"""The store without HTTP: what it answers, and what is left after faults of its disk and its memory."""
from __future__ import annotations

import itertools
import json
import pathlib
import random
import re
import subprocess
import sys
import textwrap
import threading
import time
import tracemalloc
import unittest
from collections.abc import Callable, Iterable
from typing import Any
from unittest import mock

import dilforec
from dilforec import memory
from dilforec.library import MEMORY, Channel
from dilforec.service import (
    BadSchema, Done, Hit, KeyTaken, Locked, NoSuchDocument, NotWritten, Snapshot, Stopped, Store, TransactionRefused,
    VersionChanged, _merger, version_of,
)
from dilforec.service._lines import read_json
from service_tools import FIELDS, Failing, Stored


Call = Callable[[], object]

GUIDE = pathlib.Path(__file__).resolve().parents[3] / "docs/SERVICE.md"


class Calls(Stored):
    def test_documents(self) -> None:
        """Adds, replacements, deletes, and what they answer."""
        store = self.opened()
        self.assertEqual(store.add({"title": "Programming Pearls", "year": 1986}), 1)
        self.assertEqual(store.replace(1, {"title": "Pearls", "year": 1999}), ((1,), 2))
        with store.transaction() as transaction:
            transaction.add({"title": "Managing Gigabytes"})
            transaction.add({"title": "Compressed"})
            transaction.delete("title", "compressed")
            transaction.command({"add": {"shelf": "new"}})
        self.assertEqual((transaction.ids, transaction.commit), ((2, 3, 4), 3))
        self.assertEqual(store.get(1), {"id": 1, "title": "Pearls", "year": 1999})
        self.assertEqual([(store.get(2) or {})["title"], store.get(3), len(store)], ["Managing Gigabytes", None, 3])
        self.assertEqual(store.delete(2), ((), 4))
        self.assertEqual([hit["id"] for hit in store.documents()], [1, 4])
        self.assertEqual([store.documents(1, 1)[0]["id"], store.documents(4)], [4, []])
        with store.transaction() as transaction:
            transaction.delete_all()
        self.assertEqual((len(store), store.add({}), store.commits), (0, 5, 6))

    def test_search(self) -> None:
        """Several groups of one commit, top lists, chosen fields; without a top list the newest."""
        store = self.opened()
        for place in range(12):
            store.add({"title": "rust", "shelf": "ab"[place % 2], "year": place // 4})
        found = store.search("rust", groups=["shelf", "year"], top=dilforec.Top("year", 2), fields=["shelf"])
        self.assertEqual((found.count, found.commit), (12, 12))
        self.assertEqual(found.groups, {"shelf": {"a": 6, "b": 6}, "year": {0: 4, 1: 4, 2: 4}})
        self.assertEqual([tuple(hit) for hit in found.hits], [(1, 0, {"shelf": "a"}), (2, 0, {"shelf": "b"})])
        self.assertEqual([hit.id for hit in store.search("*").hits], list(range(12, 2, -1)))
        self.assertEqual(store.search("*", fields=["id"]).hits[0].document, {"id": 12})
        with self.assertRaises(dilforec.Syntax):
            store.search("rust OR")

    def test_search_json(self) -> None:
        """The text that the service sends says what `search` does, whatever quotes and brackets values have."""
        store = self.opened()
        shelves = ["", '"', '],"top":[', '","groups":[[', "\\", '\\"}\n', '{"count":1,"top":[]}', "é\u2028"]
        for year, shelf in enumerate(shelves):
            store.add({"title": f'rust "top":[ {shelf}', "shelf": shelf, "year": year})
        with store.snapshot() as snapshot:
            by: list[list[str]] = [[], ["shelf"], ["year"], ["shelf", "year", "shelf"]]
            chosen: list[list[str] | None] = [None, [], ["id"], ["shelf", "title"]]
            for groups, top, fields in itertools.product(by, (None, dilforec.Top("year", 3, "falling")), chosen):
                for query in "rust", "year:>5", "nothing":
                    with self.subTest(query, groups=groups, top=top, fields=fields):
                        told = json.loads(snapshot.search_json(query, groups=groups, top=top, fields=fields))
                        found = snapshot.search(query, groups=groups, top=top, fields=fields)
                        counted = {name: [list(each) for each in group.items()] for name, group in found.groups.items()}
                        hits = [hit._asdict() for hit in found.hits]
                        self.assertEqual(told, {"count": found.count, "groups": counted, "hits": hits, "commit": 8})
            search_json: Callable[..., bytes] = snapshot.search_json
            for wrong in {"groups": "shelf"}, {"fields": "shelf"}:
                with self.assertRaises(TypeError):
                    search_json("rust", **wrong)
            with self.assertRaises(dilforec.Syntax):
                snapshot.search_json("rust OR")

    def test_memory(self) -> None:
        """A large answer, of groups or of documents, takes at most five times its bytes of memory while it is made."""
        store = self.opened()
        with store.transaction() as transaction:
            for year in range(30_000):
                transaction.add({"year": year})
            for _ in range(200):
                transaction.add({"title": "word " * 4000})
        asks: tuple[dict[str, Any], ...] = (
            {"groups": ["year"], "fields": []}, {"top": dilforec.Top("id", 200, "falling")},
        )
        with store.snapshot() as snapshot:
            for asked in asks:
                # Its room stays.
                snapshot.search_json("*", **asked)
                tracemalloc.start()
                told = snapshot.search_json("*", **asked)
                most = tracemalloc.get_traced_memory()[1]
                tracemalloc.stop()
                self.assertLess(most, 5 * len(told))

    def test_refusals(self) -> None:
        """What is refused leaves nothing, neither in the index nor in the file."""
        store = self.opened()
        store.add({"title": "first"})
        size = self.journal.stat().st_size
        nothing: Any = []
        calls: list[tuple[type[Exception], Call]] = [
            (dilforec.UnknownField, lambda: store.add({"titel": "x"})),
            (dilforec.WrongKind, lambda: store.replace(1, {"year": "late"})),
            (dilforec.NotAnObject, lambda: store.add(nothing)),
            (dilforec.BadJson, lambda: store.add({"title": "\ud800"})),
            (dilforec.BadJson, lambda: store.add({"year": float("nan")})),
            (dilforec.LineTooLong, lambda: store.add({"title": ["x" * 1_000_000] * 5})),
            (ValueError, lambda: store.add({"id": 7})),
            (ValueError, lambda: store.replace(1, {"id": 2})),
            (NoSuchDocument, lambda: store.replace(2, {})),
            (NoSuchDocument, lambda: store.delete(2)),
        ]
        for wrong, call in calls:
            with self.subTest(wrong.__name__), self.assertRaises(wrong):
                call()
        with self.assertRaises(TransactionRefused) as raised, store.transaction() as transaction:
            transaction.add({"title": "second"})
            transaction.delete_all()
            transaction.add({"year": -1})
        self.assertEqual((raised.exception.number, raised.exception.refusal.name), (3, "WrongKind"))
        with self.assertRaises(KeyError), store.transaction() as transaction:
            transaction.add({"title": "second"})
            raise KeyError
        for command in (
            {"commit": True}, {"delete_all": 1}, {}, [], {"add": {}, "delete": {}}, {"search": {"query": "*"}},
        ):
            with self.subTest(command), self.assertRaises(ValueError), store.transaction() as transaction:
                transaction.command(command)
        self.assertEqual((self.all(store), self.journal.stat().st_size), ({1: {"title": "first"}}, size))
        self.assertEqual((store.add({}), store.replace(1, {"id": 1})), (2, ((1,), 3)))

    def test_json(self) -> None:
        """JSON that the service is sent means what it does in a script."""
        store = self.opened()
        for text in '{"add":{"year":-0}}', '{"add":{"year":1.0}}':
            with self.subTest(text), self.assertRaises(TransactionRefused) as raised, store.transaction() as wrong:
                wrong.command(read_json(text))
            self.assertEqual(raised.exception.refusal.name, "WrongKind")
        for text in "NaN", "[-Infinity]", "{", "01":
            self.assertRaises(ValueError, read_json, text)
        self.assertEqual(read_json('{"a":[0,-1,"-0",18446744073709551616]}'), {"a": [0, -1, "-0", 1 << 64]})

    def test_long(self) -> None:
        """A transaction of some megabytes: all of it, or the number of the one that is refused."""
        store = self.opened()
        for late in (None, 2, 30):
            try:
                with store.transaction() as transaction:
                    for number in range(40):
                        transaction.add({"title": "x " * 50_000, "year": "late" if number == late else number})
                self.assertEqual((late, len(transaction.ids), len(store)), (None, 40, 40))
            except TransactionRefused as error:
                assert late is not None
                self.assertEqual((error.number, len(store)), (late + 1, 40))

    def test_schemas(self) -> None:
        """A schema that can't be a store's is refused, and no file is made."""
        for fields in (
            [dilforec.u64("id")], [dilforec.u64(f"n{number}") for number in range(32)], [dilforec.text("AND")],
            [dilforec.text("a"), dilforec.text("a")],
        ):
            with self.assertRaises(BadSchema):
                Store(fields, self.journal)
        self.assertEqual(list(self.folder.iterdir()), [])
        Store([dilforec.u64(f"n{number}") for number in range(31)], self.journal).close()
        with self.assertRaises(BadSchema):
            Store(FIELDS, self.journal)

    def test_locked(self) -> None:
        """A journal is open once; another store, and a compaction, are refused while it is."""
        store = self.opened()
        with self.assertRaises(Locked):
            Store(FIELDS, self.journal)
        command: list[str | pathlib.Path] = [sys.executable, "-m", "dilforec", "compact", "--journal", self.journal]
        done = subprocess.run(command, capture_output=True, text=True)
        self.assertEqual((done.returncode, "open in another process" in done.stderr), (2, True), done.stderr)
        store.compact()
        with self.assertRaises(Locked):
            Store(FIELDS, self.journal)
        store.add({"title": "x"})
        store.close()
        done = subprocess.run(command, capture_output=True, text=True)
        self.assertEqual((done.returncode, "1 documents" in done.stdout), (0, True), done.stderr)
        self.opened()

    def test_closed(self) -> None:
        store = self.opened()
        store.close()
        store.close()
        calls: tuple[Call, ...] = (lambda: store.add({}), lambda: store.search("*"), store.compact, store.snapshot)
        for call in calls:
            self.assertRaises(Stopped, call)

    def test_documented(self) -> None:
        """The example of docs/SERVICE.md runs as it is written."""
        blocks = re.findall(r"(?:^(?:    .*)?\n)+", GUIDE.read_text("utf-8"), re.MULTILINE)
        (example,) = [block for block in blocks if "from dilforec" in block]
        command = [sys.executable, "-c", textwrap.dedent(example)]
        done = subprocess.run(command, cwd=self.folder, capture_output=True, text=True)
        self.assertEqual((done.returncode, done.stdout.startswith("(1,) 1 (Hit(id=1, value=1986,")), (0, True), done)

    def test_snapshot(self) -> None:
        """A snapshot finds its commit, whatever is committed meanwhile."""
        store = self.opened()
        store.add({"title": "x"})
        with store.snapshot() as snapshot:
            store.delete(1)
            self.assertEqual((snapshot.commit, len(snapshot), (snapshot.get(1) or {})["title"]), (1, 1, "x"))
        self.assertEqual(len(store), 0)


class Keys(Stored):
    """Stores whose documents are known by a key."""

    def keyed(self, **more: Any) -> Store:
        store = Store(FIELDS, self.journal, key="shelf", **more)
        self.addCleanup(store.close)
        return store

    def test_documents(self) -> None:
        """What is added with a key that is there replaces, and has its number."""
        store = self.keyed()
        self.assertEqual([store.add({"shelf": key, "year": year}) for year, key in enumerate("abaa")], [1, 2, 1, 1])
        self.assertEqual(self.all(store), {1: {"shelf": "a", "year": 3}, 2: {"shelf": "b", "year": 1}})
        self.assertEqual(store.put_by_key("b", {"shelf": "b"}), ((2,), 5))
        self.assertEqual(store.put_by_key("c", {"shelf": "c"}), ((3,), 6))
        self.assertEqual((store.get_by_key("c"), store.get_by_key("d")), ({"id": 3, "shelf": "c"}, None))
        self.assertEqual(store.replace(3, {"shelf": "d"}), ((3,), 7))
        self.assertEqual((store.get_by_key("c"), (store.get_by_key("d") or {})["id"]), (None, 3))
        self.assertEqual((store.delete_by_key("a"), store.get_by_key("a")), (((), 8), None))
        self.assertEqual((store.add({"shelf": "a"}), store.key_of("0")), (4, "0"))
        with store.transaction() as transaction:
            transaction.delete_all()
            for year in range(300):
                transaction.add({"shelf": f"{year % 200} \"\\", "year": year})
            transaction.put_by_key("b", {"shelf": "b"})
            transaction.delete("shelf", "d")
            transaction.add({"shelf": "d"})
        ids = transaction.ids
        self.assertEqual((ids[:2], ids[200:202], ids[300:]), ((5, 6), (5, 6), (2, 205)))
        there = self.all(store)
        self.assertEqual((len(there), there[5]), (202, {"shelf": "0 \"\\", "year": 200}))
        with store.transaction() as transaction:
            transaction.replace(5, {"shelf": "e"})
            transaction.delete_document(5)
            transaction.add({"shelf": "e"})
            transaction.put_by_key("0 \"\\", {"shelf": "0 \"\\"})
        self.assertEqual(transaction.ids, (5, 206, 207))
        there = self.all(store)
        store.compact()
        store.close()
        self.assertEqual(self.all(self.keyed()), there)

    def test_refusals(self) -> None:
        store = self.keyed()
        store.add({"shelf": "a"})
        store.add({"shelf": "b"})
        calls: list[tuple[type[Exception], Call]] = [
            (ValueError, lambda: store.add({"year": 1})), (ValueError, lambda: store.replace(1, {})),
            (ValueError, lambda: store.put_by_key("a", {"shelf": "b"})),
            (NoSuchDocument, lambda: store.delete_by_key("c")),
            (dilforec.WrongKind, lambda: store.add({"shelf": 1})), (dilforec.WrongKind, lambda: store.delete_by_key(7)),
            (dilforec.KeywordTooLong, lambda: store.add({"shelf": "x" * 300})),
            (dilforec.UnknownField, lambda: store.add({"shelf": "a", "what": 1})),
            (KeyTaken, lambda: store.replace(1, {"shelf": "b"})),
            (NoSuchDocument, lambda: store.put_by_key("c", {"shelf": "c"}, version="*")),
        ]
        for wrong, call in calls:
            with self.subTest(wrong.__name__), self.assertRaises(wrong):
                call()
        self.assertEqual(self.all(store), {1: {"shelf": "a"}, 2: {"shelf": "b"}})
        for key in "title", "what":
            self.assertRaises(BadSchema, Store, FIELDS, self.folder / "other", key=key)
        with Store(FIELDS, self.folder / "plain") as plain:
            for call in (lambda: plain.get_by_key("a"), lambda: plain.put_by_key("a", {}), lambda: plain.key_of("a")):
                self.assertRaises(ValueError, call)

    def test_numbers(self) -> None:
        """Keys that are numbers, and the texts that mean them."""
        with Store([*FIELDS, dilforec.i64("n")], self.journal, key="n") as store:
            self.assertEqual([store.add({"n": n}) for n in (-5, 0, -5)], [1, 2, 1])
            self.assertEqual((store.key_of("-5"), store.get_by_key(-5)), (-5, {"id": 1, "n": -5}))
            for text in "", "x", "1.0", "-0", "01", " 1", "9223372036854775808":
                self.assertRaises(ValueError, store.key_of, text)
            self.assertRaises(dilforec.WrongKind, store.delete_by_key, True)

    def test_versions(self) -> None:
        """A change that names a version is done if the document has it, also after a restart and a compaction."""
        store = self.keyed()
        store.add({"shelf": "a", "title": ["x", "y"], "year": 7})
        read = store.get(1)
        assert read
        version = version_of(read)
        self.assertEqual(version, version_of(dict(reversed(read.items()))))
        store.compact()
        store.close()
        store = self.keyed()
        self.assertEqual(version_of(store.get_by_key("a") or {}), version)
        self.assertEqual(store.replace(1, {"shelf": "a", "year": 8}, version=version).ids, (1,))
        for call in (
            lambda: store.replace(1, {"shelf": "a"}, version=version), lambda: store.delete(1, version=version),
            lambda: store.put_by_key("a", {"shelf": "a"}, version=version),
            lambda: store.delete_by_key("a", version=version),
        ):
            self.assertRaises(VersionChanged, call)
        self.assertRaises(NoSuchDocument, store.delete, 2, version=version)
        # What has the same content again has the same version.
        store.replace(1, {"shelf": "a", "title": ["x", "y"], "year": 7})
        self.assertEqual(store.delete_by_key("a", version=version), ((), 4))

    def test_one_of_many(self) -> None:
        """Of threads that change a document of one version at the same time, one does."""
        store = self.keyed()
        for round in range(10):
            store.put_by_key("a", {"shelf": "a", "year": 1000 + round})
            version, lock = version_of(store.get(1) or {}), threading.Lock()
            done: list[int] = []

            def change(number: int) -> None:
                try:
                    store.replace(1, {"shelf": "a", "year": number}, version=version)  # noqa: B023
                    with lock:  # noqa: B023
                        done.append(number)  # noqa: B023
                except VersionChanged:
                    pass

            run_all(change, 8)
            self.assertEqual(([(store.get(1) or {})["year"]], len(store)), (done, 1))


class Pages(Stored):
    """Top lists that are gone on with after their last hit."""

    def pages(self, searching: Snapshot, query: str, top: dilforec.Top, **more: Any) -> tuple[list[Hit], int]:
        after = None
        hits: list[Hit] = []
        while True:
            found = searching.search(query, top=top, after=after, **more)
            text = json.loads(searching.search_json(query, top=top, after=after, **more))
            self.assertEqual((text["count"], text["hits"]), (found.count, [hit._asdict() for hit in found.hits]))
            hits += found.hits
            if len(found.hits) < top.k:
                return hits, found.count
            after = (found.hits[-1].value, found.hits[-1].id)

    def test_each_hit(self) -> None:
        """Each hit comes once, by value and then by number, however many have one value and were written anew."""
        store, chance = self.opened(), random.Random(5)
        with store.transaction() as transaction:
            for number in range(300):
                year = {} if number % 50 == 0 else {"year": chance.choice([1, 2, 2, 3, 1 << 63])}
                transaction.add({"title": "rust" if number % 3 else "moss", **year})
        for _ in range(60):
            id = chance.randint(1, 300)
            store.replace(id, {"title": "rust", "year": chance.choice([1, 2, 2, 2])})
        with store.snapshot() as snapshot:
            found_by: dict[str, Callable[[dict[str, Any]], bool]] = {
                "*": lambda has: True, "rust": lambda has: bool(has["title"] == "rust"),
                "rust year:2": lambda has: bool(has["title"] == "rust" or has["year"] == 2),
            }
            there = [document for document in snapshot.documents(limit=1000) if "year" in document]
            for query, k, order in itertools.product(found_by, [1, 7, 60, 299], ["rising", "falling"]):
                hits, count = self.pages(snapshot, query, dilforec.Top("year", k, order))
                sign = 1 if order == "rising" else -1
                wanted = sorted((sign * has["year"], has["id"]) for has in there if found_by[query](has))
                self.assertEqual([(sign * hit.value, hit.id) for hit in hits], wanted)
                self.assertGreaterEqual(count, len(hits))
            hits, _ = self.pages(snapshot, "rust", dilforec.Top("id", 50, "falling"), fields=["year"])
            self.assertEqual([hit.id for hit in hits], sorted((hit.id for hit in hits), reverse=True))
            self.assertEqual(snapshot.search("*", after=(11, 11)).hits[0].id, 10)
            self.assertEqual(snapshot.search(" ", top=dilforec.Top("year", 5), after=(1, 1)).hits, ())

    def test_limits(self) -> None:
        """What can't be gone on with says so, and its first page is there all the same."""
        store = self.opened()
        for _ in range(5):
            store.add({"title": "rust", "year": 1})
        top = dilforec.Top("year", 3)
        long, deep = "rust " * 819, "(" * 32 + "rust" + ")" * 32
        for query, wrong in (long, dilforec.TooLong), (deep, dilforec.TooDeep):
            self.assertEqual([hit.id for hit in store.search(query, top=top).hits], [1, 2, 3])
            self.assertRaises(wrong, store.search, query, top=top, after=(1, 3))
        for k in 0, 10_001:
            self.assertRaises(dilforec.BadLimit, store.search, "*", top=dilforec.Top("year", k))
        for after in (1,), ("1", 2), (1, -1), (1, 2, 3), (True, 1):
            self.assertRaises(ValueError, store.search, "*", top=top, after=after)

    def test_long(self) -> None:
        """Ten thousand of one value, and more."""
        store = self.opened()
        with store.transaction() as transaction:
            for _ in range(10_050):
                transaction.add({"year": 1})
        top = dilforec.Top("year", 10_000)
        first = store.search("*", top=top, fields=[]).hits
        self.assertEqual((len(first), first[-1].id), (10_000, 10_000))
        rest = store.search("*", top=top, after=(1, 10_000)).hits
        self.assertEqual([hit.id for hit in rest], list(range(10_001, 10_051)))


class Merges(Stored):
    def test_beside(self) -> None:
        """A thread makes large segments while transactions and searches go on, and closing doesn't wait for it."""
        with mock.patch.object(_merger, "MOST_IN_A_COMMIT", 0):
            store = self.opened()
        for year in range(100):
            store.add({"title": "rust", "year": year})
            self.assertEqual(store.search("rust").count, year + 1)
        store.delete(1)
        until = time.monotonic() + 20
        while self.segments(store) > 10 and time.monotonic() < until:
            time.sleep(0.01)
        self.assertLessEqual(self.segments(store), 10)
        self.assertEqual((store.search("rust").count, store.get(1)), (99, None))
        for year in range(20):
            store.add({"title": "rust", "year": year})
        store.close()
        self.assertEqual((len(self.opened()), store.writable), (119, False))

    def test_memory_is_given_back(self) -> None:
        """What was before a merge goes back to the system after it, and what a start leaves."""
        with mock.patch.object(_merger, "MOST_IN_A_COMMIT", 0), mock.patch.object(memory, "trim") as trim:
            store = self.opened()
            trim.assert_called_once_with()
            for year in range(20):
                store.add({"title": "rust", "year": year})
            until = time.monotonic() + 20
            while trim.call_count < 2 and time.monotonic() < until:
                time.sleep(0.01)
            self.assertGreater(trim.call_count, 1)
            store.close()

    def test_without_memory_or_threads(self) -> None:
        """A merge that can't be begun, run or ended is begun again after a later commit."""
        with mock.patch.object(_merger, "MOST_IN_A_COMMIT", 0):
            store = self.opened()
        for target, name, error in [
            (dilforec.Index, "begin_merge", MemoryError), (threading.Thread, "start", RuntimeError),
            (dilforec.Merge, "run", MemoryError), (dilforec.Index, "end_merge", MemoryError),
        ]:
            with mock.patch.object(target, name, side_effect=error), self.assertLogs("dilforec.service", "WARNING"):
                for _ in range(20):
                    store.add({"title": "rust"})
                while store._merger._is_under_way:
                    time.sleep(0.001)
        self.assertEqual((self.segments(store), len(store)), (80, 80))
        until = time.monotonic() + 20
        while self.segments(store) > 10 and time.monotonic() < until:
            store.add({"title": "rust"})
            time.sleep(0.01)
        self.assertLessEqual(self.segments(store), 10)

    def test_closed_meanwhile(self) -> None:
        """A store closes while a merge runs."""
        begun, closed = threading.Event(), threading.Event()

        def run(merge: dilforec.Merge, run: Callable[[dilforec.Merge], None] = dilforec.Merge.run) -> None:
            begun.set()
            closed.wait(20)
            run(merge)

        with mock.patch.object(_merger, "MOST_IN_A_COMMIT", 0), mock.patch.object(dilforec.Merge, "run", run):
            store = self.opened()
            for _ in range(20):
                store.add({"title": "rust"})
            self.assertTrue(begun.wait(20))
            store.close()
            closed.set()
        self.assertEqual(len(self.opened()), 20)

    def segments(self, store: Store) -> int:
        with store.snapshot() as snapshot:
            return snapshot.stats().segments


class Threads(Stored):
    def test_groups(self) -> None:
        """Transactions that wait at the same time share a sync; a refused one among them hinders none."""
        disk = Failing()
        store, told, lock = self.opened(disk=disk), [], threading.Lock()
        slow = disk.sync

        def slowly(fd: int) -> None:
            time.sleep(0.005)
            slow(fd)

        self.put(disk, "sync", slowly)

        def write(writer: int) -> None:
            for number in range(20):
                try:
                    with store.transaction() as transaction:
                        transaction.add({"title": f"w{writer} n{number}"})
                        transaction.add({"year": "late" if number % 5 == 4 else number})
                    with lock:
                        told.append((transaction.ids, transaction.commit, f"w{writer} n{number}"))
                except TransactionRefused as error:
                    self.assertEqual((error.number, number % 5), (2, 4))

        run_all(write, 16)
        self.assertEqual((len(told), len(store)), (256, 512))
        self.assertLess(disk.calls.count("write"), 200)
        for ids, commit, title in told:
            self.assertEqual(((store.get(ids[0]) or {})["title"], ids[1] in range(1, 513)), (title, True))
        self.assertEqual(len({id for ids, _, _ in told for id in ids}), 512)

    def test_in_a_group(self) -> None:
        """What needs a document sees what came before it in its group."""
        disk = Failing()
        store = self.opened(disk=disk)
        store.add({"title": "a", "shelf": "x"})
        began, go = threading.Event(), threading.Event()
        first = disk.sync

        def wait(fd: int) -> None:
            began.set()
            go.wait(10)
            first(fd)

        self.put(disk, "sync", wait)
        came: list[tuple[str, tuple[object, ...] | None]] = []

        def call(name: str, do: Callable[[], Iterable[object]]) -> None:
            try:
                came.append((name, tuple(do())))
            except NoSuchDocument:
                came.append((name, None))

        def by_value() -> Done:
            with store.transaction() as transaction:
                transaction.delete("shelf", "x")
            return transaction.done

        calls = [("lead", lambda: (store.add({}),)), ("gone", lambda: store.delete(1)),
                 ("again", lambda: store.delete(1)), ("value", by_value),
                 ("other", lambda: store.replace(2, {"title": "b"}))]
        threads = []
        for name, do in calls:
            threads.append(threading.Thread(target=call, args=(name, do)))
            threads[-1].start()
            began.wait(10)
            time.sleep(0.05)
        go.set()
        for thread in threads:
            thread.join()
        told = dict(came)
        self.assertEqual((told["again"], self.all(store)), (None, {2: {"title": "b"}}))

    def test_many_refused(self) -> None:
        """Refused transactions among those that wait together: each line is executed once, by one sync."""
        disk = Failing()
        store, executed = self.opened(disk=disk), []
        transact = Channel.transact

        def counted(channel: Channel, block: bytes, lines: int, **given: bool) -> tuple[int, int, bytes]:
            executed.append(lines)
            return transact(channel, block, lines, **given)

        wait = [store.new_transaction() for _ in range(800)]
        for number, each in enumerate(wait):
            each.add({"title": "first", "year": number})
            each.add({"title": "second", "year": "late" if number % 2 else number})
        with mock.patch.object(Channel, "transact", counted), mock.patch.object(Channel, "ask_block", None):
            store.do(*wait)
        self.assertEqual(executed, [2] * 800)
        self.assertEqual((disk.calls.count("write"), store.commits), (2, 1))
        self.assertEqual([type(each.error) for each in wait], [type(None), TransactionRefused] * 400)
        refused = [each.error for each in wait[1::2] if isinstance(each.error, TransactionRefused)]
        self.assertEqual({(error.number, error.refusal.name) for error in refused}, {(2, "WrongKind")})
        self.assertEqual([each.ids for each in wait[::2]], [(id, id + 1) for id in range(1, 801, 2)])
        self.assertEqual((len(store), store.search("year:<800").count), (800, 800))
        there = self.all(store)
        store.close()
        self.assertEqual(self.all(self.opened()), there)

    def test_no_memory_in_a_group(self) -> None:
        """A transaction for which there is no memory has an error, and the others of its group are done."""
        store = self.opened()
        transact = Channel.transact
        for refusals in 1, 4:
            left = [refusals]

            def short(channel: Channel, block: bytes, lines: int, **given: bool) -> tuple[int, int, bytes]:
                if not left[0]:  # noqa: B023
                    return transact(channel, block, lines, **given)
                left[0] -= 1  # noqa: B023
                return MEMORY, 1, b""

            wait = [store.new_transaction() for _ in range(4)]
            for each in wait:
                each.add({"title": "first"})
                each.add({"title": "second"})
            with mock.patch.object(Channel, "transact", short):
                store.do(*wait)
            kinds = [type(each.error) for each in wait]
            self.assertEqual(kinds, [NotWritten] * refusals + [type(None)] * (4 - refusals))
            self.assertEqual((len(store), store.writable), (6, True))

    def test_no_memory_to_look(self) -> None:
        """If there is no memory to look for a document, that change isn't done, and the others are."""
        store = self.opened()
        store.add({})
        wait = [store.new_transaction() for _ in range(3)]
        wait[0].add({})
        wait[1].replace(1, {"title": "never"})
        wait[2].add({})
        with mock.patch.object(dilforec.Index, "search", side_effect=MemoryError):
            store.do(*wait)
        self.assertEqual([type(each.error) for each in wait], [type(None), NotWritten, type(None)])
        self.assertEqual((self.all(store), store.writable), ({1: {}, 2: {}, 3: {}}, True))

    def test_one_after_the_other(self) -> None:
        """Transactions that wait together do what they would do one after the other."""
        store = self.opened()
        store.add({"title": "rust", "shelf": "x"})
        wait = [store.new_transaction() for _ in range(7)]
        wait[0].add({})
        wait[0].delete("id", 2)
        wait[1].replace(2, {"title": "never"})
        wait[2].replace(1, {"title": "anew"})
        wait[3].delete_document(1)
        wait[4].replace(1, {"title": "never"})
        wait[5].add({"title": "last", "shelf": "x"})
        wait[6].replace(3, {"title": "guessed"})
        store.do(*wait)
        missing = [number for number, each in enumerate(wait) if isinstance(each.error, NoSuchDocument)]
        self.assertEqual((missing, [wait[number].error for number in (0, 2, 3, 5, 6)]), ([1, 4], [None] * 5))
        self.assertEqual(self.all(store), {3: {"title": "guessed"}})
        for wrong in store.new_transaction(), wait[0]:
            self.assertRaises(ValueError, store.do, wrong)

    def test_readers(self) -> None:
        """A reader in a loop never sees half a transaction, and commits never fall."""
        store, wrong, ended = self.opened(), [], threading.Event()

        def read(_: object) -> None:
            last = 0
            while not ended.is_set():
                found = store.search("*", groups=["shelf"], top=dilforec.Top("year", 1))
                pairs = set(found.groups["shelf"].values())
                if found.count % 2 or pairs - {found.count // 2} or found.commit < last:
                    wrong.append((found, last))
                last = found.commit

        readers = [threading.Thread(target=read, args=(None,)) for _ in range(3)]
        for reader in readers:
            reader.start()

        def write(writer: int) -> None:
            for number in range(30):
                with store.transaction() as transaction:
                    transaction.add({"shelf": "a", "year": number})
                    transaction.add({"shelf": "b", "year": number})
                if number % 3 == 0:
                    with store.transaction() as removal:
                        for id in transaction.ids:
                            removal.delete("id", id)

        run_all(write, 3)
        ended.set()
        for reader in readers:
            reader.join()
        self.assertEqual((wrong, len(store)), ([], 120))


def run_all(call: Callable[[int], object], count: int) -> None:
    """Runs a call in threads, and raises what one of them raised."""
    raised = []

    def one(number: int) -> None:
        try:
            call(number)
        except BaseException as error:
            raised.append(error)

    threads = [threading.Thread(target=one, args=(number,)) for number in range(count)]
    for thread in threads:
        thread.start()
    for thread in threads:
        thread.join()
    if raised:
        raise raised[0]


if __name__ == "__main__":
    unittest.main()
