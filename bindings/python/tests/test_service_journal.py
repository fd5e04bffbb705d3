"""Journals: disks that fail, files that are cut and damaged, compactions that are killed."""
from __future__ import annotations

import json
import os
import pathlib
import signal
import subprocess
import sys
import threading
import time
import unittest
from collections.abc import Callable
from typing import Any
from unittest import mock

import dilforec
from dilforec.service import (
    BadJournal, BadSchema, Busy, NotWritten, OutcomeUnknown, Sizes, Stopped, Store, _compact, _files, _journal,
)
from dilforec.service._compactor import Compacting
from dilforec.values import Order
from service_tools import FIELDS, Failing, Stored, child

Call = Callable[[], object]
Document = dict[str, Any]

BUILT = pathlib.Path(__file__).resolve().parents[3] / "crates/fts/out/fts"
PROGRAM = pathlib.Path(os.environ.get("DILFOREC_PROGRAM", BUILT))


class Disks(Stored):
    def test_failing(self) -> None:
        """A write or a sync that fails, at each transaction: nothing is visible, and it goes on."""
        disk = Failing()
        store = self.opened(disk=disk)
        there: dict[int, Document] = {}
        for number in range(12):
            disk.fails = {["write", "sync"][number % 2]: 1}
            with self.assertRaises(NotWritten), store.transaction() as transaction:
                transaction.add({"title": "lost"})
                transaction.delete_all()
            self.assertEqual(self.all(store), there)
            there[store.add({"title": f"kept {number}"})] = {"title": f"kept {number}"}
            self.assertEqual(self.journal.stat().st_size, store.journal_bytes)
        store.close()
        self.assertEqual(self.all(self.opened()), there)

    def test_unknown(self) -> None:
        """If the file can't be cut back either, no write is taken until a restart; then it is there whole, or not."""
        for name, fails in ("write", {"write": 1, "cut": 1}), ("sync", {"sync": 2}):
            with self.subTest(name):
                disk = Failing()
                store = Store(FIELDS, self.folder / name, disk=disk)
                store.add({"title": "first"})
                disk.fails = dict(fails)
                with self.assertRaises(OutcomeUnknown) as raised, store.transaction() as transaction:
                    transaction.add({"title": "a"})
                    transaction.add({"title": "b"})
                self.assertIn("outcome unknown", str(raised.exception))
                calls: tuple[Call, ...] = (lambda: store.add({}), lambda: store.delete(1), store.compact)
                for call in calls:
                    self.assertRaises(Stopped, call)
                self.assertEqual((self.all(store), store.writable), ({1: {"title": "first"}}, False))
                store.close()
                with Store(FIELDS, self.folder / name) as again:
                    self.assertIn(len(again), (1, 3))
                    self.assertEqual(((again.get(1) or {})["title"], again.writable), ("first", True))

    def test_commit_refused(self) -> None:
        """A commit that is refused after the sync is tried again, and else the file is cut back."""
        store = self.opened()
        store.add({"title": "first"})
        commit = store._writer.index.commit
        size = self.journal.stat().st_size
        for refusals in 1, 2:
            left = [MemoryError()] * refusals
            with mock.patch.object(store._writer.index, "commit", lambda: (_raise(left.pop()) if left else commit())):
                if refusals == 1:
                    self.assertEqual(store.add({"title": "second"}), 2)
                    size = self.journal.stat().st_size
                else:
                    self.assertRaises(NotWritten, store.add, {"title": "third"})
        there = {1: {"title": "first"}, 2: {"title": "second"}}
        self.assertEqual((self.all(store), self.journal.stat().st_size, store.writable), (there, size, True))
        self.assertEqual(store.add({}), 3)
        store.close()
        self.assertEqual(len(self.opened()), 3)

    def test_full(self) -> None:
        """A disk that is full, by a limit on the size of files: nothing visible that isn't there, and it goes on."""
        code = """if True:
            import resource, sys, service_tools
            from dilforec.service import NotWritten, Store
            store = Store(service_tools.FIELDS, sys.argv[1])
            soft, hard = resource.getrlimit(resource.RLIMIT_FSIZE)
            acknowledged = refused = 0
            for limit in range(2000, 8000, 50):
                resource.setrlimit(resource.RLIMIT_FSIZE, (limit, hard))
                try:
                    store.add({"title": "word " * 20})
                    acknowledged += 1
                except NotWritten:
                    refused += 1
                assert len(store) == acknowledged, (len(store), acknowledged)
            resource.setrlimit(resource.RLIMIT_FSIZE, (1, hard))
            try:
                store.compact()
            except NotWritten:
                refused += 1000
            resource.setrlimit(resource.RLIMIT_FSIZE, (soft, hard))
            store.add({})
            print(acknowledged + 1, refused)
        """
        process = child(code, self.journal)
        told = process.communicate(timeout=60)[0].split()
        self.assertEqual(process.returncode, 0)
        self.assertTrue(int(told[0]) > 10 and int(told[1]) > 1010, told)
        self.assertEqual(len(self.opened()), int(told[0]))


def _raise(error: BaseException) -> None:
    raise error


class Journals(Stored):
    def filled(self) -> tuple[bytes, list[int], list[dict[int, Document]]]:
        """A small journal, the places after each whole transaction, and the documents then."""
        store = self.opened()
        places: list[int] = []
        there: list[dict[int, Document]] = []

        def note() -> None:
            places.append(self.journal.stat().st_size)
            there.append(self.all(store))

        note()
        for number in range(4):
            with store.transaction() as transaction:
                transaction.add({"title": f"häß {number}", "year": number})
                transaction.add({"shelf": "{\"commit\":true}\n"})
            note()
            store.replace(transaction.ids[0], {"title": "anew"})
            note()
        store.delete(1)
        note()
        store.close()
        return self.journal.read_bytes(), places, there

    def test_cut(self) -> None:
        """A start on a journal cut at every byte, with and without what a torn write leaves: the whole transactions."""
        whole, places, there = self.filled()
        for size in range(len(whole) + 1):
            tail = [b"", b"\0" * 9, b'{"add":{"id":99}}\n', b'{"commit":true}'][size % 4]
            self.journal.write_bytes(whole[:size] + (tail if size >= places[0] else b""))
            last = sum(place <= size for place in places) - 1
            with Store(FIELDS, self.journal) as store:
                self.assertEqual(self.all(store), there[last] if last >= 0 else {}, size)
                self.assertEqual(store.commits, max(last, 0))
            self.assertEqual(self.journal.stat().st_size, places[max(last, 0)])

    def test_zeros(self) -> None:
        """A last transaction with bytes 0 is torn, as where power failed; an earlier one is damaged."""
        whole, places, there = self.filled()
        self.journal.write_bytes(whole[: places[-2] + 3] + b"\0" * 6 + whole[places[-2] + 9 :])
        with Store(FIELDS, self.journal) as store:
            self.assertEqual((self.all(store), store.torn), (there[-2], len(whole) - places[-2]))
        self.journal.write_bytes(whole[: places[-3] + 3] + b"\0" * 6 + whole[places[-3] + 9 :])
        self.assertRaises(BadJournal, Store, FIELDS, self.journal)

    def test_damaged(self) -> None:
        """A line in the middle that is refused stops the start with its number and byte, and changes nothing."""
        whole, places, _ = self.filled()
        line = whole.count(b"\n", 0, places[2]) + 1
        for bad in (
            b'{"add":{"id":9,"year":"x"}}', b'{"rollback":true}', b'{"add":{"year":1}}', b"nonsense", b"",
            b'{"merge":true}', b'{"search":{"query":"*"}}', b'{"add":{"id":9,"title":"' + b"x" * 4_194_304 + b'"}}',
        ):
            with self.subTest(bad[:30]):
                damaged = whole[: places[2]] + bad + b"\n" + whole[places[2] :] + b"torn"
                self.journal.write_bytes(damaged)
                with self.assertRaises(BadJournal) as raised:
                    Store(FIELDS, self.journal)
                self.assertEqual((raised.exception.line, raised.exception.at), (line, places[2]))
                self.assertEqual(self.journal.read_bytes(), damaged)
        for other in (b"some text\n", b"\n", b'{"add":{}}\n', b"text"):
            self.journal.write_bytes(other)
            self.assertRaises((BadJournal, BadSchema), Store, FIELDS, self.journal)
            self.assertEqual(self.journal.read_bytes(), other)

    def test_named_by_mistake(self) -> None:
        """A file that isn't a journal is never emptied, unless all of it begins the line that is written."""
        with Store(FIELDS, self.journal):
            schema = self.journal.read_bytes()
        mistakes = [
            b'{"schema":[' + b"1," * 40_000 + b"1]}",
            json.dumps({"schema": [{"name": "title", "kind": "text"}]}).encode(),
            json.dumps([{"name": "title", "kind": "text"}]).encode(), schema[:-1] + b" ", schema[:20] + b"\0", b"{}",
            b'{"schema":[{"name":"title","kind":"text","default":true}]}', schema[:-1] + schema[:-1],
        ]
        beside = self.folder / "journal.compacting"
        beside.write_text("other")
        for mistake in mistakes:
            with self.subTest(mistake[:40]):
                self.journal.write_bytes(mistake)
                self.assertRaises(BadJournal, Store, FIELDS, self.journal)
                self.assertEqual((self.journal.read_bytes(), beside.read_text()), (mistake, "other"))
        for size in 0, 1, 20, len(schema) - 1:
            self.journal.write_bytes(schema[:size])
            with Store(FIELDS, self.journal) as store:
                self.assertEqual((len(store), store.torn), (0, size))
            self.assertEqual(self.journal.read_bytes(), schema)

    def test_backwards(self) -> None:
        """The lines of a file from the last to the first, however blocks cut them."""
        lines = [b"x" * (number * 7 % 23) for number in range(200)]
        text = b"head\n" + b"".join(line + b"\n" for line in lines)
        self.journal.write_bytes(text)
        with self.journal.open("rb") as file:
            for block in 1, 2, 3, 7, 64, 1 << 20:
                with mock.patch.object(_files, "_BLOCK", block):
                    for forth, wanted in (_files.lines, lines), (_files.lines_backwards, lines[::-1]):
                        self.assertEqual(list(forth(file.fileno(), len(b"head\n"), len(text))), wanted)
                        self.assertEqual(list(forth(file.fileno(), 5, 5)), [])

    def test_script(self) -> None:
        """The journal is a script: an index and `fts run` that execute its lines answer as the store does."""
        self.filled()
        with Store(FIELDS, self.journal) as store:
            store.compact()
            store.add({"title": "last", "year": 1})
            expected = store.search("*", groups=["shelf", "year"], top=dilforec.Top("year", 100))
        if PROGRAM.exists():
            top = {"by": "year", "k": 100, "order": "rising"}
            asked = [{"search": {"query": "*", "groups": field, "top": top}} for field in ("shelf", "year")]
            script = self.journal.read_bytes() + b"".join(json.dumps(line).encode() + b"\n" for line in asked)
            done = subprocess.run([PROGRAM, "run"], input=script, capture_output=True)
            self.assertEqual((done.returncode, b"error" in done.stdout), (0, False))
            told = [json.loads(line) for line in done.stdout.splitlines()[-len(asked):]]
            self.assertEqual([reply["count"] for reply in told], [expected.count] * 2)
            self.assertEqual([dict(reply["groups"]) for reply in told], list(expected.groups.values()))
            for reply in told:
                self.assertEqual([hit["doc"] for hit in reply["top"]], [hit.document for hit in expected.hits])
        lines = self.journal.read_bytes().splitlines(keepends=True)
        with dilforec.Index() as index:
            replies = [index.execute(line[:-1]) for line in lines]
            self.assertEqual([reply for reply in replies if b"error" in reply], [])
            found = index.search("*", groups=["shelf", "year"], top=dilforec.Top("year", 100))
        self.assertEqual((found.count, found.groups), (expected.count, expected.groups))
        self.assertEqual([hit.document for hit in found.hits], [hit.document for hit in expected.hits])


class Schemas(Stored):
    """Compactions that change the schema."""

    def filled(self) -> Store:
        store = self.opened()
        for year in range(30):
            store.add({"title": f"n{year}", "shelf": "ab"[year % 2], "year": year % 4})
        for id in 3, 9, 4:
            store.replace(id, {"title": "anew", "shelf": "c", "year": id % 4})
        store.delete(5)
        return store

    def test_changed(self) -> None:
        """Fields are added and dropped, marks change, another kind has to be dropped first; what stays is the same."""
        store = self.filled()
        there, commit = self.all(store), store.commits
        with store.snapshot() as before:
            sizes = store.compact(
                schema=[dilforec.keyword("shelf", default=True), dilforec.i64("temp"), dilforec.text("year")],
                drop=["title", "year"],
            )
            self.assertEqual((before.search("anew").count, len(before)), (3, 29))
        self.assertEqual(sizes.after, self.journal.stat().st_size)
        there = {id: {"shelf": document["shelf"]} for id, document in there.items()}
        for again in False, True:
            self.assertEqual((self.all(store), store.search("c").count, store.commits), (there, 3, commit + again))
            there[store.replace(7, {"temp": -7, "year": "late"}).ids[0]] = {"temp": -7, "year": "late"}
            self.assertEqual(([field.name for field in store.fields]), ["shelf", "temp", "year"])
            fields = store.fields
            store.compact()
            store.close()
            store = Store(fields, self.journal)
            self.addCleanup(store.close)
        store.compact(drop=["temp"])
        self.assertEqual((store.get(7), len(store.fields)), ({"id": 7, "year": "late"}, 2))

    def test_refused(self) -> None:
        """A change that would lose something leaves all as it was."""
        store = self.filled()
        there, whole = self.all(store), self.journal.read_bytes()
        title, shelf, year = FIELDS
        wrong: tuple[dict[str, Any], ...] = (
            {"schema": [title, shelf]}, {"schema": [title, shelf, dilforec.i64("year")]}, {"drop": ["what"]},
            {"schema": [*FIELDS, dilforec.u64("id")]}, {"schema": [*FIELDS, dilforec.text("AND")]},
            {"drop": ["title", "shelf", "year", "x"]}, {"schema": [*FIELDS, shelf]},
        )
        for more in wrong:
            with self.subTest(more):
                self.assertRaises(BadSchema, store.compact, **more)
        self.assertRaises(TypeError, store.compact, drop="title")
        with Store(FIELDS, self.folder / "keyed", key="shelf") as keyed:
            self.assertRaises(BadSchema, keyed.compact, drop=["shelf"])
        self.assertEqual((self.all(store), self.journal.read_bytes()), (there, whole))

    def test_faults(self) -> None:
        """A call on the disk that fails, and a transaction that waits meanwhile."""
        disk = Failing()
        store = self.opened(disk=disk)
        store.add({"title": "first", "year": 1})
        for name, after in ("write", 0), ("sync", 0), ("sync", 1), ("rename", 0):
            with self.subTest(name=name, after=after):
                disk.fails, disk.after = {name: 1}, {name: after}
                self.assertRaises(NotWritten, store.compact, drop=["shelf"])
                self.assertEqual([path.name for path in self.folder.iterdir()], ["journal"])
                store.add({"shelf": "still"})
        began, go, write = threading.Event(), threading.Event(), disk.write

        def late(fd: int, data: bytes, at: int) -> None:
            began.set()
            go.wait(20)
            write(fd, data, at)

        self.put(disk, "write", late)
        threads = [threading.Thread(target=lambda: store.compact(drop=["shelf"]))]
        threads[0].start()
        self.assertTrue(began.wait(20))
        threads.append(threading.Thread(target=lambda: store.add({"title": "waited"})))
        threads[1].start()
        self.assertEqual(len(store), 5)
        go.set()
        for thread in threads:
            thread.join()
        self.put(disk, "write", write)
        self.assertEqual((len(store), store.get(2), store.search("waited").count), (6, {"id": 2}, 1))


class Compactions(Stored):
    def ties(self, store: Store) -> list[list[tuple[int, Document]]]:
        """Top lists with ties, in both orders, and all documents."""
        orders: tuple[Order, ...] = "rising", "falling"
        tops = [store.search("*", top=dilforec.Top("year", 100, order)).hits for order in orders]
        return [[(hit.id, hit.document) for hit in hits] for hits in tops]

    def test_answers(self) -> None:
        """Ties, numbers and commits are the same after a compaction and a restart."""
        store = self.opened()
        for number in range(40):
            store.add({"title": f"n{number}", "year": number % 3})
        for id in (7, 3, 30, 4, 8):
            store.replace(id, {"title": "anew", "year": id % 3})
        for id in (1, 2, 40):
            store.delete(id)
        before, commit = self.ties(store), store.commits
        sizes = store.compact()
        self.assertLess(sizes.after, sizes.before)
        self.assertEqual((self.ties(store), store.commits, self.journal.stat().st_size), (before, commit, sizes.after))
        store.close()
        store = self.opened()
        self.assertEqual((self.ties(store), store.commits), (before, commit))
        # 40 was the newest, and was deleted.
        self.assertEqual((store.add({}), store.commits), (41, commit + 1))
        store.close()
        self.assertEqual(len(self.opened()), 38)

    def test_many(self) -> None:
        """More documents than a search gives at once."""
        store = self.opened()
        kept: dict[int, Document] = {}
        for start in range(0, 20_001, 1000):
            given = [{"title": "one", "year": year} for year in range(start, min(start + 1000, 20_001))]
            with store.transaction() as transaction:
                for document in given:
                    transaction.add(document)
            kept.update(zip(transaction.ids, given))
        store.delete(7)
        del kept[7]
        store.compact()
        self.assertEqual(self.all(store), kept)
        store.close()
        self.assertEqual(self.all(self.opened()), kept)

    def test_empty(self) -> None:
        """Nothing to keep but the numbers; and again."""
        store = self.opened()
        store.compact()
        store.add({})
        store.delete(1)
        for _ in range(3):
            store.compact()
            store.close()
            store = self.opened()
        self.assertEqual((len(store), store.commits, store.add({})), (0, 2, 2))

    def test_beside_writers(self) -> None:
        """Compactions while others write and search."""
        store = self.opened()
        kept: dict[int, Document] = {}

        def write(writer: int) -> None:
            for number in range(60):
                id = store.add({"title": f"w{writer} n{number}", "year": number})
                if number % 3 == 0:
                    store.delete(id)
                elif number % 3 == 1:
                    kept[store.replace(id, {"title": "anew"}).ids[0]] = {"title": "anew"}
                else:
                    kept[id] = {"title": f"w{writer} n{number}", "year": number}

        writers = [threading.Thread(target=write, args=(writer,)) for writer in range(4)]
        for writer in writers:
            writer.start()
        compactions = 0
        while any(writer.is_alive() for writer in writers):
            store.compact()
            compactions += 1
        self.assertGreater(compactions, 1)
        there, ties, commit = self.all(store), self.ties(store), store.commits
        self.assertEqual(there, kept)
        store.close()
        store = self.opened()
        self.assertEqual((self.all(store), self.ties(store), store.commits), (there, ties, commit))

    def test_close(self) -> None:
        """A close ends a compaction; the journal is whole."""
        store = self.opened()
        with store.transaction() as transaction:
            for number in range(100):
                transaction.add({"title": "x " * 10_000})
        disk = store._journal.disk
        told: list[Sizes | Stopped] = []
        began, write = threading.Event(), disk.write

        def late(fd: int, data: bytes, at: int) -> None:
            began.set()
            time.sleep(0.1)
            write(fd, data, at)

        self.put(disk, "write", late)

        def compact() -> None:
            try:
                told.append(store.compact())
            except Stopped as error:
                told.append(error)

        thread = threading.Thread(target=compact)
        thread.start()
        began.wait(10)
        store.close()
        thread.join()
        self.assertIsInstance(told[0], Stopped)
        self.assertEqual([path.name for path in self.folder.iterdir()], ["journal"])
        self.assertEqual(len(self.opened()), 100)

    def test_busy(self) -> None:
        """A second compaction is refused while one goes on, and only then."""
        store = self.opened()
        store.add({})
        began, go = threading.Event(), threading.Event()
        write = store._journal.disk.write

        def late(fd: int, data: bytes, at: int) -> None:
            began.set()
            go.wait(20)
            write(fd, data, at)

        with mock.patch.object(store._journal.disk, "write", late):
            thread = threading.Thread(target=store.compact)
            thread.start()
            self.assertTrue(began.wait(20))
            self.assertRaises(Busy, store.compact)
            go.set()
            thread.join()
        store.compact()

    def test_failing(self) -> None:
        """A call on the disk that fails during a compaction: the journal is as it was, and it goes on."""
        disk = Failing()
        store = self.opened(disk=disk)
        for number in range(20):
            store.add({"title": f"n{number}"})
        there = self.all(store)
        for name, after in ("write", 0), ("sync", 0), ("sync", 1), ("rename", 0):
            with self.subTest(name=name, after=after):
                disk.fails, disk.after = {name: 1}, {name: after}
                size = self.journal.stat().st_size
                self.assertRaises(NotWritten, store.compact)
                self.assertEqual((self.all(store), self.journal.stat().st_size), (there, size))
                self.assertEqual([path.name for path in self.folder.iterdir()], ["journal"])
                there[store.add({"title": "more"})] = {"title": "more"}
        with mock.patch.object(store._journal, "begin_beside", side_effect=PermissionError(13, "Permission denied")):
            self.assertRaises(NotWritten, store.compact)
        disk.fails, disk.after = {"sync_folder": 1}, {}
        self.assertRaises(OutcomeUnknown, store.compact)
        self.assertRaises(Stopped, store.add, {})
        store.close()
        self.assertEqual(self.all(self.opened()), there)

    def test_owner(self) -> None:
        """The new file has the owner, the group and the permissions of the old one, or isn't made."""
        store = self.opened()
        store.add({"title": "first"})
        os.chmod(self.journal, 0o604)
        if os.geteuid() == 0:
            os.chown(self.journal, 1234, 2345)
        before = self.journal.stat()
        store.compact()
        after = self.journal.stat()
        self.assertNotEqual(before.st_ino, after.st_ino)
        self.assertEqual((before.st_mode, before.st_uid, before.st_gid), (after.st_mode, after.st_uid, after.st_gid))
        store.add({"title": "second"})
        real = os.fstat(store._journal.fd)
        other = os.stat_result((*real[:4], 99, 98, *real[6:]))
        with mock.patch.object(os, "fstat", lambda fd: other if fd == store._journal.fd else real), \
                mock.patch.object(os, "fchown", side_effect=PermissionError(1, "Operation not permitted")):
            self.assertRaisesRegex(NotWritten, "is as it was: Operation not permitted", store.compact)
        self.assertEqual([path.name for path in self.folder.iterdir()], ["journal"])
        self.assertEqual((self.journal.stat().st_ino, store.add({})), (after.st_ino, 3))

    def test_beside(self) -> None:
        """A compaction writes into no file, and through no link, that somebody else has put there."""
        store, beside, other = self.opened(), self.folder / "journal.compacting", self.folder / "other"
        store.add({"title": "first"})
        other.write_text("other")
        makes: tuple[Call, ...] = (lambda: beside.symlink_to(other)), (lambda: beside.write_text("theirs"))
        for make in makes:
            make()
            with mock.patch.object(_journal, "_remove"):
                self.assertRaises(NotWritten, store.compact)
            self.assertEqual(other.read_text(), "other")
            store.compact()
            self.assertEqual(other.read_text(), "other")
        self.assertEqual(sorted(path.name for path in self.folder.iterdir()), ["journal", "other"])

    def test_bits(self) -> None:
        """A compaction remembers one bit for each document, from the first that is there."""
        bits = _compact._Bits(range(1_000_005, 1_080_005, 2))
        self.assertEqual(len(bits._bytes), 10_000)
        self.assertEqual([1_000_005 in bits, 1_000_006 in bits, 5 in bits, 2_000_000 in bits], [True] + [False] * 3)
        bits.remove(1_000_005)
        self.assertEqual((1_000_005 in bits, 1_000_007 in bits, bits.count), (False, True, 39_999))

    def test_taken_back(self) -> None:
        """A transaction whose commit is refused after the sync isn't copied by a compaction meanwhile."""
        store = self.opened()
        store.add({"title": "first"})
        compactor, compacting = store._compactor, Compacting()
        compaction, snapshot = compactor._begun(compacting)
        with snapshot:
            compaction.write(snapshot.ids())

        def commit() -> None:
            compaction.follow()
            raise MemoryError

        with mock.patch.object(store._writer.index, "commit", commit):
            self.assertRaises(NotWritten, store.add, {"title": "second"})
        store.add({"title": "third"})
        compactor._finish(compacting, compaction)
        there = self.all(store)
        store.close()
        self.assertEqual((self.all(self.opened()), there), (there, {1: {"title": "first"}, 2: {"title": "third"}}))

    def test_killed(self) -> None:
        """kill -9 before each call on the disk of a compaction, and in the middle of each write: nothing is lost."""
        code = """if True:
            import sys, service_tools
            from dilforec.service import Store
            disk = service_tools.Killing()
            store = Store(service_tools.FIELDS, sys.argv[1], disk=disk)
            for number in range(20):
                store.add({"title": "kept", "year": number})
                if number % 2:
                    store.delete(number)
            print(len(store), store.commits, flush=True)
            disk.left = int(sys.argv[2])
            store.compact()
            print("compacted")
        """
        for step in range(20):
            journal = self.folder / f"journal{step}"
            process = child(code, journal, step)
            told = process.communicate(timeout=60)[0].decode().split()
            with Store(FIELDS, journal) as store:
                self.assertEqual([str(len(store)), str(store.commits), store.add({})], [told[0], told[1], 21])
            self.assertEqual(list(self.folder.glob("*.compacting")), [])
            if "compacted" in told:
                break
            self.assertEqual(process.returncode, -signal.SIGKILL)
        self.assertIn(step, range(4, 15))


if __name__ == "__main__":
    unittest.main()
