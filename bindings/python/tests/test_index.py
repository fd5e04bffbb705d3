"""The package over the worked scripts, in threads, and at its edges."""
from __future__ import annotations

import json
import pathlib
import threading
import unittest
from collections.abc import Callable
from typing import Any

import dilforec
from dilforec.values import Order

Call = Callable[[], object]

EXAMPLES = pathlib.Path(__file__).resolve().parents[3] / "examples"
FIELDS = (dilforec.text("title", default=True), dilforec.keyword("shelf"), dilforec.u64("year"), dilforec.i64("rating"))
BOOKS = [
    {"title": "Programming Pearls", "shelf": "computing", "year": 1986, "rating": 9},
    {"title": "Managing Gigabytes", "shelf": "search", "year": 1994, "rating": -1},
    {"title": ["Programming", "Rust"], "shelf": "computing", "year": 2021},
]


def opened() -> dilforec.Index:
    index = dilforec.Index(*FIELDS)
    for book in BOOKS:
        index.add(book)
    index.commit()
    return index


class Worked(unittest.TestCase):
    def test_scripts(self) -> None:
        """Each worked script gives the replies that are stored beside it."""
        scripts = [path for path in sorted(EXAMPLES.glob("*.jsonl")) if not path.name.endswith(".replies.jsonl")]
        self.assertGreater(len(scripts), 5)
        for path in scripts:
            with self.subTest(path.name), dilforec.Index() as index:
                told = [index.execute(line) for line in path.read_bytes().split(b"\n")]
                self.assertEqual(b"".join(told), path.with_suffix(".replies.jsonl").read_bytes())


class Calls(unittest.TestCase):
    def test_answers(self) -> None:
        with opened() as index:
            answer = index.search("programming", groups="shelf", top=dilforec.Top("year", 1, "falling"))
            self.assertEqual((answer.count, answer.groups), (2, {"computing": 2}))
            self.assertEqual(list(answer), [dilforec.Hit(2021, 3, BOOKS[2])])
            self.assertEqual(index.search("*", groups="year").groups, {1986: 1, 1994: 1, 2021: 1})

    def test_operations(self) -> None:
        with opened() as index:
            self.assertEqual(index.delete("shelf", "computing"), 5)
            self.assertEqual(index.rollback(), 4)
            self.assertEqual(index.delete("title", "gigabytes"), 5)
            self.assertEqual(index.add({}), 6)
            self.assertEqual(index.commit(), 7)
            self.assertEqual(index.merge(), 3)
            self.assertEqual(index.delete_all(), 8)
            self.assertEqual((index.search("*").count, index.commit(), index.search("*").count), (3, 9, 0))

    def test_together(self) -> None:
        """Commands are done together, with a stamp each, or none is, and the first that can't be is told."""
        with opened() as index:
            index.add({"title": "before"})
            stamps = index.execute_all([{"delete": {"shelf": "computing"}}, {"add": {"title": "after"}}])
            self.assertEqual((stamps, index.execute_all([])), ([6, 7], []))
            commands: list[tuple[type[dilforec.Refused], str, dict[str, Any]]] = [
                (dilforec.WrongKind, "command 3: 'year' is a u64 field, and can't be 'late'", {"add": {"year": "late"}}),
                (dilforec.UnknownField, "command 3: the schema has no field 'none'", {"delete": {"none": 1}}),
                (dilforec.BadCommand, "command 3: ", {"commit": True}),
                (dilforec.BadCommand, "command 3: ", {"search": {"query": "*"}}),
                (dilforec.BadJson, "command 3: ", {"add": {"title": "\ud800"}}),
                (dilforec.LineTooLong, "command 3 ", {"add": {"title": "x" * 4_194_304}}),
            ]
            for refusal, sentence, command in commands:
                with self.subTest(refusal.__name__), self.assertRaises(refusal) as raised:
                    index.execute_all([{"delete_all": True}, {"add": {}}, command, {"add": 1}])
                self.assertIn(sentence, str(raised.exception))
            self.assertEqual((index.commit(), index.search("*").count, index.search("after").count), (8, 3, 1))

    def test_refusals(self) -> None:
        """A refusal is an exception of its name, and leaves the index as it was."""
        with opened() as index:
            calls: list[tuple[type[dilforec.Refused], Call]] = [
                (dilforec.UnknownField, lambda: index.add({"colour": "red"})),
                (dilforec.WrongKind, lambda: index.add({"year": "late"})),
                (dilforec.WrongKind, lambda: index.delete("year", "late")),
                (dilforec.Syntax, lambda: index.search("rust OR")),
                (dilforec.AllNegative, lambda: index.search("-rust")),
                (dilforec.BadNumber, lambda: index.search("year:late")),
                (dilforec.BadLimit, lambda: index.search("rust", top=dilforec.Top("year", 0))),
                (dilforec.NotANumberField, lambda: index.search("rust", top=dilforec.Top("shelf", 1))),
                (dilforec.BadJson, lambda: index.search("\ud800")),
            ]
            for refusal, call in calls:
                with self.subTest(refusal.__name__), self.assertRaises(refusal) as raised:
                    call()
                self.assertEqual(raised.exception.name, refusal.__name__)
            self.assertEqual((index.search("*").count, index.add({})), (3, 5))
        with self.assertRaises(dilforec.BadName):
            dilforec.Index(dilforec.text("AND"))

    def test_hits(self) -> None:
        """All hits, a page at a time, equal values by their stamps; a page that has one value alone is told."""
        with dilforec.Index(*FIELDS) as index:
            for number in range(40):
                index.add({"title": "rust", "year": number // 3, "rating": -number})
            index.add({"title": "rust"})
            index.commit()
            orders: tuple[tuple[Order, int], ...] = ("rising", 1), ("falling", -1)
            for order, sign in orders:
                hits = [(hit.value, hit.stamp) for hit in index.hits("rust", "year", order=order, page=5)]
                self.assertEqual(hits, sorted(hits, key=lambda hit: (sign * hit[0], hit[1])))
                self.assertEqual(len(hits), 40)
            self.assertEqual([hit.value for hit in index.hits("rust", "rating", page=7)], list(range(-39, 1)))
            self.assertEqual(list(index.hits("gigabytes", "year")), [])
            with self.assertRaises(ValueError):
                list(index.hits("rust", "year", page=2))


class Searchers(unittest.TestCase):
    def test_one_commit(self) -> None:
        """A searcher finds its commit, whatever becomes of the index, and has the calls of a search."""
        with opened() as index:
            index.add({"title": "programming"})
            searcher = index.searcher()
            index.delete_all()
            index.commit()
            self.assertEqual(index.search("*").count, 0)
        with searcher, searcher.searcher() as another:
            for each in searcher, another:
                answer = each.search("programming", groups="shelf", top=dilforec.Top("year", 1, "falling"))
                self.assertEqual((answer.count, answer.groups), (2, {"computing": 2}))
                self.assertEqual([hit.value for hit in each.hits("*", "year", page=2)], [1986, 1994, 2021])

    def test_searches_alone(self) -> None:
        """A searcher takes nothing but searches, each as a first line."""
        with opened() as index, index.searcher() as searcher:
            self.assertEqual(searcher.execute('{"add":{}}'), b'{"error":"BadCommand","line":1}\n')
            for _ in range(2):
                with self.assertRaises(dilforec.Syntax) as raised:
                    searcher.search("rust OR")
                self.assertEqual(raised.exception.line, 1)
            with self.assertRaises(dilforec.LineTooLong) as refused:
                searcher.execute(b" " * (4_194_304 + 1))
            self.assertEqual((refused.exception.line, searcher.search("*").count, index.add({})), (None, 3, 5))

    def test_closed(self) -> None:
        index = opened()
        searcher = index.searcher()
        index.close()
        self.assertRaises(dilforec.Closed, index.searcher)
        searcher.close()
        searcher.close()
        for call in (searcher.searcher, lambda: searcher.search("rust")):
            self.assertRaises(dilforec.Closed, call)


class Edges(unittest.TestCase):
    def test_closed(self) -> None:
        """A call on a closed index is an exception, in each thread; closing twice is none."""
        index = opened()
        index.close()
        index.close()
        for call in (index.commit, lambda: index.search("rust"), lambda: index.execute(b"")):
            self.assertRaises(dilforec.Closed, call)

    def test_without_schema(self) -> None:
        with dilforec.Index() as index, self.assertRaises(dilforec.NoSchema) as raised:
            index.search("rust")
        self.assertEqual((raised.exception.name, raised.exception.line), ("NoSchema", 1))

    def test_bytes(self) -> None:
        """Bytes that aren't UTF-8, a byte 0, a blank line, a long reply, and a line over the limit."""
        with opened() as index:
            taken = 5
            lines: tuple[str | bytes, ...] = (b'{"add":{"title":"\xff"}}', b"{\0}", "nonsense")
            for line in lines:
                taken += 1
                self.assertEqual(index.execute(line), b'{"error":"BadJson","line":%d}\n' % taken)
            self.assertEqual(index.execute(" \t\r"), b"")
            with self.assertRaises(dilforec.LineTooLong):
                index.execute(b" " * (4_194_304 + 1))
            self.assertEqual(json.loads(index.execute("[")), {"error": "BadJson", "line": 10})
            index.add({"title": "long " + "x" * 1_000_000, "year": 1})
            index.commit()
            (hit,) = index.search("long", top=dilforec.Top("year", 1))
            self.assertEqual(len(hit.document["title"]), 1_000_005)


class Threads(unittest.TestCase):
    def test_searches_beside_a_writer(self) -> None:
        """Four threads search an index while another adds and commits: each finds as many as before, or more."""
        wrong = []

        def look(index: dilforec.Index) -> None:
            counts = [index.search("rust").count for _ in range(100)]
            wrong.extend([] if counts == sorted(counts) else [counts])

        with dilforec.Index(*FIELDS) as index:
            threads = [threading.Thread(target=look, args=(index,)) for _ in range(4)]
            for thread in threads:
                thread.start()
            for _ in range(100):
                index.add({"title": "rust"})
                index.commit()
            for thread in threads:
                thread.join()
            self.assertEqual((wrong, index.search("rust").count), ([], 100))

    def test_searchers_beside_a_writer(self) -> None:
        """Four threads search their own searcher while another adds and commits: each finds its commit alone."""
        wrong = []

        def look(searcher: dilforec.Searcher, count: int) -> None:
            with searcher:
                counts = {searcher.search("rust").count for _ in range(200)}
            wrong.extend([] if counts == {count} else [(count, counts)])

        with dilforec.Index(*FIELDS) as index:
            threads = []
            for count in range(1, 101):
                index.add({"title": "rust"})
                index.commit()
                if count % 25 == 1:
                    threads.append(threading.Thread(target=look, args=(index.searcher(), count)))
                    threads[-1].start()
            for thread in threads:
                thread.join()
            self.assertEqual((wrong, len(threads), index.search("rust").count), ([], 4, 100))

    def test_one_index(self) -> None:
        """Threads that share an index take turns, so no call sees half of another."""
        def add(index: dilforec.Index) -> None:
            for _ in range(100):
                index.add({"title": "rust"})

        with dilforec.Index(*FIELDS) as index:
            threads = [threading.Thread(target=add, args=(index,)) for _ in range(4)]
            for thread in threads:
                thread.start()
            for thread in threads:
                thread.join()
            index.commit()
            self.assertEqual(index.search("rust").count, 400)


if __name__ == "__main__":
    unittest.main()
