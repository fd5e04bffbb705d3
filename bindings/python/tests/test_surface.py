"""What the package answers, and what it says of mistakes."""
from __future__ import annotations

import ast
import copy
import pathlib
import pickle
import re
import threading
import unittest
from collections.abc import Callable, Iterator, Sequence
from typing import Any

import dilforec
from dilforec import refusals

Call = Callable[[], object]

ROOT = pathlib.Path(__file__).resolve().parents[3]
FIELDS = (
    dilforec.text("title", default=True), dilforec.keyword("shelf"), dilforec.u64("year"), dilforec.i64("rating"),
)
LONG = "я" * 450_000


def opened(*documents: dict[str, Any]) -> dilforec.Index:
    index = dilforec.Index(*FIELDS)
    for document in documents:
        index.add(document)
    index.commit()
    return index


class Sentences(unittest.TestCase):
    def test_refusals(self) -> None:
        """A refusal says what is wrong, with the field or the value, and no number of a line that nobody has."""
        with opened() as index:
            calls: list[tuple[str, Call]] = [
                ("the schema has no field 'titel'", lambda: index.add({"title": "a", "titel": "b"})),
                ("the schema has no field 'titel'", lambda: index.search("titel:a")),
                ("the schema has no field 'titel'", lambda: index.search("a", groups="titel")),
                ("the schema has no field 'titel'", lambda: index.search("a", fields=["titel"])),
                ("the schema has no field 'titel'", lambda: index.search("a", top=dilforec.Top("titel", 1))),
                ("'year' is a u64 field, and can't be 'late'", lambda: index.add({"year": "late"})),
                ("'year' is a u64 field, and can't be -1", lambda: index.add({"year": -1})),
                ("'shelf' is a keyword field, and can't be ['a']", lambda: index.add({"shelf": ["a"]})),
                ("'year' is a u64 field, and can't be True", lambda: index.delete("year", True)),
                ("the keyword of 'shelf' has 257 bytes, and 256 are the most", lambda: index.add({"shelf": "a" * 257})),
                ("'title' has 1,025 texts, and 1,024 are the most", lambda: index.add({"title": ["a"] * 1025})),
                ("a top list has 1 to 10,000 hits, not 0", lambda: index.search("a", top=dilforec.Top("year", 0))),
                ("'title' is a text field, and groups are by", lambda: index.search("a", groups="title")),
                ("'shelf' is a keyword field, and a top list", lambda: index.search("a", top=dilforec.Top("shelf", 1))),
                ("the query can't be read from 'OR' on", lambda: index.search("rust OR")),
                ("the query ends too early", lambda: index.search("(rust")),
                ("parentheses of a query nest more than 32 deep", lambda: index.search("(" * 33)),
            ]
            for sentence, call in calls:
                with self.subTest(sentence), self.assertRaises(dilforec.Refused) as raised:
                    call()
                self.assertIn(sentence, str(raised.exception))
                self.assertNotRegex(str(raised.exception), "line [0-9]")
            self.assertEqual(index.add({}), 2)

    def test_mistakes(self) -> None:
        """What isn't of its type is a TypeError or a ValueError with a sentence, before the index is asked."""
        with opened() as index:
            # As code calls them that isn't checked for its types.
            package: Any = dilforec
            untyped: Any = index
            mistakes: list[tuple[type[Exception], str, Call]] = [
                (TypeError, "a query is a str, not NoneType", lambda: untyped.search(None)),
                (TypeError, "a query is a str, not int", lambda: untyped.hits(1, "year")),
                (TypeError, "a field is made by dilforec.text", lambda: package.Index("a")),
                (TypeError, "a searcher is opened by index.searcher()", lambda: package.Searcher(index)),
                (ValueError, "the order of a top list is 'rising' or 'falling', not 'desc'",
                 lambda: package.Top("year", 1, "desc")),
                (TypeError, "the length of a top list is an int, not str", lambda: package.Top("year", "1")),
                (ValueError, "a field's kind is", lambda: package.Field("a", "blob")),
                (TypeError, "a document is a mapping", lambda: untyped.add(["a"])),
                (TypeError, "a line is a str or bytes, not int", lambda: untyped.execute(1)),
                (TypeError, "fields are a list of names", lambda: untyped.search("a", fields="title")),
                (TypeError, "groups are by the name of a field", lambda: untyped.search("a", groups=1)),
                (TypeError, "a top list is a dilforec.Top", lambda: untyped.search("a", top=("year", 1))),
            ]
            for error, sentence, call in mistakes:
                with self.subTest(sentence), self.assertRaises(error) as raised:
                    call()
                self.assertIn(sentence, str(raised.exception))
            self.assertEqual(index.add({}), 2)

    def test_pickled(self) -> None:
        """A refusal of each name can be pickled and copied, and stays what it was."""
        for name, kind in refusals.BY_NAME.items():
            error = refusals.refused(name, 7, "the sentence" if name == "Syntax" else "")
            if isinstance(error, dilforec.Syntax):
                error = dilforec.Syntax(name, 7, "the sentence", 5)
            for other in pickle.loads(pickle.dumps(error)), copy.copy(error), copy.deepcopy(error):
                self.assertIs(type(other), kind)
                self.assertEqual((vars(other), str(other), other.args), (vars(error), str(error), error.args))
            self.assertTrue(str(error))
        some = dilforec.SomeRefused([(1, dilforec.Syntax("Syntax"))], [1, None])
        for other in pickle.loads(pickle.dumps(some)), copy.copy(some):
            self.assertEqual((str(other), other.stamps), (str(some), [1, None]))
        self.assertEqual(len(refusals.BY_NAME), 27)


class Syntax(unittest.TestCase):
    def test_at(self) -> None:
        """A query that isn't in the grammar tells how far it can be read, in characters, to an index and a searcher."""
        with opened() as index, index.searcher() as searcher:
            for query, rest in [("rust OR", "OR"), ("(rust", ""), ("rust )", ")"), ("яя AND", "AND"), ('я "я', ""),
                                ("\U0001f600:[1 TO", " TO"), ("--a", "-a"), ("a NOT(b)", "(b)")]:
                for each in index, searcher:
                    calls: tuple[Call, ...] = (
                        lambda: each.search(query), lambda: each.search(query, groups=["shelf", "year"]),  # noqa: B023
                        lambda: each.search(query, fields=["title"]),  # noqa: B023
                    )
                    for call in calls:
                        with self.subTest(query), self.assertRaises(dilforec.Syntax) as raised:
                            call()
                        at = raised.exception.at
                        self.assertEqual(query[at:], rest)
            for query in "", "rust", "-rust", "titel:a", "year:late", "(" * 33, "a" * 5000:
                self.assertIsNone(dilforec.library.syntax_at(query), query)

    def test_unknown(self) -> None:
        """What is refused in a line of a script has no query that the package knows."""
        unknown = refusals.refused("Syntax", 1)
        assert isinstance(unknown, dilforec.Syntax)
        self.assertIsNone(unknown.at)


class Stats(unittest.TestCase):
    def test_merges(self) -> None:
        """A merge is run in another thread while the index goes on, and then ended."""
        with dilforec.Index() as index:
            self.assertRaises(dilforec.NoSchema, index.limit_merges, 0)
            self.assertEqual((index.begin_merge(), index.end_merge()), (None, False))
        with dilforec.Index(*FIELDS) as index:
            self.assertRaises(TypeError, index.limit_merges, "few")
            self.assertRaises(ValueError, index.limit_merges, -1)
            index.limit_merges(0)
            for year in range(8):
                with index.transaction():
                    index.add({"title": "rust", "year": year})
            begun = index.begin_merge()
            assert begun
            with begun as merge:
                self.assertFalse(index.end_merge())
                thread = threading.Thread(target=merge.run)
                thread.start()
                with index.transaction():
                    index.delete("year", 0)
                thread.join()
                self.assertEqual((index.end_merge(), index.end_merge()), (True, False))
                merge.run()
            self.assertRaises(dilforec.Closed, merge.run)
            self.assertEqual((index.stats().segments, index.search("rust").count), (1, 7))
            index.limit_merges(None)
            index.limit_merges(2**40)

    def test_stats(self) -> None:
        """Segments and documents of the last commit; a searcher tells those of its own."""
        with dilforec.Index() as index:
            self.assertEqual(index.stats(), (0, 0, 0))
        with opened(*({"title": "rust", "year": year} for year in range(4))) as index, index.searcher() as searcher:
            self.assertEqual(index.stats(), dilforec.Stats(segments=1, documents=4, live=4))
            index.delete("year", 1)
            index.add({"title": "rust"})
            self.assertEqual(index.stats(), (1, 4, 4))
            index.commit()
            self.assertEqual(index.stats(), (2, 5, 4))
            self.assertEqual(index.stats().live, len(index))
            index.merge()
            self.assertEqual((index.stats(), searcher.stats()), ((1, 4, 4), (1, 4, 4)))
            index.delete_all()
            index.commit()
            self.assertEqual((index.stats(), searcher.stats()), ((0, 0, 0), (1, 4, 4)))
        for each in index, searcher:
            self.assertRaises(dilforec.library.Closed, each.stats)


class Utf8(unittest.TestCase):
    def test_long_document(self) -> None:
        """A document within the limits is never too long for a line."""
        fields = [dilforec.text(name, default=True) for name in "abcd"]
        with dilforec.Index(*fields) as index:
            self.assertEqual(index.add({name: LONG for name in "abcd"}), 1)
            self.assertEqual(index.add_many([{name: LONG for name in "abcd"}] * 2), [2, 3])
            index.commit()
            self.assertEqual(index.search(LONG[:128]).count, 0)

    def test_surrogates(self) -> None:
        with opened() as index:
            calls: tuple[Call, ...] = (lambda: index.add({"title": "\ud800"}), lambda: index.search("\ud800"))
            for call in calls:
                self.assertRaises(dilforec.BadJson, call)
            self.assertEqual(index.add({"title": "\U0001f600 й\n\x00"}), 2)

    def test_lines(self) -> None:
        """A line is text or bytes of any kind."""
        line = '{"add":{"title":"й"}}'
        with opened() as index:
            lines: list[str | bytes | bytearray | memoryview] = [
                line, line.encode(), bytearray(line.encode()), memoryview(line.encode()),
            ]
            for number, given in enumerate(lines):
                self.assertEqual(index.execute(given), b'{"stamp":%d}\n' % (number + 2))


class Calls(unittest.TestCase):
    def test_groups(self) -> None:
        """Groups of several fields are of one commit; one name answers a dict by value."""
        with opened({"shelf": "a", "year": 1}, {"shelf": "a", "year": 2}, {"shelf": "b"}) as index:
            for each in index, index.searcher():
                self.assertEqual(each.search("*", groups="shelf").groups, {"a": 2, "b": 1})
                answer = each.search("*", groups=["shelf", "year"], top=dilforec.Top("year", 1), fields=["shelf"])
                self.assertEqual(answer.groups, {"shelf": {"a": 2, "b": 1}, "year": {1: 1, 2: 1}})
                self.assertEqual((answer.count, list(answer)), (3, [dilforec.Hit(1, 1, {"shelf": "a"})]))
                nothing: list[str] = []
                self.assertEqual(each.search("*", groups=nothing).groups, {})

    def test_most_frequent(self) -> None:
        """Groups with a limit are the most frequent values, those of equal counts by their order."""
        books = [{"shelf": shelf, "year": year} for shelf, year in [("b", 1), ("a", 2), ("c", 2), ("a", 3), ("b", 4)]]
        few, top = dilforec.Groups("shelf", limit=2), dilforec.Top("year", 1)
        with opened(*books) as index:
            for each in index, index.searcher():
                limits: list[tuple[int, list[tuple[str, int]]]] = [
                    (0, []), (1, [("a", 2)]), (2, [("a", 2), ("b", 2)]), (9, [("a", 2), ("b", 2), ("c", 1)]),
                ]
                for limit, wanted in limits:
                    found = each.search("*", groups=dilforec.Groups("shelf", limit), top=top)
                    self.assertEqual((list(found.groups.items()), found.hits[0].document), (wanted, books[0]))
                chosen: list[tuple[list[str] | None, dict[str, Any]]] = [(None, books[0]), (["year"], {"year": 1})]
                for fields, document in chosen:
                    asked: list[str | dilforec.Groups] = [few, "year", dilforec.Groups("year", 1)]
                    several = each.search("*", groups=asked, top=top, fields=fields)
                    self.assertEqual((several.groups["shelf"], several.groups["year"]), ({"a": 2, "b": 2}, {2: 2}))
                    self.assertEqual((several.count, several.hits[0].document), (5, document))
                self.assertEqual(each.search("*", groups=few, fields=["year"]).groups, {"a": 2, "b": 2})
                self.assertRaises(dilforec.NotANumberField, each.search, "*", groups=dilforec.Groups("title", 1))
        self.assertRaises(TypeError, dilforec.Groups, 7, 1)
        self.assertRaises(TypeError, dilforec.Groups, "shelf", "few")
        self.assertRaises(ValueError, dilforec.Groups, "shelf", -1)

    def test_fields(self) -> None:
        """Documents have the chosen fields alone."""
        book = {"title": ["Left", "Hand"], "shelf": "a", "year": 1}
        with opened(book, {"title": "Left", "year": 2}) as index:
            for each in index, index.searcher():
                top = dilforec.Top("year", 9)
                chosen: list[tuple[Sequence[str] | None, list[dict[str, Any]]]] = [
                    (None, [book, {"title": "Left", "year": 2}]), ([], [{}, {}]), (["shelf"], [{"shelf": "a"}, {}]),
                    (("year", "title"), [{"title": ["Left", "Hand"], "year": 1}, {"title": "Left", "year": 2}]),
                ]
                for fields, wanted in chosen:
                    self.assertEqual([hit.document for hit in each.search("left", top=top, fields=fields)], wanted)
                    hits = each.hits("left", "year", page=2, fields=fields)
                    self.assertEqual([hit.document for hit in hits], wanted)

    def test_transaction(self) -> None:
        """It commits at the end, and rolls back at an exception; test_transactions.py has the rest."""
        with opened() as index:
            with index.transaction() as transaction:
                index.add({"title": "rust"})
            self.assertIsInstance(transaction, dilforec.Transaction)
            self.assertEqual(len(index), 1)
            with self.assertRaises(ZeroDivisionError), index.transaction():
                index.add({"title": "rust"})
                raise ZeroDivisionError
            self.assertEqual((index.commit(), len(index)), (4, 1))
            with self.assertRaises(dilforec.Closed), index.transaction():
                index.close()

    def test_replace(self) -> None:
        """An update by key is done, or the old document stays."""
        with opened({"title": "old", "shelf": "a", "year": 1}) as index:
            self.assertEqual(index.replace("shelf", "a", {"title": "new", "shelf": "a"}), 4)
            self.assertRaises(dilforec.WrongKind, index.replace, "shelf", "a", {"shelf": "a", "year": "late"})
            for field, value, document in [
                ("title", "new", {"title": "new"}), ("none", 1, {"none": 1}), ("shelf", "a", {"shelf": "b"}),
                ("shelf", "a", {}),
            ]:
                self.assertRaises(ValueError, index.replace, field, value, document)
            self.assertEqual(index.commit(), 5)
            self.assertEqual((len(index), index.search("new").count), (1, 1))
            index.add({"year": 7})
            self.assertEqual(index.replace("year", 7, {"year": 7, "title": "seven"}), 8)
            index.commit()
            self.assertEqual((len(index), index.search("year:7 AND seven").count), (2, 1))

    def test_add_many(self) -> None:
        """It answers the stamps; a refused document doesn't stop the others."""
        with opened() as index:
            self.assertEqual(index.add_many({"year": year} for year in range(2500)), list(range(2, 2502)))
            self.assertEqual(index.add_many([]), [])
            good, long = {"title": "good"}, {"title": LONG * 5}
            bad: list[Any] = [{"titel": 1}, {"year": "late"}, ["a"], {"title": object()}, long]
            with self.assertRaises(dilforec.SomeRefused) as raised:
                index.add_many([good, *bad, good])
            error = raised.exception
            self.assertEqual(error.stamps, [2502, None, None, None, None, None, 2503])
            self.assertEqual([number for number, _ in error.refusals], [1, 2, 3, 4, 5])
            self.assertEqual([type(why).__name__ for _, why in error.refusals],
                             ["UnknownField", "WrongKind", "TypeError", "TypeError", "LineTooLong"])
            self.assertEqual(str(error), "5 of 7 documents were refused, document 1 first: "
                                         "UnknownField: the schema has no field 'titel'")

            def broken() -> Iterator[dict[str, Any]]:
                yield good
                raise ZeroDivisionError
            self.assertRaises(ZeroDivisionError, index.add_many, broken())
            self.assertEqual((index.commit(), len(index)), (2505, 2503))

    def test_small_things(self) -> None:
        with opened({"title": 'the "left" \\ hand'}) as index:
            self.assertEqual(index.search(dilforec.quoted('"left" \\ hand')).count, 1)
            self.assertEqual(index.search(dilforec.quoted("left OR (")).count, 0)
            self.assertEqual(index.schema, FIELDS)
            self.assertEqual(repr(index), "<dilforec.Index of (title: text, shelf: keyword, year: u64, rating: i64)>")
            with index.searcher() as searcher:
                self.assertEqual((len(searcher), searcher.schema), (1, FIELDS))
            self.assertIn("closed", repr(searcher))
        with dilforec.Index() as index:
            self.assertEqual((bool(index), index.schema), (True, ()))
            index.execute('{"schema":[{"name":"n","kind":"u64"}]}')
            self.assertEqual(index.schema, (dilforec.u64("n"),))

    def test_deep_pages(self) -> None:
        """What a page can't ask is refused at once, and what the first page can, the second can."""
        with opened(*({"title": "rust", "year": year} for year in range(5))) as index:
            deep = "(" * 32 + "rust" + ")" * 32
            for query in (deep, "(" * 31 + "rust" + ")" * 31 + " OR hand", '"((" OR rust'):
                self.assertEqual(len(list(index.hits(query, "year", page=2))), 5)
            self.assertRaises(dilforec.TooDeep, index.hits, f"{deep} OR hand", "year")
            self.assertRaises(dilforec.TooLong, index.hits, "rust " * 815, "year")
            self.assertEqual(len(list(index.hits("rust " * 810, "year", page=2))), 5)

    def test_large_reply_is_not_kept(self) -> None:
        with opened(*({"title": LONG, "year": year} for year in range(2))) as index:
            answer = index.search("*", top=dilforec.Top("year", 2))
            self.assertEqual([len(hit.document["title"]) for hit in answer], [450_000] * 2)
            self.assertLessEqual(index._channel._room_size, 1 << 20)

    def test_private(self) -> None:
        """No module takes what another one keeps for itself: a name with an underscore is used where it is defined."""
        of_tuples = {"_replace", "_asdict", "_fields", "_make"}
        for path in sorted((ROOT / "bindings/python/dilforec").rglob("*.py")):
            tree = ast.parse(path.read_text("utf-8"))
            own = {node.name for node in ast.walk(tree) if isinstance(node, (ast.FunctionDef, ast.AsyncFunctionDef))}
            own |= {node.id for node in ast.walk(tree) if isinstance(node, ast.Name)}
            used = [node for node in ast.walk(tree) if isinstance(node, ast.Attribute)]
            own |= {node.attr for node in used if isinstance(node.value, ast.Name) and node.value.id in ("self", "cls")}
            taken = {node.attr for node in used if re.match("_[a-z]", node.attr)} - own - of_tuples
            # A module with an underscore is the package's own.
            modules = {module.stem for module in path.parent.glob("_*.py")}
            imported = [alias.name for node in ast.walk(tree) if isinstance(node, ast.ImportFrom) for alias in node.names]
            taken |= {name for name in imported if re.match("_[a-z]", name)} - modules
            self.assertEqual((path.name, taken), (path.name, set()))

    def test_versions(self) -> None:
        """One version for the program, the header and the packages."""
        for path, pattern in [
            ("bindings/c/dilforec.h", r'DILFOREC_VERSION "(.+)"'),
            ("bindings/rust/Cargo.toml", r'(?m)^version = "(.+)"'),
            ("crates/fts_cli/src/parser.rt", r'(?m)^(?:pub )?const VERSION: &str = "(.+)";'),
        ]:
            found = re.search(pattern, (ROOT / path).read_text())
            assert found, path
            self.assertEqual(found[1], dilforec.__version__)


if __name__ == "__main__":
    unittest.main()
