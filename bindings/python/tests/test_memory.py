"""Refuses each growth in turn, under bindings/refuse.c: LD_PRELOAD names it, as it is built.

A call that is refused raises MemoryError and changes nothing, so the same call, made again, gives what it would have.
`add_many` tells which documents were done, and goes on after them.
"""
from __future__ import annotations

import ctypes
import pathlib
import unittest
from collections.abc import Callable, Sequence
from typing import TypeVar

import dilforec

T = TypeVar("T")

EXAMPLES = pathlib.Path(__file__).resolve().parents[3] / "examples"
REFUSE = ctypes.CDLL(None).refuse_growth
REFUSE.argtypes, REFUSE.restype = [ctypes.c_long, ctypes.c_char_p], ctypes.c_long
FIELDS = (dilforec.text("title", default=True), dilforec.u64("year"))
DOCUMENTS = 200


class Memory(unittest.TestCase):
    refusals = 0

    @classmethod
    def tearDownClass(cls) -> None:
        print(f"{cls.refusals} refusals")

    def again(self, call: Callable[[], T], asker: bytes | None = b"libdilforec") -> T:
        """What a call gives once it is granted all growths: the first time none, then one, then two and so on."""
        for growth in range(1, 1_000_000):
            REFUSE(growth, asker)
            try:
                return call()
            except MemoryError as error:
                if isinstance(error, dilforec.Unfinished):
                    raise
                type(self).refusals += 1
            finally:
                REFUSE(0, None)
        raise AssertionError("it is never granted")

    def test_scripts(self) -> None:
        for name in ("groups", "ties", "shelves"):
            before = self.refusals
            script = (EXAMPLES / f"{name}.jsonl").read_bytes().split(b"\n")
            with self.subTest(name), self.again(dilforec.Index) as index:
                told = [self.again(lambda: index.execute(line)) for line in script]  # noqa: B023
                self.assertEqual(b"".join(told), (EXAMPLES / f"{name}.replies.jsonl").read_bytes())
                self.assertGreater(self.refusals, before + 5)

    def test_documents_are_added_once(self) -> None:
        """Growths of the library and of Python are refused, and each document is there once."""
        for asker in b"libdilforec", None:
            with dilforec.Index(*FIELDS) as index:
                for number in range(DOCUMENTS):
                    document = {"title": f"rust {number}", "year": number}
                    self.again(lambda: index.add(document), asker)  # noqa: B023
                self.again(index.commit, asker)
                self.assertEqual((len(index), index.commit()), (DOCUMENTS, DOCUMENTS + 2))

    def test_documents_are_replaced_once(self) -> None:
        with dilforec.Index(*FIELDS) as index:
            index.add({"title": "rust", "year": 7})
            for number in range(DOCUMENTS):
                document = {"title": f"rust {number}", "year": 7}
                stamp = self.again(lambda: index.replace("year", 7, document))  # noqa: B023
                self.assertEqual(stamp, 2 * number + 3)
            index.commit()
            self.assertEqual((len(index), index.search(f"{DOCUMENTS - 1}").count), (1, 1))

    def test_together(self) -> None:
        """Commands that are done together find memory for all, or none is done."""
        with dilforec.Index(*FIELDS) as index:
            commands = [{"add": {"title": f"rust {number}", "year": number}} for number in range(DOCUMENTS)]
            self.assertEqual(self.again(lambda: index.execute_all(commands)), list(range(1, DOCUMENTS + 1)))
            index.commit()
            self.assertEqual(len(index), DOCUMENTS)

    def test_transactions(self) -> None:
        """A block that finds no memory leaves nothing of it, and is done once when it is tried again."""
        def block() -> dilforec.Transaction:
            with index.transaction() as transaction:
                index.delete("title", "before")
                index.add({"title": "rust"})
                for number in range(DOCUMENTS):
                    transaction.add({"title": f"rust {number}", "year": number})
            return transaction

        for asker in b"libdilforec", None:
            with dilforec.Index(*FIELDS) as index:
                index.add({"title": "before"})
                before = self.refusals
                self.assertEqual(self.again(block, asker).stamps, range(5, DOCUMENTS + 5))
                self.assertGreater(self.refusals, before + 5)
                self.assertEqual((len(index), index.commit()), (DOCUMENTS + 1, DOCUMENTS + 6))

    def test_rollbacks(self) -> None:
        """A rollback at the end of a block that finds no memory is made before the next change."""
        with dilforec.Index(*FIELDS) as index:
            for growth in range(1, 1_000_000):
                with self.assertRaises(ZeroDivisionError), index.transaction():
                    index.add({"title": "rust"})
                    REFUSE(growth, b"libdilforec")
                    raise ZeroDivisionError
                if REFUSE(0, None) < growth:
                    break
                type(self).refusals += 1
                self.assertEqual((index.add({"title": "hand"}), index.rollback()), (1, 0))
            with index.transaction() as transaction:
                transaction.add({"title": "rust"})
            self.assertEqual((list(transaction.stamps), len(index)), ([1], 1))

    def test_merges(self) -> None:
        """A merge that finds no memory is begun, run or ended when it is tried again."""
        with dilforec.Index(*FIELDS) as index:
            index.limit_merges(0)
            for number in range(8):
                index.add({"title": "rust", "year": number})
                index.commit()
            before = self.refusals
            begun = self.again(index.begin_merge)
            assert begun
            with begun as merge:
                self.again(merge.run)
                self.assertTrue(self.again(index.end_merge))
            self.assertGreater(self.refusals, before + 5)
            self.assertEqual((index.stats(), index.search("rust").count), ((1, 8, 8), 8))

    def test_many_are_added_once(self) -> None:
        """Each growth of a block is refused in turn; what was done is told, and isn't done twice."""
        for asker in b"libdilforec", None:
            with dilforec.Index(*FIELDS) as index:
                documents = [{"title": f"rust {number}", "year": number} for number in range(DOCUMENTS)]
                stamps: list[int | None] = []
                growth = 1
                while len(stamps) < DOCUMENTS:
                    REFUSE(growth, asker)
                    more: Sequence[int | None]
                    try:
                        more = index.add_many(documents[len(stamps):])
                    except dilforec.Unfinished as error:
                        more = error.stamps
                        type(self).refusals += 1
                    except MemoryError:
                        more = []
                        type(self).refusals += 1
                    finally:
                        REFUSE(0, None)
                    stamps += more
                    growth = 1 if more else growth + 1
                self.assertEqual(stamps, list(range(1, DOCUMENTS + 1)))
                index.commit()
                self.assertEqual(len(index), DOCUMENTS)

    def test_large_replies(self) -> None:
        """A reply that finds no room is asked for again."""
        with dilforec.Index(*FIELDS) as index:
            index.add({"title": "rust " * 100_000, "year": 1})
            index.commit()
            for asker in b"libdilforec", None:
                answer = self.again(lambda: index.search("rust", top=dilforec.Top("year", 1)), asker)
                self.assertEqual(len(answer.hits[0].document["title"]), 500_000)


if __name__ == "__main__":
    unittest.main()
