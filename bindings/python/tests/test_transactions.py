"""Blocks of `Index.transaction`: what is done in one is all committed at its end, or nothing of it stays."""
from __future__ import annotations

import os
import pickle
import signal
import threading
import time
import unittest
from collections.abc import Callable, Iterator
from typing import Any

import dilforec

Call = Callable[[], object]

FIELDS = (dilforec.text("title", default=True), dilforec.keyword("shelf"), dilforec.u64("year"))
RUST, LATE = {"title": "rust"}, {"title": "rust", "year": "late"}


def opened() -> dilforec.Index:
    """An index with one document, of stamp 1, and a commit, of stamp 2."""
    index = dilforec.Index(*FIELDS)
    index.add({"title": "first", "shelf": "a"})
    index.commit()
    return index


def counts(index: dilforec.Index) -> tuple[int, int]:
    return index.search("rust").count, index.search("first").count


class Ends(unittest.TestCase):
    def test_at_once(self) -> None:
        """Calls of the index are done at once, with their stamps, and are visible at the end."""
        with opened() as index:
            with index.transaction():
                self.assertEqual((index.add(RUST), index.delete("shelf", "a"), index.add_many([RUST] * 2)), (3, 4, [5, 6]))
                self.assertEqual(counts(index), (0, 1))
            self.assertEqual((counts(index), index.commit()), ((3, 0), 8))

    def test_collected(self) -> None:
        """Calls of the transaction are done at the end, in their order, and each has a stamp then."""
        with opened() as index:
            with index.transaction() as transaction:
                add: Callable[..., object] = transaction.add
                self.assertIsNone(add(RUST))
                transaction.delete("title", "rust")
                transaction.add({"title": "rust", "shelf": "b"})
                transaction.delete("shelf", "a")
                self.assertEqual((len(transaction), counts(index)), (4, (0, 1)))
                for told in "stamps", "commit":
                    self.assertRaises(ValueError, getattr, transaction, told)
            self.assertEqual((list(transaction.stamps), transaction.commit, counts(index)), ([3, 4, 5, 6], 7, (1, 0)))
            with index.transaction() as transaction:
                transaction.add(RUST)
                transaction.delete_all()
                transaction.add({"title": "last"})
            self.assertEqual((list(transaction.stamps), len(index)), ([8, 9, 10], 1))

    def test_what_is_collected_comes_last(self) -> None:
        with opened() as index:
            with index.transaction() as transaction:
                transaction.delete("title", "rust")
                self.assertEqual(index.add(RUST), 3)
            self.assertEqual((list(transaction.stamps), counts(index)), ([4], (0, 1)))

    def test_documents_are_taken_as_they_are(self) -> None:
        with opened() as index:
            document = dict(RUST)
            with index.transaction() as transaction:
                transaction.add(document)
                document["title"] = "hand"
            self.assertEqual((counts(index), index.search("hand").count), ((1, 1), 0))

    def test_empty(self) -> None:
        """An empty block commits."""
        with opened() as index:
            with index.transaction() as transaction:
                self.assertEqual((bool(transaction), len(transaction)), (True, 0))
            self.assertEqual((list(transaction.stamps), transaction.commit, index.commit()), ([], 3, 4))

    def test_many(self) -> None:
        """As many calls as a commit takes, and one more, which is refused as the 1,000,001st."""
        with opened() as index:
            with self.assertRaises(dilforec.LaneFull) as raised, index.transaction() as transaction:
                for _ in range(1_000_001):
                    transaction.delete_all()
            self.assertIn("command 1000001: ", str(raised.exception))
            self.assertEqual((len(index), index.commit()), (1, 3))

    def test_large(self) -> None:
        """Documents of a megabyte are taken, and lines that are too long refused at once."""
        with opened() as index:
            with index.transaction() as transaction:
                for _ in range(8):
                    transaction.add({"title": "x" * 1_000_000, "shelf": "b"})
                with self.assertRaises(dilforec.LineTooLong) as raised:
                    transaction.add({"title": "x" * 4_194_304})
                self.assertEqual(str(raised.exception), "command 9 has more than 4,194,304 bytes")
            self.assertEqual((len(transaction), len(index)), (8, 9))
            longest = 4_194_304 - len('{"delete":{"shelf":""}}')
            with self.assertRaises(dilforec.KeywordTooLong), index.transaction() as transaction:
                self.assertRaises(dilforec.LineTooLong, transaction.delete, "shelf", "x" * (longest + 1))
                transaction.delete("shelf", "x" * longest)
            self.assertEqual(len(index), 9)


class Exceptions(unittest.TestCase):
    def test_in_the_block(self) -> None:
        """An exception in the block leaves nothing of it, and the stamps are drawn again."""
        with opened() as index:
            for error in ZeroDivisionError, KeyboardInterrupt, GeneratorExit:
                with self.assertRaises(error), index.transaction() as transaction:
                    transaction.add(RUST)
                    self.assertEqual(index.add(RUST), 3)
                    raise error
                self.assertRaises(ValueError, getattr, transaction, "stamps")
            self.assertEqual((index.commit(), counts(index)), (3, (0, 1)))

    def test_refused(self) -> None:
        """A refused call in the middle is told by its number, and nothing stays of what is around it."""
        with opened() as index:
            refused: list[tuple[type[dilforec.Refused], str, Callable[[dilforec.Transaction], None]]] = [
                (dilforec.WrongKind, "command 3: 'year' is a u64 field, and can't be 'late'", lambda it: it.add(LATE)),
                (dilforec.UnknownField, "command 3: the schema has no field 'titel'", lambda it: it.add({"titel": "a"})),
                (dilforec.UnknownField, "command 3: the schema has no field 'none'", lambda it: it.delete("none", 1)),
                (dilforec.BadJson, "command 3: ", lambda it: it.add({"title": "\ud800"})),
            ]
            for refusal, sentence, call in refused:
                with self.subTest(sentence), self.assertRaises(refusal) as raised, index.transaction() as transaction:
                    self.assertEqual(index.add(RUST), 3)
                    transaction.delete_all()
                    transaction.add(RUST)
                    call(transaction)
                    transaction.add(LATE)
                self.assertIn(sentence, str(raised.exception))
                self.assertEqual(pickle.loads(pickle.dumps(raised.exception)).args, raised.exception.args)
                self.assertEqual(counts(index), (0, 1))
            self.assertEqual((index.commit(), counts(index)), (3, (0, 1)))

    def test_refused_at_once(self) -> None:
        """What is refused at once may be caught in the block, which goes on."""
        with opened() as index:
            with index.transaction() as transaction:
                words: Any = ["rust"]
                calls: list[tuple[type[Exception], Call]] = [
                    (dilforec.WrongKind, lambda: index.add(LATE)), (TypeError, lambda: transaction.add(words)),  # noqa: B023
                    (TypeError, lambda: transaction.add({"title": object()})),  # noqa: B023
                ]
                for error, call in calls:
                    self.assertRaises(error, call)
                transaction.add(RUST)
            self.assertEqual((len(transaction), counts(index), index.commit()), (1, (1, 1), 5))

    def test_what_was_uncommitted_before(self) -> None:
        """It is committed as the block begins, and no rollback takes it."""
        with opened() as index:
            self.assertEqual(index.add(RUST), 3)
            with self.assertRaises(ZeroDivisionError), index.transaction():
                self.assertEqual((counts(index), index.add(RUST)), ((1, 1), 5))
                raise ZeroDivisionError
            self.assertEqual((index.commit(), counts(index)), (5, (1, 1)))
            changes: list[Call] = [
                lambda: index.delete("year", 7), index.delete_all, lambda: index.add_many([RUST]),
                lambda: index.execute_all([{"add": RUST}]), lambda: index.execute('{"add":{"title":"rust"}}'),
            ]
            for number, change in enumerate(changes):
                with self.subTest(number):
                    change()
                    with index.transaction() as transaction:
                        transaction.add(RUST)
                    self.assertEqual(list(transaction.stamps), [8 + 4 * number])

    def test_nothing_was_uncommitted_before(self) -> None:
        """Without something to commit the block draws no stamp as it begins."""
        with opened() as index:
            index.add(RUST)
            index.rollback()
            calls: list[Call] = [
                lambda: self.assertRaises(dilforec.WrongKind, index.add, LATE), lambda: index.execute_all([]),
                lambda: self.assertRaises(dilforec.WrongKind, index.execute_all, [{"add": RUST}, {"add": LATE}]),
                lambda: self.assertRaises(dilforec.SomeRefused, index.add_many, [LATE, {"titel": 1}]),
                lambda: self.assertRaises(dilforec.LineTooLong, index.execute, b" " * 4_194_305),
                lambda: index.execute('{"search":{"query":"rust"}}'), lambda: index.add_many([]),
            ]
            for number, call in enumerate(calls):
                with self.subTest(number):
                    call()
                    with index.transaction() as transaction:
                        transaction.add(RUST)
                    self.assertEqual(list(transaction.stamps), [3 + 2 * number])

    def test_commit_and_rollback_in_the_block(self) -> None:
        with opened() as index:
            with self.assertRaises(ZeroDivisionError), index.transaction() as transaction:
                index.add(RUST)
                index.commit()
                index.add(RUST)
                raise ZeroDivisionError
            self.assertEqual(counts(index), (1, 1))
            with index.transaction() as transaction:
                index.add(RUST)
                index.rollback()
                transaction.add(RUST)
            self.assertEqual(counts(index), (2, 1))

    def test_closed(self) -> None:
        index = opened()
        with self.assertRaises(dilforec.Closed), index.transaction() as transaction:
            transaction.add(RUST)
            index.close()
        with self.assertRaises(dilforec.Closed), index.transaction():
            self.fail("a block of a closed index began")

    def test_without_schema(self) -> None:
        with dilforec.Index() as index:
            with self.assertRaises(dilforec.NoSchema), index.transaction():
                pass
            with self.assertRaises(dilforec.NoSchema) as raised, index.transaction() as transaction:
                transaction.delete_all()
            self.assertIn("command 1: ", str(raised.exception))


class Turns(unittest.TestCase):
    def test_nested(self) -> None:
        """A block within one of the same index is refused, and the outer one goes on, if that is caught."""
        with opened() as index, opened() as other:
            with index.transaction() as transaction:
                transaction.add(RUST)
                with self.assertRaises(dilforec.Busy) as raised, index.transaction():
                    self.fail("a block began within another")
                self.assertIn("a transaction is under way in this thread", str(raised.exception))
                with other.transaction() as second:
                    second.add(RUST)
            self.assertEqual((counts(index), counts(other)), ((1, 1), (1, 1)))
            with self.assertRaises(dilforec.Busy), index.transaction() as transaction, index.transaction():
                self.fail("a block began within another")
            with index.transaction() as transaction:
                transaction.add(RUST)
            self.assertEqual(counts(index), (2, 1))

    def test_over(self) -> None:
        """A transaction takes nothing after its block, however that ended."""
        with opened() as index:
            with index.transaction() as done:
                pass
            with self.assertRaises(ZeroDivisionError), index.transaction() as given_up:
                raise ZeroDivisionError
            for transaction in done, given_up:
                for call in lambda: transaction.add(RUST), transaction.delete_all, lambda: transaction.delete("year", 1):  # noqa: B023
                    self.assertRaises(ValueError, call)
            self.assertEqual(counts(index), (0, 1))

    def test_threads(self) -> None:
        """Blocks of several threads come one after the other, so each has all of its own, or nothing."""
        def change(number: int) -> None:
            for turn in range(20):
                try:
                    with index.transaction() as transaction:
                        for _ in range(5):
                            index.add({"title": "rust", "year": number})
                            transaction.add({"title": "rust", "year": number})
                        if turn % 2:
                            raise ZeroDivisionError
                except ZeroDivisionError:
                    pass
                wrong.extend([] if index.search("*").count % 10 == 1 else [index.search("*").count])

        wrong: list[int] = []
        with opened() as index:
            threads = [threading.Thread(target=change, args=(number,)) for number in range(4)]
            for thread in threads:
                thread.start()
            for thread in threads:
                thread.join()
            self.assertEqual((wrong, counts(index)), ([], (4 * 10 * 10, 1)))

    def test_calls_of_other_threads(self) -> None:
        """What another thread does at once meanwhile is committed or rolled back with the block."""
        def add() -> None:
            thread = threading.Thread(target=index.add, args=(RUST,))
            thread.start()
            thread.join()

        with opened() as index:
            with self.assertRaises(ZeroDivisionError), index.transaction():
                add()
                raise ZeroDivisionError
            self.assertEqual((index.commit(), counts(index)), (3, (0, 1)))
            with index.transaction() as transaction:
                transaction.add(RUST)
                add()
            self.assertEqual((list(transaction.stamps), counts(index)), ([5], (2, 1)))

    def test_a_transaction_in_threads(self) -> None:
        """Several threads may add to one, and none after its end."""
        def add() -> None:
            for _ in range(500):
                transaction.add(RUST)

        with opened() as index:
            with index.transaction() as transaction:
                threads = [threading.Thread(target=add) for _ in range(4)]
                for thread in threads:
                    thread.start()
                for thread in threads:
                    thread.join()
            self.assertEqual((len(transaction), counts(index)), (2000, (2000, 1)))

    def test_given_up(self) -> None:
        """A block that is never left, as of a generator that is dropped, is rolled back, and the next one begins."""
        def block(index: dilforec.Index) -> Iterator[None]:
            with index.transaction():
                index.add(RUST)
                yield

        with opened() as index:
            begun = block(index)
            next(begun)
            del begun
            with index.transaction() as transaction:
                transaction.add(RUST)
            self.assertEqual((list(transaction.stamps), counts(index)), ([3], (1, 1)))

    @unittest.skipUnless(hasattr(os, "fork"), "needs fork")
    def test_forks(self) -> None:
        """A child hasn't the block of another thread of its parent, and has that of the thread that forked."""
        def hold() -> None:
            with index.transaction():
                index.add(RUST)
                held.set()
                ended.wait()

        with opened() as index:
            held, ended = threading.Event(), threading.Event()
            thread = threading.Thread(target=hold)
            thread.start()
            held.wait()
            pid = os.fork()
            if pid == 0:
                signal.alarm(10)
                with index.transaction() as transaction:
                    transaction.add({"title": "child"})
                os._exit(not (list(transaction.stamps) == [3] and counts(index) == (0, 1)))
            self.assertEqual(os.waitpid(pid, 0)[1], 0)
            ended.set()
            thread.join()
            self.assertEqual(counts(index), (1, 1))
            with index.transaction() as transaction:
                index.add(RUST)
                transaction.add(RUST)
                pid = os.fork()
            if pid == 0:
                os._exit(counts(index) != (3, 1))
            self.assertEqual((os.waitpid(pid, 0)[1], counts(index)), (0, (3, 1)))


class Interrupts(unittest.TestCase):
    def test_each_moment(self) -> None:
        """An interrupt at any time leaves all or nothing, and the transaction tells which."""
        is_armed = False

        def interrupt(*_: object) -> None:
            # A signal that another thread of the process took may be told after its timer was put out.
            nonlocal is_armed
            if is_armed:
                is_armed = False
                raise KeyboardInterrupt

        ends = {True: 0, False: 0}
        before = signal.signal(signal.SIGALRM, interrupt)
        try:
            with opened() as index:
                documents, until = 0, time.monotonic() + 3
                while time.monotonic() < until:
                    transaction = None
                    try:
                        is_armed = True
                        signal.setitimer(signal.ITIMER_REAL, 0.00002 + (documents + sum(ends.values())) % 100 * 0.00001)
                        with index.transaction() as transaction:
                            index.add(RUST)
                            for _ in range(50):
                                transaction.add(RUST)
                        is_armed = False
                    except KeyboardInterrupt:
                        pass
                    signal.setitimer(signal.ITIMER_REAL, 0)
                    is_done = index.search("rust").count == documents + 51
                    ends[is_done] += 1
                    documents += 51 * is_done
                    self.assertEqual(index.search("rust").count, documents)
                    if transaction is not None and is_done:
                        self.assertEqual(len(transaction.stamps), 50)
                    elif transaction is not None:
                        self.assertRaises(ValueError, getattr, transaction, "stamps")
                self.assertGreater(min(ends.values()), 3)
                index.commit()
                self.assertEqual(index.search("rust").count, documents)
        finally:
            signal.setitimer(signal.ITIMER_REAL, 0)
            signal.signal(signal.SIGALRM, before)


if __name__ == "__main__":
    unittest.main()
