"""kill -9 under writers, again and again, with torn tails: what was acknowledged is there, and no half transaction.

    python3 test_service_kills.py [ROUNDS]
"""
from __future__ import annotations

import random
import signal
import sys
import threading
import unittest

import dilforec
from dilforec.service import Store
from service_tools import FIELDS, Stored, child

ROUNDS = 50

TAILS = [b"\0" * 99, b'{"add":{"id":1,"ti', b'{"add":{"id":1}}\n', b'{"commit":true}']

WRITERS = """if True:
    import sys, threading, service_tools
    from dilforec.service import Store
    store = Store(service_tools.FIELDS, sys.argv[1])
    lock = threading.Lock()
    print("begun", flush=True)

    def write(writer):
        last = None
        while True:
            removes = last and last[0] % 3 == 0
            if removes:
                with lock:
                    print("?", *last, flush=True)
            with store.transaction() as transaction:
                transaction.add({"title": "pair one", "shelf": sys.argv[2], "year": writer})
                transaction.add({"title": "pair two", "shelf": sys.argv[2], "year": writer})
                if removes:
                    transaction.delete("id", last[0])
                    transaction.delete("id", last[1])
            with lock:
                print("+", *transaction.ids, transaction.commit, flush=True)
                if removes:
                    print("-", *last, flush=True)
            last = transaction.ids

    for writer in range(3):
        threading.Thread(target=write, args=(writer,)).start()
    while sys.argv[3] == "compact":
        store.compact()
"""


class Kills(Stored):
    def setUp(self) -> None:
        super().setUp()
        self.given: set[int] = set()
        self.deleted: set[int] = set()
        self.asked: set[int] = set()
        self.commit = self.torn = 0

    def test_rounds(self) -> None:
        for round in range(ROUNDS):
            chance = random.Random(round)
            self.run_writers(round, chance)
            if chance.random() < 0.5:
                with self.journal.open("ab") as journal:
                    journal.write(chance.choice(TAILS))
            with Store(FIELDS, self.journal) as store:
                self.look(store)
        told = f"{ROUNDS} rounds: {len(self.given)} documents, {len(self.deleted)} deleted, {self.torn} torn tails"
        print(told, file=sys.stderr)

    def run_writers(self, round: int, chance: random.Random) -> None:
        """Writers until they are killed, and what they told."""
        process = child(WRITERS, self.journal, round, "compact" if round % 5 == 4 else "")
        assert process.stdout
        self.assertEqual(process.stdout.readline(), b"begun\n")
        killer = threading.Timer(chance.uniform(0.01, 0.25), process.send_signal, [signal.SIGKILL])
        killer.start()
        told = process.stdout.read().decode().splitlines(keepends=True)
        process.stdout.close()
        process.wait()
        killer.join()
        for kind, first, second, *at in (line.split() for line in told if line.endswith("\n")):
            pair = {int(first), int(second)}
            if kind == "+":
                self.assertFalse(pair & self.given, "a number was given twice")
                self.given |= pair
                self.commit = max(self.commit, int(at[0]))
            else:
                (self.deleted if kind == "-" else self.asked).update(pair)

    def look(self, store: Store) -> None:
        """What was acknowledged is there, but what was deleted, or was to be in a transaction that wasn't told of."""
        there = set(self.all(store))
        gone = self.given - self.deleted - there
        self.assertEqual((gone - self.asked, there & self.deleted), (set(), set()))
        one, two = (store.search(f'"pair {word}"', groups=["shelf", "year"]).groups for word in ("one", "two"))
        self.assertEqual(one, two)
        self.assertGreaterEqual(store.commits, self.commit)
        self.given |= there
        self.deleted |= gone
        self.asked = set()
        self.commit = store.commits
        self.torn += store.torn > 0


if __name__ == "__main__":
    if len(sys.argv) > 1:
        ROUNDS = int(sys.argv.pop())
    unittest.main()
