"""Joined answers beside what a plain look at all documents gives. It needs nothing of the library."""
from __future__ import annotations

import doctest
import json
import random
import subprocess
import sys
import unittest
from typing import Union

from dilforec import joins

# Its stamp, its group and its value.
Document = tuple[int, Union[int, str], int]

KEYWORDS = ["", "a", "A", "é", "～", "😀", "\uffff", "\U00010000", "a\x00", 'a"b']


def documents(chance: random.Random, count: int) -> list[Document]:
    """(stamp, group, value) of some documents; values are few, so that many are equal."""
    numbers = chance.random() < 0.5
    groups: list[int | str] = [0, 1, 9, 10, 2**64 - 1] if numbers else [*KEYWORDS]
    return [
        (stamp, chance.choice(groups), chance.randrange(-2, 3) * 2**61)
        for stamp in range(1, count + 1)
    ]


def parts_of(chance: random.Random) -> list[list[Document]]:
    """The documents of some parts: dealt out at random or in the order of their values, with few values or many."""
    values, step = chance.choice([3, 50, 10**6]), chance.choice([0, 1, 100])
    return [
        [(stamp, 0, part * step + chance.randrange(values)) for stamp in range(1, chance.randrange(2, 200))]
        for part in range(chance.randint(1, 12))
    ]


def reply(found: list[Document], k: int, order: str) -> joins.Reply:
    """The reply of an index that has these documents."""
    sign = -1 if order == "falling" else 1
    def order_of(group: int | str) -> int | bytes:
        return group if isinstance(group, int) else group.encode()

    groups = sorted({group for _, group, _ in found}, key=order_of)
    first = sorted(found, key=lambda document: (sign * document[2], document[0]))[:k]
    return {
        "count": len(found),
        "groups": [[group, sum(other == group for _, other, _ in found)] for group in groups],
        "top": [{"doc": {}, "stamp": stamp, "value": value} for stamp, _, value in first],
    }


class Joins(unittest.TestCase):
    def test_cuttings(self) -> None:
        """For each cutting the count and the groups are those of one index to the byte, and so are the values."""
        for seed in range(500):
            chance = random.Random(seed)
            k, order = chance.randint(1, 12), chance.choice(["rising", "falling"])
            every = documents(chance, chance.randrange(30))
            parts: list[list[Document]] = [[] for _ in range(chance.randint(1, 5))]
            for document in every:
                chance.choice(parts).append(document)
            search = {"query": "*", "groups": "g", "top": {"by": "v", "k": k, "order": order}}
            replies = [reply(part, k, order) for part in parts]
            one = reply(every, k, order)
            joined = joins.answer(search, replies, [{"part": number} for number in range(len(parts))])
            for name in "count", "groups":
                self.assertEqual(joins.encoded({name: joined[name]}), joins.encoded({name: one[name]}))
            self.assertEqual([hit["value"] for hit in joined["top"]], [hit["value"] for hit in one["top"]])
            sign = -1 if order == "falling" else 1
            order_of = [(sign * hit["value"], hit["part"], hit["stamp"]) for hit in joined["top"]]
            self.assertEqual(order_of, sorted(order_of))
            self.assertEqual(replies, [reply(part, k, order) for part in parts], "what is joined stays as it is")

    def test_less_first(self) -> None:
        """Parts that give a share of their hits first, and some of them k hits then, make the top list of all hits."""
        again, alone = 0, 0
        for seed in range(1_000):
            chance = random.Random(seed)
            k, order = chance.randint(1, 300), chance.choice(["rising", "falling"])
            lists = [reply(found, k, order)["top"] for found in parts_of(chance)]
            asked = joins.share(k, len(lists))
            first = joins.top([part[:asked] for part in lists], k, order)
            parts = joins.parts_to_ask_again((part for part, _ in first), asked)
            second = [hits[:k if part in parts else asked] for part, hits in enumerate(lists)]
            self.assertEqual(joins.top(second, k, order), joins.top(lists, k, order))
            again, alone = again + bool(parts), alone + (not parts and asked < k)
        self.assertGreater(min(again, alone), 100, "both ways are tried")

    def test_share(self) -> None:
        """A part is asked for k hits at most, and for all of them if it is alone."""
        self.assertEqual([joins.share(k, 1) for k in (1, 7, 10_000)], [1, 7, 10_000])
        self.assertEqual([joins.share(10_000, parts) for parts in (4, 400)], [2_710, 55])
        self.assertEqual(joins.share(10, 400), 10)

    def test_only_what_was_asked(self) -> None:
        replies = [{"count": 1}, {"count": 2}]
        self.assertEqual(joins.answer({"query": "*"}, replies), {"count": 3})

    def test_bytes(self) -> None:
        """Texts are escaped as the index does, which is as RFC 8259 has it at least."""
        text = "".join(map(chr, range(0x20))) + '"\\/\x7f\u2028é😀'
        encoded = joins.encoded({"b": text, "a": [1, -1]})
        self.assertEqual(json.loads(encoded), {"a": [1, -1], "b": text})
        self.assertTrue(encoded.startswith(b'{"a":[1,-1],"b":"\\u0000\\u0001'), encoded)
        self.assertTrue(encoded.endswith('\\"\\\\/\x7f\u2028é😀"}\n'.encode()), encoded)

    def test_examples(self) -> None:
        self.assertEqual(doctest.testmod(joins).failed, 0)

    def test_without_the_library(self) -> None:
        """The module, and the package, are there without the shared object."""
        code = "import sys, dilforec.joins; sys.exit('ctypes' in sys.modules or 'dilforec.library' in sys.modules)"
        self.assertEqual(subprocess.run([sys.executable, "-c", code]).returncode, 0)


if __name__ == "__main__":
    unittest.main()
