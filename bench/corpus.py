"""The documents that the timings of bench/ are taken over: one description, one way to make them.

`DESCRIPTION` is the sentence that docs/MEASURED.md has about them. Documents are made one after the other from a seed, so the first 1,000 of
100,000 are those of a corpus of 1,000.
"""
from __future__ import annotations

import itertools
import json
import random
from typing import Any, Iterable, Iterator, NamedTuple

WORDS_EACH = 30
VOCABULARY = 50_000
TAGS = 1_000
PRICES = 1_000_000
LEAST_TEMP, TEMPS = -50, 100

DESCRIPTION = (
    f"A document has a text of {WORDS_EACH} words, drawn by Zipf's law from a vocabulary of {VOCABULARY:,} random words of 4 to 9 letters: word r "
    f"comes with a chance in proportion to 1/r. It has a keyword, one of {TAGS:,}, a `u64` below {PRICES:,}, almost all of them different, and an "
    f"`i64` from {LEAST_TEMP} to {LEAST_TEMP + TEMPS - 1}. All are drawn independently."
)

SCHEMA: dict[str, list[dict[str, Any]]] = {"schema": [
    {"name": "body", "kind": "text", "default": True}, {"name": "tag", "kind": "keyword"},
    {"name": "price", "kind": "u64"}, {"name": "temp", "kind": "i64"},
]}


class Document(NamedTuple):
    body: str
    tag: str
    price: int
    temp: int


def vocabulary() -> list[str]:
    """The words, the most frequent first."""
    chance = random.Random(0)
    letters = "abcdefghijklmnopqrstuvwxyz"
    words: dict[str, None] = {}
    while len(words) < VOCABULARY:
        words["".join(chance.choices(letters, k=chance.randint(4, 9)))] = None
    return list(words)


WORDS = vocabulary()
WEIGHTS = list(itertools.accumulate(1 / rank for rank in range(1, VOCABULARY + 1)))


def tag(number: int) -> str:
    """The tag of a number; the order of tags is that of their numbers."""
    return f"t{number:03}"


def words(chance: random.Random, count: int) -> list[str]:
    """So many words, drawn as those of the texts are."""
    return chance.choices(WORDS, cum_weights=WEIGHTS, k=count)


def documents(count: int, seed: int = 1, words_each: int = WORDS_EACH) -> Iterator[Document]:
    """The first `count` documents."""
    chance = random.Random(seed)
    for _ in range(count):
        body = " ".join(words(chance, words_each))
        yield Document(body, tag(chance.randrange(TAGS)), chance.randrange(PRICES), chance.randrange(LEAST_TEMP, LEAST_TEMP + TEMPS))


def add(document: Document) -> str:
    """The line of a script that adds a document."""
    return json.dumps({"add": document._asdict()}, separators=(",", ":"))


def doomed(given: Iterable[Document], share: int = 10, seed: int = 2) -> tuple[list[int], list[int]]:
    """A random one in `share` of the documents, for deletes: the prices that they alone have, and the documents' numbers, rising."""
    having: dict[int, list[int]] = {}
    for number, document in enumerate(given):
        having.setdefault(document.price, []).append(number)
    prices = list(having)
    random.Random(seed).shuffle(prices)
    wanted = sum(map(len, having.values())) // share
    ends = itertools.accumulate(len(having[price]) for price in prices)
    chosen = [price for price, end in zip(prices, ends) if end <= wanted]
    return chosen, sorted(number for price in chosen for number in having[price])
