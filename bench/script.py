#!/usr/bin/env python3
"""Times scripts of `fts run` by the clock, beside SQLite's FTS5 in memory over the same documents and words.

    python3 bench/script.py [DOCUMENTS] [SEARCHES]

Build the program first (README.md), or name it in $FTS. Prints milliseconds a search for each kind of query, by the clock from writing the lines
until the last reply has come, and seconds for building, all of it with JSON; FTS5 is called through Python. The words of searches are drawn as
those of the documents are (bench/corpus.py), so frequent ones come often. Every answer is compared.
"""
from __future__ import annotations

import random
import sys
import time
from typing import Any, Callable, Iterable, TypeVar

import corpus
import fts5
import searches
from floor_table import number, table
from indexes import documents_as_lines
from programs import PROGRAM, Session
from searches import Search

T = TypeVar("T")
ROUNDS = 3
KINDS: dict[str, Callable[[str, str, int], Search]] = {
    "term": lambda a, b, low: Search("any", "count", (a,)),
    "`+a +b`": lambda a, b, low: Search("all", "count", (a, b)),
    "`a b`": lambda a, b, low: Search("any", "count", (a, b)),
    "phrase": lambda a, b, low: Search("phrase", "count", (a, b)),
    "range": lambda a, b, low: Search("range", "count", (str(low * 1_000), str(low * 1_000 + 100_000))),
    "keyword range": lambda a, b, low: Search("tags", "count", (corpus.tag(low), corpus.tag(low + 99))),
    "groups": lambda a, b, low: Search("any", "groups temp", (a,)),
    "groups by keyword": lambda a, b, low: Search("any", "groups tag", (a,)),
    "top 10": lambda a, b, low: Search("any", "price falling", (a,)),
}


def timed(what: Callable[[], T]) -> tuple[T, float]:
    """What it gives, and the seconds that it took by the clock."""
    began = time.perf_counter()
    found = what()
    return found, time.perf_counter() - began


def least(what: Callable[[], T]) -> tuple[T, float]:
    return min((timed(what) for _ in range(ROUNDS)), key=lambda each: each[1])


def drawn(each: int) -> Iterable[tuple[str, list[Search]]]:
    chance = random.Random(4)
    pairs = [corpus.words(chance, 2) for _ in range(each)]
    lows = [chance.randrange(corpus.TAGS - 100) for _ in range(each)]
    return [(kind, [make(a, b, low) for (a, b), low in zip(pairs, lows)]) for kind, make in KINDS.items()]


def built(documents: list[corpus.Document]) -> tuple[Session, float]:
    """A session with the documents committed, and the least seconds of several builds."""
    def build() -> Session:
        session = Session(PROGRAM, "run")
        session.ask(lines, len(lines))
        return session

    lines = documents_as_lines(documents)
    sessions = [timed(build) for _ in range(ROUNDS)]
    for session, _ in sessions[1:]:
        session.end()
    return sessions[0][0], min(seconds for _, seconds in sessions)


def measure(count: int = 100_000, each: int = 2_000) -> dict[str, Any]:
    """Seconds of a build, and milliseconds a search by kind, of both."""
    documents = list(corpus.documents(count))
    session, seconds = built(documents)
    base, other_seconds = timed(lambda: fts5.Table(documents))
    raw: dict[str, Any] = {"documents": count, "searches": each, "built": [seconds, other_seconds], "kinds": {}}
    for kind, asked in drawn(each):
        lines = [searches.line(search) for search in asked]
        (replies, _), ours = least(lambda: session.ask(lines, len(lines)))
        (answers, _), theirs = timed(lambda: base.ask(asked))
        whole = [searches.told(reply) for reply in replies]
        wanted = [answer.partition(" ")[2] for answer in whole] if searches.is_top(asked[0]) else whole
        if wanted != answers:
            raise RuntimeError(f"{kind}: the answers differ")
        raw["kinds"][kind] = [ours / each * 1e3, theirs / each * 1e3]
    session.end()
    return raw


def shown(raw: dict[str, Any]) -> str:
    rows = [["build and commit, s", *raw["built"]], *([f"{kind}, ms a search", *pair] for kind, pair in raw["kinds"].items())]
    head = f"{raw['documents']:,} documents, {raw['searches']:,} searches of each kind, one thread, by the clock; every answer was compared."
    cells = [[name, f"{ours:.3f}", f"{theirs:.3f}", number(theirs / ours)] for name, ours, theirs in rows]
    return head + "\n\n" + table(["", "fts", "FTS5", "FTS5 / fts"], cells)


if __name__ == "__main__":
    print(shown(measure(*map(int, sys.argv[1:]))))
