#!/usr/bin/env python3
"""Times searches, commits and merges of `fts run` by 1, 2 and 4 workers, by the clock.

    python3 bench/workers.py [DOCUMENTS]

Build the program first (README.md), or name it in $FTS. The documents are those of bench/corpus.py, the kinds of search those of
bench/searches.py. There is a run of the program for each number of workers, with all DOCUMENTS (1,000,000) in SEGMENTS segments. The runs take
turns, ROUNDS times for each kind, in an order that is turned around each time: what other work slows down, it slows down for all. A turn takes LEAST
seconds or more, so that it isn't spent on reading anew what the runs before have driven from the caches. Beside the least microseconds of a search
the table has the median of what the rounds say of more workers: how many times as fast as one.
"""
from __future__ import annotations

import itertools
import json
import math
import statistics
import sys
import threading
import time
from typing import Any, Iterable, Sequence

import corpus
import searches
from floor_table import number, table
from programs import PROGRAM, Session

WORKERS = (1, 2, 4)
SEGMENTS = 16
# Rounds of each kind, how many different searches a turn has, and how many seconds it takes: at least so many, for which the searches come again, and
# at most, for which there are fewer.
ROUNDS, EACH, LEAST, MOST = 9, 60, 0.05, 0.4
# Rounds of commits and merges.
MERGES = 3


class Script(Session):
    """A run of the program, timed by the clock."""

    def __init__(self, workers: int, *options: str) -> None:
        super().__init__(PROGRAM, "run", "--workers", str(workers), *options)

    def seconds(self, lines: Iterable[str], replies: int) -> tuple[list[str], float]:
        """The replies, and the seconds until they were there."""
        began = time.perf_counter()
        writing = threading.Thread(target=self._write, args=(lines,))
        writing.start()
        found = [self._reply() for _ in range(replies)]
        seconds = time.perf_counter() - began
        writing.join()
        return found, seconds

    def add(self, documents: list[str]) -> None:
        self.ask(documents, len(documents))


def lines(count: int) -> list[str]:
    """The schema, and the documents' adds."""
    return [json.dumps(corpus.SCHEMA), *map(corpus.add, corpus.documents(count))]


def filled(lines: Sequence[str], seconds: float) -> list[str]:
    """The lines of a turn, if all of them once take so many seconds."""
    wanted = len(lines) * max(math.ceil(LEAST / seconds), 1) if seconds < MOST else max(4, int(len(lines) * MOST / seconds))
    return list(itertools.islice(itertools.cycle(lines), wanted))


def options(count: int) -> tuple[str, str]:
    return "--runs", str(-(-count // SEGMENTS))


def searched(runs: dict[int, Script], count: int) -> dict[str, dict[int, list[float]]]:
    """Microseconds a search, by kind and workers, one for each round. The answers have to be equal."""
    took: dict[str, dict[int, list[float]]] = {}
    for kind, drawn in searches.drawn(count, EACH).items():
        asked = [searches.line(search) for search in drawn]
        replies, once = runs[1].seconds(asked, len(asked))
        asked, answers = filled(asked, once), filled(replies, once)
        times: dict[int, list[float]] = {workers: [] for workers in runs}
        for turn in range(ROUNDS):
            for workers in [*runs][::1 if turn % 2 else -1]:
                found, seconds = runs[workers].seconds(asked, len(asked))
                if found != answers:
                    raise AssertionError(f"{workers} workers answer {kind} differently")
                times[workers].append(seconds / len(asked) * 1e6)
        took[kind] = times
    return took


def ended(runs: dict[int, Script]) -> None:
    for script in runs.values():
        script.end()


def measure(count: int = 1_000_000) -> dict[str, Any]:
    """Microseconds of searches, seconds of commits and merges, each by workers."""
    documents = lines(count)
    commits: dict[int, list[float]] = {workers: [] for workers in WORKERS}
    merges: dict[int, list[float]] = {workers: [] for workers in WORKERS}
    took: dict[str, dict[int, list[float]]] = {}
    for turn in range(MERGES):
        runs = {workers: Script(workers, *options(count)) for workers in WORKERS}
        for workers, script in runs.items():
            script.add(documents)
            commits[workers].append(script.seconds(['{"commit":true}'], 1)[1])
        if not turn:
            took = searched(runs, count)
        for workers, script in runs.items():
            merges[workers].append(script.seconds(['{"merge":true}'], 1)[1])
        ended(runs)
    return {"documents": count, "segments": SEGMENTS, "search": took, "commit": commits, "merge": merges}


def row(name: str, times: dict[str, list[float]], scale: float = 1) -> list[str]:
    one = times["1"]
    more = {workers: statistics.median(a / b for a, b in zip(one, each)) for workers, each in times.items() if workers != "1"}
    return [name, number(min(one) * scale), *(f"{value:.2f}" for value in more.values())]


def shown(raw: dict[str, Any]) -> str:
    """The tables of what was measured, as JSON has it."""
    head = [f"{workers} workers, times as fast" for workers in WORKERS[1:]]
    found = [row(kind, times) for kind, times in raw["search"].items()]
    work = [row(name, raw[name]) for name in ("commit", "merge")]
    return "\n\n".join([
        f"{raw['documents']:,} documents in {raw['segments']} segments, by `fts run --workers`; medians of {ROUNDS} turns, of {MERGES} for commits "
        "and merges.",
        table(["", "one worker, microseconds a search", *head], found),
        table(["", "one worker, seconds", *head], work),
    ])


def main() -> None:
    raw = measure(*map(int, sys.argv[1:2]))
    print(shown(json.loads(json.dumps(raw))))


if __name__ == "__main__":
    main()
