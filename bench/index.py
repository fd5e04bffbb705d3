#!/usr/bin/env python3
"""Times an index of several segments: searches by workers, commits of one add, and readers in threads.

    python3 bench/index.py

The documents and searches are those of bench/script.py: eight segments of all 100,000 documents each for the searches, ten for the rest. The
program is in bench/index.
"""
from __future__ import annotations

import collections
from typing import Any

from crates import outputs, searched
from floor_table import number, table
from search import KINDS

CRATES = "fts_index fts_rounds fts_snapshots fts_pool fts_query fts_model serde_json anyhow"
WORKERS = (1, 2, 4)


def measure(count: int = 100_000, each: int = 200) -> dict[str, list[list[str]]]:
    """What the program told, by the first word of each line."""
    told: dict[str, list[list[str]]] = collections.defaultdict(list)
    for line in outputs("index", CRATES, searched(count, each, KINDS)):
        what, *rest = line.split("\t")
        told[what].append(rest)
    return dict(told)


def shown(raw: dict[str, Any]) -> str:
    nanos = {(kind, int(workers)): int(time) / int(count) for kind, workers, count, time, _ in raw["search"]}
    rows = [[kind, number(nanos[kind, 1] / 1e3), *(number(nanos[kind, 1] / nanos[kind, workers]) for workers in WORKERS[1:])]
            for kind in KINDS if (kind, 1) in nanos]
    commits = [[segments, number(int(time) / 1e3)] for segments, time in raw["commit"]]
    searchers = [[places, threads, number(int(time) / int(count))] for places, threads, count, time, *_ in raw["searcher"]]
    beside = [[commits, number(3 * int(count) * int(rounds) / int(time) * 1e9)] for commits, count, rounds, time in raw["beside"]]
    return "\n\n".join([
        "Eight segments of 100,000 documents, and ten for what follows the first table.",
        table(["", "one worker, microseconds", *(f"{workers} workers, times as fast" for workers in WORKERS[1:])], rows),
        table(["segments", "a commit of one add, microseconds"], commits),
        table(["readers", "threads", "a searcher, nanoseconds"], searchers),
        table(["commits beside three readers", "their searches a second"], beside),
    ])


if __name__ == "__main__":
    print(shown(measure()))
