#!/usr/bin/env python3
"""Times searches of one segment by `fts_collect`, without the words of a script around them, and counts the blocks that they open.

    python3 bench/search.py

One thread. The documents and searches are those of bench/script.py, which has FTS5 beside them; the program is in bench/search.
"""
from __future__ import annotations

from typing import Any

from crates import outputs, searched
from floor_table import number, table

CRATES = "fts_collect fts_query fts_segment fts_pack fts_model serde_json anyhow"
KINDS = ("term", "`+a +b`", "`a b`", "phrase", "range", "groups", "top 10")
RUNS = 3


def measure(count: int = 100_000, each: int = 200) -> dict[str, Any]:
    """By kind the least nanoseconds of several runs, of all its searches, and how many blocks they opened."""
    kinds: dict[str, list[int]] = {}
    for line in outputs("search", CRATES, searched(count, each, KINDS), runs=RUNS):
        kind, _, nanos, openings = line.split("\t")
        kinds[kind] = min(kinds.get(kind, [1 << 62, 0]), [int(nanos), int(openings)])
    return {"documents": count, "searches": each, "kinds": kinds}


def shown(raw: dict[str, Any]) -> str:
    each = raw["searches"]
    rows = [[kind, number(nanos / each / 1e3), number(openings / each)] for kind, (nanos, openings) in raw["kinds"].items()]
    head = f"One segment of {raw['documents']:,} documents, {each} searches of each kind, one thread, without a script."
    return head + "\n\n" + table(["", "microseconds a search", "blocks opened"], rows)


if __name__ == "__main__":
    print(shown(measure()))
