#!/usr/bin/env python3
"""Measures what it takes to index documents, and what then is resident, of `fts run` and of the indexes of bench/indexes.py.

    python3 bench/builds.py [DOCUMENTS]

Build the program first (README.md), or name it in $FTS. Each index is made in a process of its own: processor seconds of the whole process until
the documents can be searched, lines of JSON and a pipe included where it takes these, and megabytes (10^6 bytes) resident then. FTS5 is in the
process of Python that asks it, so its megabytes are those that came while it was built.
"""
from __future__ import annotations

import json
import sys
import tempfile
import time
from typing import Any

import corpus
import indexes
from floor_table import number, table
from programs import ROOT, resident_of, run


def alone(name: str, count: int, folder: str) -> dict[str, Any]:
    """The version, seconds and megabytes of one index, and the megabytes of `fts run` after a merge."""
    documents = list(corpus.documents(count))
    before, began = resident_of("self"), time.process_time()
    (index,), _ = indexes.gathered(documents, folder, [name])
    took, more = time.process_time() - began, resident_of("self") - before
    told: dict[str, Any] = {"version": index.version}
    if isinstance(index, indexes.Fts):
        told |= {"seconds": index.built["seconds"], "resident": index.built["committed"], "merged": index.built["merged"]}
    elif isinstance(index, indexes.Fts5):
        told |= {"seconds": took, "resident": more}
    else:
        told |= {"seconds": time.clock_gettime(index.session.clock), "resident": index.session.resident()}
    index.end()
    return told


def measure(count: int = 100_000) -> dict[str, Any]:
    """What `alone` tells of each index that is there, and which aren't."""
    there = [each.name for each in indexes.WANTED if each.is_there()]
    with tempfile.TemporaryDirectory(dir=indexes.SHARED) as folder:
        found = {name: json.loads(run(sys.executable, ROOT / "bench/builds.py", "alone", name, str(count), folder)) for name in there}
    return {"documents": count, "programs": found, "left_out": [each.name for each in indexes.WANTED if each.name not in there]}


def shown(raw: dict[str, Any]) -> str:
    rows = []
    for name, told in raw["programs"].items():
        rows.append([f"{name} {told['version']}".strip(), number(told["seconds"]), number(told["resident"])])
        if "merged" in told:
            rows.append([f"{name}, after a merge into one segment", number(None), number(told["merged"])])
    missing = f" Not installed: {', '.join(raw['left_out'])}." if raw["left_out"] else ""
    return (f"{raw['documents']:,} documents, each index in a process of its own, lines of JSON and the pipe included.{missing}\n\n" +
            table(["", "processor seconds", "megabytes resident"], rows))


if __name__ == "__main__":
    if sys.argv[1:2] == ["alone"]:
        print(json.dumps(alone(sys.argv[2], int(sys.argv[3]), sys.argv[4])))
    else:
        print(shown(measure(*map(int, sys.argv[1:]))))
