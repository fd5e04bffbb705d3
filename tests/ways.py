#!/usr/bin/env python3
"""Compares the replies to scripts for each cutting, merging and number of workers, and over a plain list.

    python3 tests/ways.py [SCRIPTS]

1,000 random scripts, or SCRIPTS of them (tests/sweeps.py takes 50), a tenth as many of updates by a keyword, and those of examples/, each 36
ways: segments of runs of 1, 3 and 65,536 adds and dealt over 1, 2 and 7, merged never and by the policy, with 1, 3 and 4 workers. Build both programs first: fts
(README.md), and fts_list, which runs a script over a plain list of documents, by `rt run` in crates/fts_list.
"""
from __future__ import annotations

import collections
import concurrent.futures
import itertools
import json
import subprocess
import sys

import random_scripts
from built import PLAIN, PROGRAM, ROOT

CUTS = [["--runs", n] for n in ("1", "3", "65536")] + [["--deal", n] for n in ("1", "2", "7")]
WAYS = [
    [*cut, "--merge", merge, "--workers", workers]
    for cut, merge, workers in itertools.product(CUTS, ("off", "policy"), ("1", "3", "4"))
]


def replies(words: list[str], text: bytes) -> bytes:
    return subprocess.run(words, input=text, stdout=subprocess.PIPE, check=True).stdout


def compare(name: str, text: bytes) -> collections.Counter[str]:
    wanted = replies([PLAIN], text)
    for way in WAYS:
        assert replies([PROGRAM, "run", *way], text) == wanted, f"{name} differs from the list by {' '.join(way)}"
    told: collections.Counter[str] = collections.Counter()
    for line in wanted.splitlines():
        reply = json.loads(line)
        told["refused" if "error" in reply else "found" if reply.get("count") else "nothing found" if "count" in reply else "other"] += 1
    return told


def compared(count: int) -> tuple[int, dict[str, int]]:
    """How many scripts were compared, and how many replies of each kind there were."""
    scripts = [(f"script {seed}", random_scripts.script(seed)) for seed in range(count)]
    scripts += [(f"updates {seed}", random_scripts.updates(seed)) for seed in range(-(-count // 10))]
    scripts += [(path.name, path.read_bytes()) for path in sorted((ROOT / "examples").glob("*.jsonl")) if ".replies" not in path.name]
    with concurrent.futures.ThreadPoolExecutor(4) as pool:
        nothing: collections.Counter[str] = collections.Counter()
        told = sum(pool.map(lambda named: compare(*named), scripts), nothing)
    return len(scripts), dict(told)


def main() -> None:
    count, told = compared(int(sys.argv[1]) if len(sys.argv) > 1 else 1_000)
    print(f"{count} scripts, each {len(WAYS)} ways, answered as over a list: {told}")


if __name__ == "__main__":
    main()
