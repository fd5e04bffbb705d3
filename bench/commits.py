#!/usr/bin/env python3
"""Times commits of one add each, builds, deletes and merges of `fts run`, beside SQLite's FTS5, Lucene and Xapian.

    python3 bench/commits.py [COMMITS] [DOCUMENTS]

Build the program first (README.md), or name it in $FTS. Lucene and Xapian are asked where they are installed (of Debian liblucene8-java with a
JDK, and libxapian-dev). The documents are those of bench/corpus.py, but with one of ten keywords, so that one delete strikes a tenth of them.
COMMITS (2,000) of them are added and committed one at a time, with `--merge off` and with `--merge policy`: microseconds by the clock from
writing both lines until both replies have come. Then DOCUMENTS (100,000) are added and committed as 16 segments, and merged into one, and again
with a tenth of them struck before: seconds for each. A pipe and Python take some 20 of the microseconds, and lines of JSON a good part of a
build. FTS5 keeps segments of its own: its `optimize` is the merge, and `tag` is a word for it. Xapian has none: its compacted copy is what is
measured as a merge.
"""
from __future__ import annotations

import itertools
import json
import shutil
import sqlite3
import statistics
import subprocess
import sys
import tempfile
import time
from typing import Any, Iterable

import corpus
from floor_table import number, table
from indexes import CPP, JARS, PEERS, SHARED
from programs import PROGRAM, Session, run, succeeds

SEGMENTS = 16
# What is shown of the seconds of build, delete and merge, without deletes and with them.
STAGES = {0: "build and commit", 2: "merge", 4: "delete of a tenth, with its commit", 5: "merge, a tenth deleted"}


class Script(Session):
    """A run of the program whose lines are timed one by one, without a thread that writes them."""

    def __init__(self, *options: str) -> None:
        super().__init__(PROGRAM, "run", *options)
        self.seconds(corpus.SCHEMA)

    def seconds(self, *lines: dict[str, Any]) -> float:
        """How long it took from writing the lines until their replies were there."""
        text = "".join(json.dumps(line) + "\n" for line in lines)
        began = time.perf_counter()
        self.input.write(text)
        self.input.flush()
        replies = [self.output.readline() for _ in lines]
        took = time.perf_counter() - began
        faults = [reply for reply in replies if "error" in reply]
        if faults:
            raise RuntimeError(faults[0])
        return took


def documents(count: int) -> list[corpus.Document]:
    return [document._replace(tag=f"t{place % 10}") for place, document in enumerate(corpus.documents(count))]


def commits(given: list[corpus.Document], policy: str) -> list[float]:
    script = Script("--merge", policy)
    times = [script.seconds({"add": document._asdict()}, {"commit": True}) for document in given]
    script.end()
    return times


def merges(given: list[corpus.Document], strikes: bool) -> list[float]:
    """The seconds of a build, of the delete, if there is one, and of a merge."""
    script = Script("--runs", str(-(-len(given) // SEGMENTS)))
    left = iter(given)
    build = 0.0
    while some := [{"add": document._asdict()} for document in itertools.islice(left, 100)]:
        build += script.seconds(*some)
    build += script.seconds({"commit": True})
    strike = script.seconds({"delete": {"tag": "t3"}}, {"commit": True}) if strikes else 0.0
    merge = script.seconds({"merge": True})
    script.end()
    return [build, strike, merge]


def inserts(given: list[corpus.Document]) -> list[float]:
    base = sqlite3.connect(":memory:", isolation_level=None)
    base.execute("create virtual table t using fts5(body, tag)")
    times = []
    for document in given:
        began = time.perf_counter()
        base.execute("insert into t values (?, ?)", document[:2])
        times.append(time.perf_counter() - began)
    return times


def optimized(given: list[corpus.Document], strikes: bool) -> list[float]:
    base = sqlite3.connect(":memory:", isolation_level=None)
    base.execute("create virtual table t using fts5(body, tag)")
    times = [time.perf_counter()]
    base.execute("begin")
    base.executemany("insert into t values (?, ?)", (document[:2] for document in given))
    base.execute("commit")
    times.append(time.perf_counter())
    if strikes:
        base.execute("delete from t where t match 'tag:t3'")
    times.append(time.perf_counter())
    base.execute("insert into t(t) values('optimize')")
    times.append(time.perf_counter())
    return [after - before for before, after in zip(times, times[1:])]


def peer(given: list[corpus.Document], count: int, *command: str) -> tuple[list[float], list[float]]:
    """The seconds that a program tells of commits, and of the stages."""
    text = "".join(f"{document.body}\t{document.tag}\t{document.price}\n" for document in given)
    said = subprocess.run(command, input=text, stdout=subprocess.PIPE, text=True, check=True).stdout
    seconds = [int(line) / 1e9 for line in said.split()]
    return seconds[:count], seconds[count:]


def peers(given: list[corpus.Document], count: int, each: int, folder: str) -> Iterable[tuple[str, tuple[list[float], list[float]]]]:
    if shutil.which("javac") and len(JARS) == 2:
        run("javac", "-cp", ":".join(JARS), "-d", folder, PEERS / "LuceneWriting.java")
        yield "Lucene", peer(given, count, "java", "-Xmx4g", "-cp", ":".join([folder, *JARS]), "LuceneWriting", str(count), str(each))
    if succeeds("xapian-config", "--version"):
        flags = run("xapian-config", "--cxxflags", "--libs").split()
        run(*CPP, PEERS / "xapian_writing.cpp", "-o", f"{folder}/writing", *flags)
        yield "Xapian", peer(given, count, f"{folder}/writing", f"{folder}/base", str(count), str(each))


def told(times: tuple[list[float], list[float]]) -> dict[str, Any]:
    """What is kept of the times: microseconds of commits, the median, the mean, those of the 99th of 100 and the most; and the stages."""
    micros = sorted(second * 1e6 for second in times[0])
    return {"commits": [statistics.median(micros), statistics.mean(micros), micros[len(micros) * 99 // 100], micros[-1]], "stages": times[1]}


def measure(count: int = 2_000, each: int = 100_000) -> dict[str, Any]:
    """By name of a program: microseconds of a commit, and seconds of each stage, or nothing where it has only the one or the other."""
    given = documents(max(count, each))
    some, whole = given[:count], given[:each]
    raw: dict[str, Any] = {"count": count, "documents": each, "programs": {
        "fts": told((commits(some, "off"), [*merges(whole, False), *merges(whole, True)])),
        "fts, `--merge policy`": told((commits(some, "policy"), [])),
        "FTS5": told((inserts(some), [*optimized(whole, False), *optimized(whole, True)])),
    }}
    with tempfile.TemporaryDirectory(dir=SHARED) as folder:
        raw["programs"].update((name, told(times)) for name, times in peers(given, count, each, folder))
    return raw


def shown(raw: dict[str, Any]) -> str:
    programs = raw["programs"]
    names = ("median", "mean", "99 of 100 at most", "the slowest")
    rows = [[f"a commit, microseconds, {name}", *(number(each["commits"][place]) for each in programs.values())]
            for place, name in enumerate(names)]
    stages = [[f"{name}, s", *(number(each["stages"][place]) if each["stages"] else number(None) for each in programs.values())]
              for place, name in STAGES.items()]
    head = (f"{raw['count']:,} commits of one add each; {raw['documents']:,} documents in {SEGMENTS} segments for the rest. By the clock, JSON and "
            f"a pipe included for `fts run`; without another word it ran with `--merge off`.")
    return head + "\n\n" + table(["", *programs], [*rows, *stages])


if __name__ == "__main__":
    print(shown(measure(*map(int, sys.argv[1:]))))
