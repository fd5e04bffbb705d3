"""Thousands of instructions of a search by `fts run` and by the loops, as Valgrind's callgrind counts them: what else the machine does has no
part in them."""
from __future__ import annotations

import glob
import os
import tempfile
from typing import Any, Iterator, Sequence

import corpus
import indexes
import searches
from floor_table import HEADINGS, number, table
from indexes import FTS, PACKED, PLAIN, Fts, Index, Loops
from programs import run
from searches import Search

GUARD = ("valgrind", "--tool=callgrind", "--instr-atstart=no")


def guarded(documents: Sequence[corpus.Document], folder: str) -> Iterator[Index]:
    """The programs under callgrind, which begins to count when it is told to."""
    guard = (*GUARD, f"--callgrind-out-file={folder}/calls.%p")
    yield Fts(documents, *guard)
    program = indexes.loops(folder)
    for name in (PLAIN, PACKED):
        yield Loops(name, program, documents, *guard)


def counted(index: Index, asked: Sequence[Search], folder: str) -> int:
    """How many instructions the searches take."""
    pid = str(index.session.program.pid)
    run("callgrind_control", pid, "-i", "on")
    index.once(asked)
    run("callgrind_control", pid, "-d")
    run("callgrind_control", pid, "-i", "off")
    newest = max(glob.glob(f"{folder}/calls.{pid}.*"), key=os.path.getmtime)
    with open(newest) as lines:
        return [int(line.split()[1]) for line in lines if line.startswith(("summary:", "totals:"))][-1]


def measure(count: int = 100_000, each: int = 20) -> dict[str, Any]:
    """Instructions a search by condition, kind and program."""
    documents = list(corpus.documents(count))
    prices, numbers = corpus.doomed(documents)
    raw: dict[str, Any] = {"documents": count, "searches": each}
    with tempfile.TemporaryDirectory() as folder:
        for condition in HEADINGS:
            raw[condition] = {kind: {} for kind in searches.kinds(count)}
        for index in guarded(documents, folder):
            for condition in HEADINGS:
                if condition == "deleted":
                    index.delete(prices, numbers)
                for kind, asked in searches.drawn(count, each).items():
                    if asked[0].form not in index.lacks:
                        raw[condition][kind][index.name] = counted(index, asked, folder) / each
            index.end()
    return raw


def shown(raw: dict[str, Any]) -> str:
    names = (FTS, PLAIN, PACKED)
    parts = [f"Thousands of instructions of a search, {raw['searches']} of each kind, over {raw['documents']:,} documents."]
    for condition, heading in HEADINGS.items():
        rows = [[kind, *(number(row[name] / 1e3 if name in row else None) for name in names),
                 *(number(row[FTS] / row[name] if name in row else None) for name in names[1:])] for kind, row in raw[condition].items()]
        parts += [f"**{heading}**", table(["thousand instructions a search", *names, *(f"fts / {name}" for name in names[1:])], rows)]
    return "\n\n".join(parts)
