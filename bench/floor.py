#!/usr/bin/env python3
"""Times searches of `fts run` beside hand-written loops, CRoaring, FTS5, Lucene, Xapian and Groonga, with and without deleted documents.

    python3 bench/floor.py [--documents N] [--searches N] [--only NAMES] [--instructions] [--picture FILE]
    python3 bench/floor.py --before PROGRAM [--documents N] [--searches N] [--passes N]

Build the program first (README.md), or name it in $FTS; this builds bench/peers by g++ and javac. What isn't installed is left out with a
sentence, and counted. All programs are in one run: for each kind of search each is asked in turn, in several passes over all kinds, and its
least time counts. Every answer is compared with that of the others. Prints microseconds of processor time for a search, JSON included for
`fts run` and Groonga, with all documents live and again with a tenth of them deleted; then their ratios to the loops and to CRoaring beside
the goals, and which fall short. With --instructions it runs `fts run` and the loops under Valgrind's callgrind instead, and prints thousands of
instructions a search, which other work on the machine doesn't change. With --picture it draws the times as an SVG.

With --before it compares two builds of `fts` alone, by turns: the one above and an earlier one. Its table ends with how many times as long a search
of each kind takes as before: the median of the passes, whose order is turned around each time, since a processor's speed changes from second to second.

bench/report.py writes the same into docs/MEASURED.md. bench/corpus.py describes the documents, bench/searches.py the searches.
"""
from __future__ import annotations

import argparse
import pathlib
import tempfile
from typing import Any, Sequence

import corpus
import floor_instructions
import indexes
import searches
from floor_table import HOW, beside_before, draw, shown
from indexes import Index
from searches import Search

# What else the machine does for a second spoils no time: the least of several passes over all kinds counts. What took longer than LONG
# seconds isn't asked again in a later one.
PASSES, LONG = 4, 0.4


class Comparison:
    """The times of one condition, and how many answers were compared. The first program's are what the others' have to be."""

    def __init__(self, asked: Sequence[Index], drawn: dict[str, list[Search]]) -> None:
        self.asked, self.drawn = asked, drawn
        self.micros: dict[str, dict[str, float]] = {kind: {} for kind in drawn}
        # The same of each pass.
        self.passes: dict[str, list[dict[str, float]]] = {kind: [] for kind in drawn}
        self.answers: dict[str, list[str]] = {}
        self.compared = 0

    def one_pass(self) -> None:
        for kind, given in self.drawn.items():
            times: dict[str, float] = {}
            for index in [*self.asked][::-1 if len(self.passes[kind]) % 2 else 1]:
                before = self.micros[kind].get(index.name)
                is_long = before is not None and before * len(given) > LONG * 1e6
                if is_long or given[0].form in index.lacks:
                    continue
                answers, micros = index.ask(given)
                self.compare(kind, index, answers)
                times[index.name] = micros / len(given)
                self.micros[kind][index.name] = min(times[index.name], before or float("inf"))
            self.passes[kind].append(times)

    def compare(self, kind: str, index: Index, answers: list[str]) -> None:
        """Every answer, but not the count of a top list if the program tells none."""
        wanted = self.answers.setdefault(kind, answers)
        if not index.counts_top and searches.is_top(self.drawn[kind][0]):
            wanted = [answer.partition(" ")[2] for answer in wanted]
        if wanted is answers:
            return
        for search, one, other in zip(self.drawn[kind], wanted, answers):
            if one != other:
                raise RuntimeError(f"{self.asked[0].name} and {index.name} answer {searches.line(search)} differently: {one!r} and {other!r}")
        self.compared += len(answers)


def compared(asked: Sequence[Index], drawn: dict[str, list[Search]], passes: int) -> Comparison:
    comparison = Comparison(asked, drawn)
    for _ in range(passes):
        comparison.one_pass()
    return comparison


def measure(count: int = 100_000, each: int = 200, names: Sequence[str] = indexes.NAMES) -> dict[str, Any]:
    """The raw results, which `floor_table` shows: microseconds a search by condition, kind and program, and what is told beside."""
    documents = list(corpus.documents(count))
    prices, numbers = corpus.doomed(documents)
    drawn = searches.drawn(count, each)
    with tempfile.TemporaryDirectory(dir=indexes.SHARED) as folder:
        asked, left_out = indexes.gathered(documents, folder, names)
        live = compared(asked, drawn, PASSES)
        for index in asked:
            index.delete(prices, numbers)
        deleted = compared(asked, drawn, PASSES)
        for index in asked:
            index.end()
    return {
        "documents": count, "searches": each, "dead": len(numbers), "compared": live.compared + deleted.compared,
        "programs": {index.name: index.version for index in asked}, "left_out": left_out,
        "built": next((index.built for index in asked if isinstance(index, indexes.Fts)), None),
        "live": live.micros, "deleted": deleted.micros,
    }


def beside(before: pathlib.Path, count: int, each: int, passes: int) -> str:
    """The table of two builds of `fts`."""
    documents = list(corpus.documents(count))
    prices, numbers = corpus.doomed(documents)
    drawn = searches.drawn(count, each)
    asked = [indexes.Fts(documents), indexes.Fts(documents, name=indexes.BEFORE, program=before)]
    found = {"live": compared(asked, drawn, passes).passes}
    for index in asked:
        index.delete(prices, numbers)
    found["deleted"] = compared(asked, drawn, passes).passes
    for index in asked:
        index.end()
    return beside_before(found)


def main() -> None:
    arguments = argparse.ArgumentParser(description="Times searches of fts run beside others.")
    arguments.add_argument("--documents", type=int, default=100_000)
    arguments.add_argument("--searches", type=int, default=200)
    arguments.add_argument("--only", default=",".join(indexes.NAMES), help="names of programs, with commas between")
    arguments.add_argument("--instructions", action="store_true")
    arguments.add_argument("--picture", type=pathlib.Path)
    arguments.add_argument("--before", type=pathlib.Path, metavar="PROGRAM", help="an earlier build of fts")
    arguments.add_argument("--passes", type=int, default=PASSES)
    given = arguments.parse_args()
    if given.before:
        print(beside(given.before, given.documents, given.searches, given.passes))
        return
    if given.instructions:
        print(floor_instructions.shown(floor_instructions.measure(given.documents, given.searches)))
        return
    raw = measure(given.documents, given.searches, given.only.split(","))
    print(f"{HOW}\n\n{shown(raw)}")
    if given.picture:
        draw(raw, given.picture)


if __name__ == "__main__":
    main()
