"""What bench/floor.py measured, as tables of docs/MEASURED.md and as a picture; and the goals."""
from __future__ import annotations

import pathlib
import statistics
from typing import Any, NamedTuple

import picture
from indexes import BEFORE, BITMAPS, FTS, PACKED, PLAIN

Rows = dict[str, dict[str, float]]


class Goal(NamedTuple):
    """Microseconds that `fts run` is to take at most where the loops over plain arrays take `plain` and CRoaring takes `bitmaps`. The ratios are
    the goal, since a machine is faster than another, and slower with other work on it."""
    micros: float
    plain: float
    bitmaps: float | None = None


# What a line costs the loops, before any document is looked at.
LINE = 0.85
GOALS: dict[str, dict[str, Goal]] = {
    "live": {
        "term": Goal(5, LINE), "absent term": Goal(1.2, LINE), "rare term": Goal(2.2, LINE), "keyword": Goal(1.5, LINE),
        "`+a +b`": Goal(9, 62, 4.5), "AND of four": Goal(12, 259, 30), "`+a -b`": Goal(15, 186, 5.2),
        "`a b`": Goal(20, 78, 25), "OR of ten": Goal(50, 48, 33),
        "groups": Goal(60, 46, 95), "groups by keyword": Goal(180, 117, 168),
        "top 10": Goal(40, 95), "top 10 over a range": Goal(40, 210), "top 10 over everything": Goal(5, 320),
    },
    "deleted": {
        "term": Goal(12, 7.8), "`+a +b`": Goal(10, 63), "`a b`": Goal(30, 80), "OR of ten": Goal(65, 46),
        "range, a tenth": Goal(18, 26), "keyword range, a tenth": Goal(18, 26), "groups": Goal(85, 80),
        "top 10 over everything": Goal(5, 300),
    },
}
HEADINGS = {"live": "All documents live", "deleted": "A tenth of the documents deleted"}


def number(value: float | None) -> str:
    """About three digits."""
    if value is None:
        return "–"
    return f"{value:,.0f}" if value >= 100 else f"{value:.{1 if value >= 10 else 2 if value >= 0.1 else 3}f}"


def table(head: list[str], rows: list[list[str]]) -> str:
    return "\n".join(f"| {' | '.join(row)} |" for row in [head, ["---"] * len(head), *rows])


def times(rows: Rows, programs: list[str]) -> str:
    return table(["microseconds a search", *programs], [[kind, *(number(row.get(name)) for name in programs)] for kind, row in rows.items()])


class Standing(NamedTuple):
    """A ratio of `fts run` to a column, and what it is to be at most."""
    column: str
    ratio: float
    goal: float | None

    @property
    def is_short(self) -> bool:
        return self.goal is not None and self.ratio > self.goal


def standings(row: dict[str, float], goal: Goal | None) -> list[Standing]:
    """The ratios of `fts run` to the loops over plain arrays and to CRoaring, if these were asked."""
    at_most = {PLAIN: goal.micros / goal.plain, BITMAPS: goal.micros / goal.bitmaps if goal.bitmaps else None} if goal else {}
    return [Standing(name, row[FTS] / row[name], at_most.get(name)) for name in (PLAIN, BITMAPS) if FTS in row and name in row]


def cells(row: dict[str, float], goal: Goal | None) -> list[str]:
    """A row's ratios to the three columns to divide by, with the goal beside the first two; one over its goal is bold."""
    by_name = {each.column: each for each in standings(row, goal)}
    found = []
    for name in (PLAIN, BITMAPS):
        each = by_name.get(name)
        ratio = number(each.ratio if each else None)
        found += [f"**{ratio}**" if each and each.is_short else ratio, number(each.goal if each else None)]
    return [*found, number(row[FTS] / row[PACKED] if PACKED in row else None)]


def verdict(rows: Rows, goals: dict[str, Goal]) -> str:
    """How many goals hold."""
    short = sum(any(each.is_short for each in standings(rows[kind], goal)) for kind, goal in goals.items())
    return f"{len(goals) - short} of {len(goals)} rows with a goal hold."


def ratios(rows: Rows, goals: dict[str, Goal]) -> str:
    """A table of the ratios beside the goals', and how many hold."""
    head = ["", f"fts / {PLAIN}", "goal", f"fts / {BITMAPS}", "goal", f"fts / {PACKED}"]
    return table(head, [[kind, *cells(row, goals.get(kind))] for kind, row in rows.items()]) + "\n\n" + verdict(rows, goals)


HOW = (
    "A time is the microseconds of processor time of a search: the least of several rounds, in which each program has its turn. The index is one "
    "segment. `fts run`, the loops, CRoaring, Xapian and Groonga take lines of JSON by a pipe, and the time is that of the whole process; `fts run` "
    "and Groonga answer in JSON. FTS5 is called through Python, and its top lists come without the number of hits. Lucene's time is that of the thread "
    "that searches, once its code is compiled. A goal is a ratio that was set beforehand; a ratio over its goal is bold.")

PROGRAMS = """|program|what it is|
|---|---|
|fts|`fts run`, or the library where a table says so|
|plain arrays|loops in C++ over each word's list of documents, as 32-bit numbers: the best that could be had without packing|
|packed lists|loops over lists that are packed in blocks, as ours are|
|CRoaring|compressed bitmaps, one for each word; they have no positions, so no phrases|
|FTS5|the full-text index of SQLite|
|Lucene|in Java, with a heap of its own; each search is carried out|
|Lucene as shipped|with its query cache, which holds what was asked before, and its shortcut for counts|
|Xapian, Groonga|full-text engines in C and C++|"""

DIFFERENT = (
    "Some kinds of search have several numbers in the appendix. [Searches](../bench/MEASURED-ALL.md#searches-of-100000-documents) ask for each of "
    "the 200 most frequent words as often. [Inside another program](../bench/MEASURED-ALL.md#inside-another-program) words come as often as "
    "documents have them, so mostly the most frequent, from two segments. [Without a script](../bench/MEASURED-ALL.md#searches-without-a-script) "
    "and [in scripts](../bench/MEASURED-ALL.md#scripts-by-the-clock) the time is by the clock; the one opens every block, the other waits for the "
    "pipe.")


def opening(raw: dict[str, Any]) -> str:
    """What was asked of which programs, and that they agree."""
    names = [f"{name} {version}" for name, version in raw["programs"].items() if version]
    missing = f" Left out: {', '.join(raw['left_out'])}." if raw["left_out"] else ""
    return (
        f"{raw['documents']:,} documents, {raw['searches']} searches of each kind; {raw['dead']:,} documents are deleted for the second half. "
        f"Versions: {', '.join(names)}.{missing} {raw['compared']:,} answers were compared, and all agree.")


def shown(raw: dict[str, Any]) -> str:
    """The tables, with what has to be known before them."""
    parts = [opening(raw)]
    for condition, heading in HEADINGS.items():
        parts += [f"**{heading}**", times(raw[condition], list(raw["programs"]))]
        if FTS in raw["programs"]:
            parts.append(ratios(raw[condition], GOALS[condition]))
    # Of 100,000 documents the part `builds` has this.
    if raw["built"] and raw["documents"] > 100_000:
        parts.append(
            "To build and commit the documents took `fts run` {seconds:.2f} s of processor time and left {committed:.0f} MB resident, and "
            "{merged:.0f} MB after a merge into one segment.".format(**raw["built"]))
    return "\n\n".join(parts)


def beside_before(passes: dict[str, dict[str, list[dict[str, float]]]]) -> str:
    """A table of the least times of two builds and of the medians of their ratios, with the geometric mean of these for each condition. It is made
    of the times of each pass, by condition and kind."""
    rows = []
    for condition, heading in HEADINGS.items():
        both = {kind: [times for times in each if {FTS, BEFORE} <= times.keys()] for kind, each in passes[condition].items()}
        ratios = {kind: statistics.median(times[FTS] / times[BEFORE] for times in each) for kind, each in both.items()}
        for kind, each in both.items():
            least = {name: min(times[name] for times in each) for name in (BEFORE, FTS)}
            rows.append([heading, kind, number(least[BEFORE]), number(least[FTS]), f"{ratios[kind]:.3f}"])
        rows.append([heading, "all kinds", "–", "–", f"{statistics.geometric_mean(ratios.values()):.3f}"])
    return table(["", "microseconds a search", "before", "now", "times"], rows)


def draw(raw: dict[str, Any], file: pathlib.Path) -> None:
    """Draws the times with all documents live."""
    names = list(raw["programs"])
    kinds = {kind.replace("`", ""): row for kind, row in raw["live"].items()}
    picture.bars(file, kinds, names, f"microseconds per search of {raw['documents']:,} documents; fts is fts run, JSON included")
