#!/usr/bin/env python3
"""Writes docs/MEASURED.md, its appendix bench/MEASURED-ALL.md and the table of README.md whole from what was measured.

    python3 bench/report.py [--only PART[,PART..]] [--note TEXT] [--wait MINUTES] [--written]

Without arguments it measures every part anew; with --only, those parts, and the others keep what they were measured with, and their own commit.
With --written nothing is measured: the pages are written again from what bench/measured holds. A part's raw results are kept there, in PART.json,
with the commit, the date, the machine, the kit and the load when its measuring began, and with what --note says of how it was measured. Before
each part it waits until the load is below 1, for 10 minutes at most or as --wait says; a part that began under more says so.

A part is a line of `PARTS`. It names a module of bench/ that has `measure()`, which gives raw results that JSON can hold, and `shown(raw)`, which
gives them as Markdown; or, by `printed`, a program whose output is shown as it is.
"""
from __future__ import annotations

import argparse
import collections
import datetime
import hashlib
import importlib
import json
import os
import pathlib
import platform
import re
import subprocess
import sys
import textwrap
import time
from typing import Any, Callable, NamedTuple

import corpus
import floor_table
import searches
import summary
from programs import PROGRAM, ROOT, run

PAGE = ROOT / "docs/MEASURED.md"
APPENDIX = ROOT / "bench/MEASURED-ALL.md"
README = ROOT / "README.md"
# The line of README.md after which the table is.
MARK = "<!-- bench/report.py writes this table. -->"
KEPT = ROOT / "bench/measured"
# What this program writes. A change there is none of what is measured.
WRITTEN = ("docs", "bench/measured", "bench/MEASURED-ALL.md", "bench/*.svg")
WIDTH = 140
# A machine on which less runs or waits to run is quiet.
QUIET = 1.0
# Of the scripts that were made to be slow, those are shown that take more than so many times as long as a plain one.
SLOW = 4
# Rows with these words are left out, since another part measures them.
ADDS = " commits of one add"


class Part(NamedTuple):
    """What `measure` gives is kept; `shown` makes Markdown of it, and `draw` the picture of that name beside the appendix, if it has one."""
    name: str
    title: str
    measure: Callable[[float], Any]
    shown: Callable[[Any], str]
    picture: str = ""
    draw: Callable[[Any, pathlib.Path], object] | None = None
    asks_program: bool = True


def module(name: str, title: str, of: str, picture: str = "", asks_program: bool = True, waits: bool = False, **settings: Any) -> Part:
    """A part whose module has `measure(**settings)`, `shown(raw)` and, for a picture, `draw(raw, path)`. It is imported when it is needed.

    With `waits`, `measure` is also given the minutes to wait for a quiet machine, at most.
    """
    def measure(minutes: float) -> Any:
        return importlib.import_module(of).measure(**settings, **({"minutes": minutes} if waits else {}))

    return Part(name, title, measure, lambda raw: str(importlib.import_module(of).shown(raw)),
                picture, (lambda raw, path: importlib.import_module(of).draw(raw, path)) if picture else None, asks_program)


def printed(name: str, title: str, *command: str, asks_program: bool = True, shown: Callable[[str], str] = str.strip) -> Part:
    """A part whose raw result is what a program prints, in Markdown."""
    def measure(minutes: float) -> Any:
        return run(sys.executable, ROOT / command[0], *command[1:])

    return Part(name, title, measure, lambda raw: shown(str(raw)), asks_program=asks_program)


def slow(told: str) -> str:
    """The rows with more than SLOW of a table whose last column says how many times as long something takes, without those of ADDS."""
    lines = [line for line in told.strip().splitlines() if ADDS not in line]
    rows = [line for line in lines if re.search(r"\|[\d.]+( \([^|]*\))?\|$", line)]
    fast = [row for row in rows if float(row.split("|")[-2].split()[0]) <= SLOW]
    left = [line for line in lines if line not in fast]
    rest = f"{len(fast)} more scripts take at most {SLOW} times as long as what is beside them."
    return "\n".join(left) + f"\n\n{rest} Commits of one add are measured with [updates by a key](#updates-by-a-key)."


LOOPS = ("fts", "plain arrays", "packed lists", "CRoaring")
PARTS = (
    module("floor", "Searches of 100,000 documents", "floor", picture="searches.svg"),
    module("million", "Searches of 1,000,000 documents", "floor", count=1_000_000, each=100, names=LOOPS),
    module("instructions", "Instructions of a search", "floor_instructions"),
    module("builds", "Builds and memory", "builds"),
    module("scripts", "Scripts, by the clock", "script"),
    module("commits", "Commits of one add, and merges", "commits"),
    module("updates", "Updates by a key", "updates", picture="updates.svg"),
    module("segments", "The building of a segment, and its bytes", "segment", asks_program=False),
    module("collecting", "Searches without a script", "search", asks_program=False),
    module("workers", "Searches, commits and merges by workers", "workers"),
    module("index", "An index of several segments", "index", asks_program=False),
    module("packing", "Packed numbers", "pack", asks_program=False),
    printed("embedding", "Inside another program", "bench/embed.py"),
    printed("package", "Calls of the Python package", "bench/embed.py", "package", asks_program=False),
    module("scale", "Partitions", "scale", asks_program=False, waits=True),
    printed("service", "The service", "bench/services.py", asks_program=False),
    printed("hostile", "Scripts that were made to be slow", "tests/hostile.py", shown=slow),
)


def commit() -> str:
    """The commit that is checked out, and whether anything but the measurements was changed since."""
    name = run("git", "-C", ROOT, "log", "-1", "--format=%h").strip()
    changed = run("git", "-C", ROOT, "status", "--porcelain", "--untracked-files=no", "--", ".", *(f":!{path}" for path in WRITTEN)).strip()
    return name + " with changes" if changed else name


def machine() -> str:
    """Processors, their model, and memory."""
    cpu = next((line.split(":")[1].strip() for line in open("/proc/cpuinfo") if line.startswith("model name")), platform.machine())
    kilobytes = next(int(line.split()[1]) for line in open("/proc/meminfo") if line.startswith("MemTotal"))
    return f"{os.cpu_count()} processors ({cpu}), {kilobytes * 1024 / 1e9:.0f} GB"


def kit() -> str:
    try:
        return subprocess.run(["rt", "version"], capture_output=True, text=True, check=True).stdout.strip().splitlines()[0]
    except (OSError, subprocess.CalledProcessError, IndexError):
        return "none"


def program() -> str:
    """The beginning of the program's SHA-256, which tells whether two parts measured the same one."""
    begins = hashlib.sha256(PROGRAM.read_bytes()).hexdigest()[:12]
    return begins + (" (named in $FTS)" if "FTS" in os.environ else "")


def wait_for_quiet(minutes: float) -> None:
    """Waits until the load is below QUIET, for so long at most."""
    end = time.monotonic() + 60 * minutes
    while os.getloadavg()[0] >= QUIET and time.monotonic() < end:
        time.sleep(5)


def measured(part: Part, note: str, minutes: float) -> dict[str, Any]:
    """What is kept of a part: the conditions, as they were before it was measured, and its raw results."""
    wait_for_quiet(minutes)
    now = datetime.datetime.now(datetime.timezone.utc)
    conditions: dict[str, Any] = {
        "commit": commit(), "date": f"{now:%Y-%m-%d %H:%M} UTC", "machine": machine(), "kit": kit(),
        "program": program() if part.asks_program else None, "load": [round(load, 2) for load in os.getloadavg()], "note": note,
    }
    began = time.monotonic()
    raw = part.measure(minutes)
    return {**conditions, "seconds": round(time.monotonic() - began), "raw": raw}


def place(part: Part) -> pathlib.Path:
    return KEPT / f"{part.name}.json"


def kept_anew(part: Part, note: str, minutes: float) -> bool:
    """Measures a part and keeps its results; if that fails, says so, and what was kept stays."""
    try:
        told = json.dumps(measured(part, note, minutes), indent=1)
    except Exception as error:
        print(f"{part.name}: {error}", file=sys.stderr)
        return False
    place(part).write_text(told + "\n")
    print(f"{part.name}: measured")
    return True


def kept(part: Part) -> dict[str, Any]:
    """What was kept of the part, or nothing."""
    found: dict[str, Any] = json.loads(place(part).read_text()) if place(part).exists() else {}
    return found


def usual() -> str:
    """The machine and the kit of most parts, which the introduction says."""
    places = collections.Counter(where(part) for part in PARTS if kept(part))
    return places.most_common(1)[0][0] if places else "nothing"


def where(part: Part) -> str:
    return "on {machine}; kit {kit}".format(**kept(part))


def section(part: Part) -> str:
    """A part's heading, note, tables and picture."""
    told = kept(part)
    note = [told["note"]] if told.get("note") else []
    picture = [f"![{part.title}]({part.picture})"] if part.picture else []
    return "\n\n".join([f"## {part.title}", *note, part.shown(told["raw"]), *picture])


def conditions(there: list[Part]) -> str:
    """How each part was measured, as a table; and what isn't as usual."""
    rows = []
    others: dict[str, list[str]] = {}
    for part in there:
        told = kept(part)
        program = told["program"].split()[0] if told["program"] else "–"
        anchor = re.sub(r"[^\w\- ]", "", part.title.lower()).replace(" ", "-")
        rows.append([f"[{part.name}](#{anchor})", told["commit"], program, told["date"].replace(" UTC", "").replace(" ", "T"), str(told["seconds"]),
                     f"{told['load'][0]:.1f}"])
        for each in where(part).split("; "):
            if each not in usual().split("; "):
                others.setdefault(each, []).append(part.name)
    places = "; ".join(f"{', '.join(names)} {each}" for each, names in others.items())
    unusual = f"\n\nElsewhere: {places}." if others else ""
    return floor_table.table(["part", "commit", "program", "UTC", "seconds", "load"], rows) + unusual


def introduction() -> str:
    commits = {str(kept(part)["commit"]) for part in PARTS if kept(part)}
    one = f"All were measured at commit {commits.pop()}." if len(commits) == 1 else "Not all was measured at one commit."
    return f"""# What was measured

For those who choose an index or plan a machine: how fast Dilforec is and how much memory it takes, beside SQLite's FTS5 and Lucene. `python3
bench/report.py` writes this page, and [every table](../bench/MEASURED-ALL.md) in the appendix.

{summary.shown(kept_by_name)}

Lower is better, except in the first row and the last two. Unless a part says otherwise, it was measured {usual()}. {one}

## What the rows mean

{summary.meanings(kept_by_name)}

A µs is a millionth of a second of processor time. A load is how many processes ran or waited to run in the minute before. From 1 on, times are
longer than on a quiet machine, and a ratio of two columns says more than either.

## The documents

{corpus.DESCRIPTION}

## The kinds of search

{searches.table_of_kinds()}

## The programs

{floor_table.PROGRAMS}

## How searches are timed

{floor_table.HOW}

## One search, several numbers

{floor_table.DIFFERENT}"""


def kept_by_name(name: str) -> dict[str, Any]:
    return kept(next(part for part in PARTS if part.name == name))


def wrapped(text: str) -> str:
    """A paragraph in lines of at most WIDTH, a table without spaces around its cells; headings, pictures and code stay as they are."""
    if text.startswith("|"):
        return re.sub(r" *\| *", "|", text)
    return text if text.startswith(("#", "!", " ")) else textwrap.fill(text, WIDTH, break_long_words=False, break_on_hyphens=False)


def of_paragraphs(text: str) -> str:
    return "\n\n".join(map(wrapped, text.split("\n\n"))) + "\n"


def page() -> str:
    return of_paragraphs(introduction())


def appendix() -> str:
    there = [part for part in PARTS if kept(part)]
    missing = ", ".join(f"{part.title.lower()} (`--only {part.name}`)" for part in PARTS if part not in there)
    closing = [f"## Not measured yet\n\n{missing[0].upper()}{missing[1:]}."] if missing else []
    head = (
        "# Every table\n\nFor those who look closer: all that `python3 bench/report.py` measures, part by part; `--only` measures one anew. "
        "[MEASURED](../docs/MEASURED.md) has the documents, the kinds of search, the programs, and what a load is. A dash means that a program has "
        "nothing for the search. A program is named by its SHA-256.")
    return of_paragraphs("\n\n".join([head, conditions(there), *map(section, there), *closing]))


def readme() -> str:
    """README.md with the table in its place."""
    text = README.read_text("utf-8")
    before, mark, after = text.partition(f"{MARK}\n\n")
    rest = after.partition("\n\n")[2]
    return f"{before}{mark}{wrapped(summary.shown(kept_by_name))}\n\n{rest}" if mark else text


def write() -> None:
    for path, text in ((PAGE, page()), (APPENDIX, appendix()), (README, readme())):
        path.write_text(text, "utf-8")


def draw() -> None:
    """Draws the pictures of what was measured."""
    for part in PARTS:
        if part.draw and kept(part):
            part.draw(kept(part)["raw"], APPENDIX.parent / part.picture)


def main() -> None:
    names = [part.name for part in PARTS]
    arguments = argparse.ArgumentParser(description="Writes docs/MEASURED.md and its appendix from what was measured.")
    arguments.add_argument("--only", help="parts with commas between: " + ", ".join(names))
    arguments.add_argument("--note", default="", help="a sentence on how these parts were measured")
    arguments.add_argument("--wait", type=float, default=10, metavar="MINUTES", help="how long to wait for a quiet machine before each part (10)")
    arguments.add_argument("--written", action="store_true", help="measure nothing, write the pages again")
    given = arguments.parse_args()
    chosen = [] if given.written else given.only.split(",") if given.only else names
    unknown = [name for name in chosen if name not in names]
    if unknown:
        arguments.error(f"no such part: {', '.join(unknown)}; there are {', '.join(names)}")
    if not PROGRAM.exists() and any(part.asks_program for part in PARTS if part.name in chosen):
        arguments.error(f"{PROGRAM} isn't there: build the program first (README.md), or name it in $FTS")
    KEPT.mkdir(exist_ok=True)
    failed = [part.name for part in PARTS if part.name in chosen and not kept_anew(part, given.note, given.wait)]
    draw()
    write()
    sys.exit(f"not measured: {', '.join(failed)}" if failed else 0)


if __name__ == "__main__":
    main()
