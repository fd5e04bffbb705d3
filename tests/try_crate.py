#!/usr/bin/env python3
"""Runs the cases and tests of a crate before any proof: what `make try CRATE=NAME` calls.

    python3 tests/try_crate.py NAME [CASE]
    python3 tests/try_crate.py --table

A crate's cases are files of a driver, cases_segments or cases_index, and its other tests are crates of their own; TABLE says which. They are
built unproved by `rt try`. With CASE only the cases run whose lines have this text, after the lines that make what they ask. The status is 0
if all pass. --table prints the table of CONTRIBUTING.md, which tests/pages.py compares.
"""
from __future__ import annotations

import json
import pathlib
import subprocess
import sys
import tempfile
from typing import NamedTuple

CRATES = pathlib.Path(__file__).resolve().parents[1] / "crates"
SEGMENTS, INDEX = "cases_segments", "cases_index"
# Processor seconds of the files of cases_segments, once the driver is built, which takes some 90. Those of cases_index weren't measured.
SECONDS = {
    "collectors": 7.3, "cursors": 3.2, "cuttings": 5.4, "documents": 6.8, "generated": 10.4, "joins": 13.8, "lists": 0.1, "merges": 0.2,
    "packing": 0.2, "queries": 0.7, "scan": 0.1, "schemas": 0.1, "segments": 12.7, "tokens": 0.1, "walks": 10.6,
}
# What the later lines of a file ask.
MAKES = {"make": True, "and_make": False, "clear": False}


class Tried(NamedTuple):
    """The driver of a crate's cases, their files, and the crates of its tests."""
    driver: str = ""
    files: str = ""
    tests: str = ""


TABLE = {
    "fts_text": Tried(SEGMENTS, "tokens lists"),
    "fts_model": Tried(SEGMENTS, "schemas documents lists", "tests_segments"),
    "fts_scan": Tried(SEGMENTS, "scan queries"),
    "fts_query": Tried(SEGMENTS, "queries scan"),
    "fts_pack": Tried(SEGMENTS, "packing", "tests_segments"),
    "fts_positions": Tried(SEGMENTS, "segments joins queries", "tests_segments"),
    "fts_segment": Tried(SEGMENTS, "segments generated joins lists", "tests_segments"),
    "fts_merge": Tried(SEGMENTS, "merges joins cuttings", "tests_segments"),
    "fts_postings": Tried(SEGMENTS, "cursors walks"),
    "fts_sets": Tried(SEGMENTS, "cursors walks queries collectors"),
    "fts_cursor": Tried(SEGMENTS, "cursors walks queries"),
    "fts_parts": Tried(SEGMENTS, "collectors cuttings", "tests_segments"),
    "fts_collect": Tried(SEGMENTS, "collectors cuttings", "tests_segments"),
    "fts_pool": Tried(tests="tests_pool"),
    "fts_rounds": Tried(INDEX, "writers", "tests_rounds"),
    "fts_snapshots": Tried(INDEX, "writers searchers openings late", "tests_merges"),
    "fts_index": Tried(INDEX, "writers searchers openings late refused_calls", "tests_index tests_merges"),
    "fts_engine": Tried(INDEX, "commits searches keywords lists", "tests_scripts"),
    "fts_engine_local": Tried(INDEX, "commits searches keywords lists", "tests_scripts"),
    "fts_engine_index": Tried(INDEX, "commits searches keywords lists", "tests_scripts"),
    "fts_script": Tried(INDEX, "lines refused searches keywords lists examples", "tests_scripts"),
    "fts_cli": Tried(tests="tests_cli"),
}


def table() -> str:
    """The table as Markdown."""
    rows = [["crate", "cases", "seconds", "tests"], ["---"] * 4]
    for name, (driver, files, tests) in TABLE.items():
        seconds = f"{sum(SECONDS[file] for file in files.split()):.0f}" if driver == SEGMENTS else ""
        rows.append([f"`{name}`", f"{driver}: {files}" if driver else "", seconds, tests])
    return "\n".join(f"| {' | '.join(row)} |".replace("  ", " ") for row in rows) + "\n"


def chosen(path: pathlib.Path, words: str) -> str:
    """The lines of a file that have some words, each after those that make what it asks."""
    found: list[str] = []
    made: list[str] = []
    for line in path.read_text("utf-8").splitlines(keepends=True):
        does = json.loads(line).get("do")
        if words in line:
            found += [*made, line]
            made = []
        elif does in MAKES:
            made = [line] if MAKES[does] else [*made, line]
    return "".join(found)


def tried(crate: str, *words: str) -> bool:
    """Whether `rt try` of a crate with these words passes."""
    print(f"== {crate}", flush=True)
    return subprocess.run(["rt", "try", "--seconds", "300", *words], cwd=CRATES / crate).returncode == 0


def cases(driver: str, files: list[str], words: str) -> bool:
    data = CRATES / driver / "data"
    with tempfile.TemporaryDirectory() as name:
        folder = pathlib.Path(name)
        given: list[str] = []
        for file in files:
            text = chosen(data / file, words) if words else (data / file).read_text("utf-8")
            if text:
                (folder / file).write_text(text, "utf-8")
                given.append(file)
        if not given:
            sys.exit(f"no case of {', '.join(files)} has {words!r}")
        # The examples are scripts that a case names.
        named = [path.name for path in data.iterdir() if "examples.jsonl" in given and path.name not in files]
        flags = [f"--data={file}={folder / file}" for file in given] + [f"--data={file}={data / file}" for file in named]
        return tried(driver, *(word for flag in flags for word in flag.split("=", 1)), "--", *given)


def main() -> int:
    if sys.argv[1:] == ["--table"]:
        print(table(), end="")
        return 0
    name, words = (*sys.argv[1:3], "", "")[:2]
    if name not in TABLE:
        sys.exit(f"{name or 'nothing'} isn't a crate with cases or tests; there are {', '.join(TABLE)}")
    driver, files, tests = TABLE[name]
    passed = [cases(driver, [f"{file}.jsonl" for file in files.split()], words)] if driver else []
    if not words or not driver:
        passed += [tried(crate, "--test") for crate in tests.split()]
    print("passed" if all(passed) else "FAILED")
    return 0 if all(passed) else 1


if __name__ == "__main__":
    sys.exit(main())
