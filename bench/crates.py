"""Timings that are programs in Rattle, over calls that no script reaches: each is proved and run in a scratch copy of the repository.

A program is in bench/NAME, with a .txt after each file's name, since the gate takes no source outside of the crates. It needs the kit's `rt`.
"""
from __future__ import annotations

import json
import pathlib
import shutil
import subprocess
import tempfile
from typing import Iterator, Sequence

import corpus
import searches
from programs import ROOT
from script import drawn


def copied(name: str, stands_on: str, copy: pathlib.Path) -> pathlib.Path:
    """The crate of a program in a copy of the repository."""
    shutil.copytree(ROOT, copy, ignore=shutil.ignore_patterns(".git"))
    crate = copy / "crates" / f"{name}_bench"
    for source in (ROOT / "bench" / name).rglob("*.txt"):
        place = crate / source.relative_to(ROOT / "bench" / name).with_suffix("")
        place.parent.mkdir(parents=True, exist_ok=True)
        shutil.copy(source, place)
    with open(copy / "crates.txt", "a") as crates:
        crates.write(f"{name}_bench: {stands_on}\n")
    return crate


def outputs(name: str, stands_on: str, given: Sequence[str], runs: int = 1, words: Sequence[str] = ()) -> Iterator[str]:
    """The lines that the program writes about the given ones, of several runs one after the other."""
    data = "".join(line + "\n" for line in given).encode()
    with tempfile.TemporaryDirectory() as scratch:
        crate = copied(name, stands_on, pathlib.Path(scratch) / "copy")
        # This builds it; run on nothing, the program itself may fail.
        subprocess.run(["rt", "run"], cwd=crate, input=b"", stdout=subprocess.DEVNULL)
        for _ in range(runs):
            run = subprocess.run([crate / "out" / f"{name}_bench", *words], input=data, stdout=subprocess.PIPE, check=True)
            yield from run.stdout.decode().splitlines()


def documents(count: int) -> list[str]:
    """The documents as lines of JSON."""
    return [json.dumps(document._asdict(), separators=(",", ":")) for document in corpus.documents(count)]


def searched(count: int, each: int, kinds: Sequence[str]) -> list[str]:
    """The documents, and then searches of these kinds: the kind, what is asked beside the count, and the query, with tabs between."""
    lines = documents(count)
    for kind, asked in drawn(each):
        what = "top" if searches.is_top(asked[0]) else asked[0].asked.partition(" ")[0]
        lines += [f"{kind}\t{what}\t{searches.query(search)}" for search in asked if kind in kinds]
    return lines
