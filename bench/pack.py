#!/usr/bin/env python3
"""Times the layer of packed numbers (`fts_pack`) beside the same loops in C++ over the same numbers.

    python3 bench/pack.py

The program is in bench/pack, the loops in bench/pack.cpp. Nanoseconds a number, the fastest of many rounds by the thread's processor time. The
kernel in C++ works the same way as the proved one, the plain loop takes one number after the other; all print a sum of what they read, and the
sums have to agree. `values` adds up a column's values: by `Column::get` here, by unpacking 128 at a time in C++.
"""
from __future__ import annotations

import tempfile
from typing import Any, Iterable

from crates import outputs
from floor_table import number, table
from programs import ROOT, run

LOOPS = ("unpack", "open", "values", "count")


def told(lines: Iterable[str]) -> dict[tuple[str, str], list[int]]:
    """By loop and width what a line tells: picoseconds a number, of one or two loops, and the sum."""
    words = [line.split() for line in lines]
    return {(each[0], each[1]): [int(word) for word in each[2:]] for each in words if each[:1] and each[0] in LOOPS}


def measure() -> list[dict[str, Any]]:
    with tempfile.TemporaryDirectory() as folder:
        run("g++", "-O3", "-march=x86-64-v2", "-std=c++17", "-o", f"{folder}/pack", ROOT / "bench/pack.cpp")
        theirs = told(run(f"{folder}/pack").splitlines())
    rows = []
    for (loop, width), (ours, total) in told(outputs("pack", "fts_pack fts_model", [], words=["go"])).items():
        kernel, plain, same = theirs[loop, width]
        if total != same:
            raise RuntimeError(f"{loop} {width} read other numbers: {total}, {same}")
        rows.append({"loop": loop, "width": int(width), "fts": ours / 1e3, "kernel": kernel / 1e3, "plain": plain / 1e3})
    return rows


def shown(raw: list[dict[str, Any]]) -> str:
    rows = [[f"`{row['loop']}`", str(row["width"]), *(f"{row[name]:.3f}" for name in ("fts", "kernel", "plain")), number(row["fts"] / row["kernel"])]
            for row in raw]
    return "Nanoseconds for each number (for `count`, each document), over 8,192 numbers in the first cache.\n\n" + table(
        ["loop", "width", "fts", "C++ kernel", "C++ plain loop", "fts / kernel"], rows)


if __name__ == "__main__":
    print(shown(measure()))
