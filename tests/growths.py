#!/usr/bin/env python3
"""Refuses each growth of memory in turn, in the tests of a crate that try refused calls again.

    python3 tests/growths.py CRATE [WORD]

takes those of `AGAIN` below, or all whose names have the word, once `rt test` has built them there, and prints how often each growth
of a test was refused. `tests/sweeps.py` does it for all of them. Tests of thousands of documents take too long for it.

A test has to pass, or to run out of memory outside of a call that it tries again: by an error that it hands on ("error: AllocError"),
or by what it expected in its place ("a commit: Memory"). Where it tries a call again, what it expects is said to come again ("a
commit again: Memory"), and this may not fail: one growth is refused, and no other.
"""
from __future__ import annotations

import re
import sys
from collections.abc import Iterable, Sequence

import faults
from built import ROOT

# The tests that try refused calls again, by words in their names.
AGAIN = {
    "tests_segments": ["growths::", "refused"],
    "tests_pool": ["refusal"],
    "tests_rounds": ["a_batch_is_in_the_order", "a_full_lane", "a_lane_is_missing"],
    "tests_merges": ["growths::"],
    "tests_index": ["growths::", "merges::a_refused"],
}
# A new thread needs memory too.
OUT_OF_MEMORY = re.compile(
    rb"(?![a-z ]* again: )[a-z ]+: (AllocError|AllocFailed|Memory|Error\(out of memory\)|SpawnError)"
)


def tests(shim: str, crate: str, words: Iterable[str]) -> list[list[str]]:
    """The built tests of a crate whose names have one of the words."""
    binary = str(ROOT / f"crates/{crate}/out/{crate}_tests")
    listed = faults.run(shim, [binary, "--list"])[1].decode().splitlines()
    names = [line.removesuffix(": test") for line in listed if line.endswith(": test")]
    found = [[binary, name] for name in names if any(word in name for word in words)]
    assert found, (crate, "has no such test")
    return found


def passes_without(shim: str, test: Sequence[str], n: int) -> bool:
    """Whether a test passes whose nth growth is refused; else it runs out of memory."""
    status, _, told = faults.run(shim, test, FAIL_GROWTH=n)
    assert status == 0 or OUT_OF_MEMORY.match(told), (test, n, status, told)
    return status == 0


def main() -> None:
    crate, words = sys.argv[1], sys.argv[2:] or AGAIN[sys.argv[1]]
    with faults.shim() as shim:
        for test in tests(shim, crate, words):
            count = faults.growths(shim, test)
            passed = sum(passes_without(shim, test, n) for n in range(1, count + 1))
            print(f"{test[1]}: {count} growths refused in turn: {passed} times it passed, {count - passed} times it ended for memory")


if __name__ == "__main__":
    main()
