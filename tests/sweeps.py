#!/usr/bin/env python3
"""Looks at the program from outside: each allocation refused, each read and write failing, each beginning, and scripts that are damaged
or made to be slow; and at the calls of the libraries, by tests that try again what was refused.

    python3 tests/sweeps.py [SCRIPTS]

10,000 damaged scripts, or SCRIPTS of them. `.ci/run` does this after the proofs, over the programs and the tests that these built; else build
them first: fts (README.md), fts_list, which runs a script over a plain list of documents, by `rt run` in crates/fts_list, and by `rt test`
the crates of tests that growths.py names. The sweeps in which calls fail need a C compiler; if there is none they are left out, which is
said of each. The last lines are 'N skipped', if any, and 'N passed, M failed'.
"""
from __future__ import annotations

import concurrent.futures
import errno
import itertools
import json
import os
import random
import subprocess
import sys
import time
from collections.abc import Callable, Iterable

import faults
import growths
import hostile
import random_scripts
import ways
from built import PLAIN, PROGRAM, ROOT
from counts import Counts

DAMAGED = int(sys.argv[1]) if len(sys.argv) > 1 else 10_000
LANES = os.cpu_count() or 1
CAUSES = (errno.EIO, errno.EINTR)

SCHEMA = json.dumps(random_scripts.SCHEMA)
LONG = "x" * 40
# What is swept, beside the examples: a text with a span that is too long, and eight segments that the policy merges.
DROPPED = "\n".join([SCHEMA, *(json.dumps(it) for it in [
    {"add": {"title": f"a {LONG} b"}}, {"add": {"title": f"a {LONG[1:]} b"}}, {"commit": True},
    *({"search": {"query": query}} for query in ('"a b"', f'"a {LONG} b"', f'"a {LONG[1:]} b"', LONG[1:], LONG)),
])]).encode() + b"\n"
EIGHT = "\n".join([SCHEMA, *['{"add":{}}'] * 8, '{"commit":true}']).encode() + b"\n"
SCRIPTS = {
    "groups": (ROOT / "examples/groups.jsonl").read_bytes(),
    "ties": (ROOT / "examples/ties.jsonl").read_bytes(),
    "refusals": (ROOT / "examples/refusals.jsonl").read_bytes(),
    "a dropped run": DROPPED,
    "eight segments": EIGHT,
}


def command(workers: int) -> list[str]:
    return [PROGRAM, "run", "--merge", "policy", "--runs", "1", "--workers", str(workers)]


def replies(words: list[str], script: bytes) -> bytes:
    done = subprocess.run(words, input=script, capture_output=True)
    assert done.returncode == 0, (words, done.returncode, done.stderr)
    return done.stdout


def fronts(script: bytes) -> list[bytes]:
    """The replies to no line, to the first, to the first two and so on, as the plain list gives them."""
    lines = replies([PLAIN], script).splitlines(keepends=True)
    return [b"".join(lines[:n]) for n in range(len(lines) + 1)]


def answered(begun: bytes, beginnings: list[bytes]) -> bytes:
    """The replies to the lines that ended within what was read."""
    ended = begun[: begun.rfind(b"\n") + 1]
    return beginnings[sum(1 for line in ended.splitlines() if line.strip(b" \t\r"))]


def side_by_side(look: Callable[..., object], cases: Iterable[tuple[object, ...]]) -> int:
    with concurrent.futures.ThreadPoolExecutor(LANES) as pool:
        return sum(1 for _ in pool.map(lambda case: look(*case), cases))


def refused_by_bytes(shim: str) -> int:
    """Each growth refused, with one byte per read: status 3 and the replies to the lines before the one of the last byte, or status 0 and
    all replies. Here the contract leaves nothing else, since each read ends within the line in hand or right after it."""
    def look(name: str, script: bytes, beginnings: list[bytes], workers: int, n: int) -> None:
        status, out, _, reads = faults.counted(shim, command(workers), script, ONE_BYTE=1, FAIL_GROWTH=n)
        before = answered(script[: max(reads - 1, 0)], beginnings)
        assert (status, out) in [(3, before), (0, beginnings[-1])], (name, workers, n, status, out)

    cases = []
    for name, script in SCRIPTS.items():
        beginnings = fronts(script)
        for workers in (1, 3):
            # Threads ask for memory in no fixed order, and not always as often.
            tries = range(3 if workers > 1 else 1)
            count = max(faults.growths(shim, command(workers), script, ONE_BYTE=1) for _ in tries)
            cases += [(name, script, beginnings, workers, n) for n in range(1, count + 1)]
    return side_by_side(look, cases)


def refused_in_a_block(shim: str) -> int:
    """Each growth refused, with the whole script in one read: status 3 and exactly the replies to the lines before the one in hand, or
    status 0 and all replies. The line in hand of the nth growth is the first k whose beginning of k lines asks for n growths or more."""
    def look(name: str, script: bytes, beginnings: list[bytes], before: bytes, n: int) -> None:
        status, out, _, reads = faults.counted(shim, command(1), script, FAIL_GROWTH=n)
        assert (status, out, reads) in [(3, before, min(reads, 1)), (0, beginnings[-1], 2)], (name, n, status, out, reads)

    cases = []
    for name, script in SCRIPTS.items():
        beginnings = fronts(script)
        lines = script.splitlines(keepends=True)
        first = 1
        for k in range(len(lines) + 1):
            last = faults.growths(shim, command(1), b"".join(lines[:k]))
            before = answered(b"".join(lines[:max(k - 1, 0)]), beginnings)
            cases += [(name, script, beginnings, before, n) for n in range(first, last + 1)]
            first = max(first, last + 1)
    return side_by_side(look, cases)


def tried_again(shim: str) -> int:
    """Each growth refused in the tests that try refused calls again."""
    found = [test for crate, words in growths.AGAIN.items() for test in growths.tests(shim, crate, words)]
    cases = [(shim, test, n) for test in found for n in range(1, faults.growths(shim, test) + 1)]
    return side_by_side(growths.passes_without, cases)


def heeded(shim: str) -> int:
    """Each option changes how often a run asks for memory, though no reply shows it."""
    adds = "".join(f'{{"add":{{"price":{price}}}}}\n' for price in range(9))
    schema = '{"schema":[{"name":"price","kind":"u64"}]}'
    script = f'{schema}\n{adds}{{"commit":true}}\n{{"search":{{"query":"*"}}}}\n'.encode()

    # The same number of words each time, since the command line takes memory too.
    def count(cut: str, n: str, merge: str = "off", workers: str = "1") -> int:
        return faults.growths(shim, [PROGRAM, "run", cut, n, "--merge", merge, "--workers", workers], script)

    runs, fours, dealt, whole = count("--runs", "1"), count("--runs", "4"), count("--deal", "2"), count("--runs", "65536")
    merged, shared = count("--runs", "1", merge="policy"), count("--runs", "1", workers="4")
    assert runs > fours > dealt > whole and merged > runs and shared > runs, (runs, fours, dealt, whole, merged, shared)
    return 6


def streams(shim: str) -> int:
    """Reads and writes of one byte, each of which fails, is interrupted or takes nothing."""
    def look(name: str, script: bytes, faulty: dict[str, int], outcome: tuple[int, bytes]) -> None:
        assert faults.run(shim, command(1), script, None, ONE_BYTE=1, **faulty)[:2] == outcome, (name, faulty)

    cases = []
    for name, script in SCRIPTS.items():
        beginnings = fronts(script)
        whole = beginnings[-1]
        made: list[tuple[dict[str, int], tuple[int, bytes]]] = [({}, (0, whole))]
        # One byte per read: the nth read fails after n - 1 bytes, and the lines that ended by then are answered.
        for n, cause in itertools.product(range(1, len(script) + 2), CAUSES):
            made.append(({"FAIL_READ": n, "FAIL_ERRNO": cause}, (4, answered(script[: n - 1], beginnings))))
        for n in range(1, len(whole) + 1):
            made += [({"FAIL_WRITE": n, "FAIL_ERRNO": cause}, (4, whole[: n - 1])) for cause in CAUSES]
            made.append(({"ZERO_WRITE": n}, (4, whole[: n - 1])))
        cases += [(name, script, *it) for it in made]
    return side_by_side(look, cases)


def cut(_shim: str) -> int:
    """Each beginning, byte by byte: the replies are those of the plain list, with one worker and with three."""
    def look(name: str, script: bytes) -> None:
        wanted = replies([PLAIN], script)
        for workers in (1, 3):
            assert replies(command(workers), script) == wanted, (name, workers, script)

    return side_by_side(look, [(name, script[:n]) for name, script in SCRIPTS.items() for n in range(len(script) + 1)])


def damaged(_shim: str) -> int:
    """Damaged scripts over segments, each in a way of its own: the replies are those of the plain list."""
    def look(seed: int) -> None:
        script, chance = random_scripts.damaged(seed), random.Random(seed)
        cuts: list[list[str]] = [["--runs", "1"], ["--runs", "3"], ["--deal", "1"], ["--deal", "2"], ["--deal", "7"], []]
        way = [
            *chance.choice(cuts), "--merge", chance.choice(["off", "policy"]), "--workers", chance.choice(["1", "2", "4", "64"]),
        ]
        assert replies([PROGRAM, "run", *way], script) == replies([PLAIN], script), (seed, way)

    return side_by_side(look, [(seed,) for seed in range(DAMAGED)])


def every_way(_shim: str) -> int:
    """Random scripts over segments, each in every way of cutting, merging and sharing out work: the replies are those of the plain list."""
    return len(ways.WAYS) * ways.compared(50)[0]


def made_slow(_shim: str) -> int:
    """Scripts made to be slow, each beside a plain one of the same size, which bounds its time."""
    return hostile.bounded(PROGRAM)


def main() -> int:
    counts = Counts("sweeps", quiet=True)

    def sweep(name: str, look: Callable[[str], int], shim: str = "") -> None:
        begun = time.monotonic()
        try:
            counts.say(f"{name}: {look(shim)} in {time.monotonic() - begun:.0f} s")
            counts.check(name, True)
        except AssertionError as error:
            counts.check(name, False, error)

    sweep("beginnings, answered as over a list", cut)
    sweep("damaged scripts, answered as over a list", damaged)
    sweep("random scripts in every way, answered as over a list", every_way)
    sweep("scripts made to be slow, within a bound", made_slow)
    faulty = {
        "growths refused in scripts, a byte per read": refused_by_bytes,
        "growths refused in scripts, each in one block": refused_in_a_block,
        "growths refused in tests that try again": tried_again,
        "options that change how often memory is asked for": heeded,
        "reads and writes that fail or come short": streams,
    }
    if faults.compiler():
        with faults.shim() as shim:
            for name, look in faulty.items():
                sweep(name, look, shim)
    else:
        for name in faulty:
            counts.skip(name, "there is no C compiler")
    return counts.end()


if __name__ == "__main__":
    sys.exit(main())
