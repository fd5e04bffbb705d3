#!/usr/bin/env python3
"""Tests of the built program that no case can be: what it says of a fault and of wrong arguments, help that can't be written, an
input of no byte, the limits of lanes and merges, whose scripts have a million lines, and searches that start threads or can't.

    python3 tests/program.py

Build fts and fts_list first, or name them (tests/built.py). What needs a C compiler, or another user, is skipped, and counted, if there
is none. The last lines are 'N skipped', if any, and 'N passed, M failed'.
"""
from __future__ import annotations

import functools
import itertools
import json
import os
import pathlib
import pwd
import resource
import subprocess
import sys
import tempfile
from typing import Iterable, Iterator, Sequence

import faults
from built import PLAIN, PROGRAM, ROOT
from counts import Counts

MEMORY, READ, WRITE = (3, b"out of memory\n"), (4, b"the input couldn't be read\n"), (4, b"the output couldn't be written\n")
# The status of arguments that are refused.
USAGE = 2
SCRIPT = (ROOT / "examples/groups.jsonl").read_bytes()

# The limits, as docs/SCRIPT.md has them.
MOST_OPERATIONS, MOST_MERGED = 1_000_000, 1_048_576
# So many documents that some searches are worth threads.
MANY = 262_144
# What the runs of the limits may take: processor seconds together, and bytes at the peak of each.
SECONDS, BYTES = 20, 2 * 10**9

counts = Counts("program", quiet=True)
check, skip = counts.check, counts.skip


def said_of_faults() -> None:
    """A run that stops says why, in one line on standard error, and its status says it too."""
    if not faults.compiler():
        skip("what is said of a fault", "there is no C compiler")
        return
    with faults.shim() as shim:
        for name, (status, words), fault in [
            ("memory", MEMORY, {"FAIL_GROWTH": faults.growths(shim, [PROGRAM, "run"], SCRIPT)}),
            ("a read", READ, {"FAIL_READ": 1}), ("a write", WRITE, {"FAIL_WRITE": 1}), ("a write of no byte", WRITE, {"ZERO_WRITE": 1}),
        ]:
            found, _, told = faults.run(shim, [PROGRAM, "run"], SCRIPT, None, **fault)
            check(name, (found, told) == (status, b"fts: " + words), (found, told))
        # There is no memory for the command line itself.
        found, out, told = faults.run(shim, [PROGRAM, "run"], SCRIPT, FAIL_GROWTH=1)
        check("the command line", (found, out, told) == (MEMORY[0], b"", MEMORY[1]), (found, out, told))


def refused_arguments() -> None:
    """Arguments that ask for nothing that there is: status 2, no reply, and words on standard error."""
    wrong: list[list[str | bytes]] = [
        [], ["walk"], ["--walk"], ["run", "--workers"], ["run", "--workers", "0"], ["run", "--workers", "65"], ["run", "--runs", "0"],
        ["run", "--deal", "65"], ["run", "--runs", "1", "--deal", "1"], ["run", "--merge", "on"], ["run", "a", "b"], ["run", b"\xff"],
    ]
    for words in wrong:
        done = subprocess.run([PROGRAM, *words], input=SCRIPT, capture_output=True)
        check(f"arguments {words}", (done.returncode, done.stdout, done.stderr[:6]) == (USAGE, b"", b"error:"), done)


def unwritable() -> None:
    """A standard output that takes nothing: status 4, for help as for a run, which says why."""
    def closed() -> None:
        os.close(1)

    for words, told in [(["--help"], b""), (["--version"], b""), (["run", "--help"], b""), (["run"], b"fts: " + WRITE[1])]:
        reading, unread = os.pipe()
        os.close(reading)
        with open("/dev/full", "wb") as full, os.fdopen(unread, "wb") as pipe:
            for name, out, before in [("a full disk", full, None), ("a pipe that nobody reads", pipe, None), ("nowhere", None, closed)]:
                done = subprocess.run([PROGRAM, *words], input=SCRIPT, stdout=out, stderr=subprocess.PIPE, preexec_fn=before)
                check(f"{' '.join(words)} to {name}", (done.returncode, done.stderr) == (WRITE[0], told), done)


def of_no_byte() -> None:
    """An input of no byte has no reply, over the list as over segments."""
    cuts: list[list[str]] = [[], ["--runs", "1"], ["--deal", "1"], ["--deal", "64"]]
    ways = [[PLAIN], *([PROGRAM, "run", *cut, "--merge", merge, "--workers", workers] for cut, merge, workers in itertools.product(
        cuts, ("off", "policy"), ("1", "3")))]
    for words in ways:
        done = subprocess.run(words, stdin=subprocess.DEVNULL, capture_output=True)
        check(f"no byte: {' '.join(words)}", (done.returncode, done.stdout, done.stderr) == (0, b"", b""), done)


class Line:
    """A line, how many times it comes, and the replies: always the same text, or stamps that rise from this one."""

    def __init__(self, line: str, reply: str | int, times: int = 1) -> None:
        self.line, self.times = line, times
        self.replies: Iterable[str] = (
            (f'{{"stamp":{reply + n}}}' for n in range(times)) if isinstance(reply, int) else itertools.repeat(reply, times))


def at_the_limits() -> Iterator[Line]:
    """A script that meets both limits, with the replies that docs/SCRIPT.md says it has."""
    add = '{"add":{}}'
    yield Line('{"schema":[{"name":"n","kind":"u64"}]}', '{"fields":1}')
    yield Line(add, 1, MOST_OPERATIONS)
    # The schema is the first line.
    for number, refused in enumerate([add, '{"delete":{"n":1}}', '{"delete_all":true}'], MOST_OPERATIONS + 2):
        yield Line(refused, f'{{"error":"LaneFull","line":{number}}}')
    stamp = MOST_OPERATIONS + 1
    yield Line('{"commit":true}', f'{{"commit":{stamp}}}')
    more = MOST_MERGED - MOST_OPERATIONS
    yield Line(add, stamp + 1, more)
    stamp += more + 1
    yield Line('{"commit":true}', f'{{"commit":{stamp}}}')
    yield Line('{"merge":true}', f'{{"merged":{MOST_MERGED}}}')
    yield Line(add, stamp + 1)
    yield Line('{"commit":true}', f'{{"commit":{stamp + 2}}}')
    # The lines before it: the schema, the adds, three that were refused, three commits and a merge.
    yield Line('{"merge":true}', f'{{"error":"TooLarge","line":{1 + MOST_MERGED + 1 + 3 + 3 + 1 + 1}}}')
    yield Line('{"search":{"query":"*"}}', f'{{"count":{MOST_MERGED + 1}}}')


def limits() -> None:
    """`LaneFull` and `TooLarge`, over the list and over segments of 65,536 documents, with the merge policy and without."""
    began = resource.getrusage(resource.RUSAGE_CHILDREN)
    with tempfile.TemporaryDirectory() as folder:
        script, wanted, found = (pathlib.Path(folder, name) for name in ("script", "wanted", "found"))
        with script.open("w") as lines, wanted.open("w") as replies:
            for each in at_the_limits():
                lines.write(f"{each.line}\n" * each.times)
                replies.writelines(f"{reply}\n" for reply in each.replies)
        for words in [PLAIN], [PROGRAM, "run", "--runs", "65536"], [PROGRAM, "run", "--runs", "65536", "--merge", "policy"]:
            with script.open("rb") as given, found.open("wb") as out:
                status = subprocess.run(words, stdin=given, stdout=out).returncode
            same = found.read_bytes() == wanted.read_bytes()
            check(f"limits: {' '.join(words)}", status == 0 and same, (status, found.read_bytes()[-400:]))
    used = resource.getrusage(resource.RUSAGE_CHILDREN)
    took, peak = used.ru_utime + used.ru_stime - began.ru_utime - began.ru_stime, used.ru_maxrss * 1024
    check("limits: time and memory", took <= SECONDS and peak <= BYTES, (took, peak))
    print(f"program: LaneFull and TooLarge three times in {took:.0f} processor seconds, with {peak / 1e9:.1f} GB at the peak", flush=True)


def many_documents() -> list[str]:
    """The lines that make so many documents that a search by several workers may start threads."""
    fields = [{"name": "title", "kind": "text", "default": True}, {"name": "tag", "kind": "keyword"}, {"name": "price", "kind": "u64"}]
    adds = [{"title": f"a b{' a' * (n % 3)} w{n % 1_000}", "tag": f"t{n % 7}", "price": n * 7_919 % 10_007} for n in range(MANY)]
    lines = [{"schema": fields}, *({"add": each} for each in adds), {"commit": True}, {"delete": {"tag": "t6"}}, {"add": {"tag": "t6"}}]
    return list(map(json.dumps, [*lines, *({"add": each} for each in adds[: MANY // 7 + 1]), {"commit": True}]))


@functools.cache
def scripts_of_searches() -> list[bytes]:
    """Scripts of many documents: one without a search, one with searches that end soon, and one with these and some that take long."""
    soon = [{"query": "*"}, {"query": "w7", "groups": "tag"}, {"query": "price:[5 TO 6]"}, {"query": "tag:t6"}]
    tops = [{"by": "price", "k": k, "order": order} for k, order in ((10, "falling"), (1_000, "rising"))]
    long = [{"query": "*", "groups": "price"}, {"query": '"b a a"', "top": tops[0]}, {"query": "+a -tag:t1", "groups": "tag", "top": tops[1]}]
    # Of a range that many documents are in, all numbers are compared, since some documents are deleted.
    long.append({"query": "price:[5 TO 50]"})
    lines = many_documents()
    scripts = []
    kinds: list[Sequence[object]] = [[], soon, long]
    for searches in kinds:
        lines += [json.dumps({"search": search}) for search in searches]
        scripts.append("\n".join(lines).encode() + b"\n")
    return scripts


def started(shim: str, words: list[str], script: bytes) -> int:
    """How many threads a run starts."""
    return int(faults.run(shim, words, script, THREADS=1)[2].split()[-1])


def searches_by_threads() -> None:
    """Searches of many documents: the replies are those of the plain list. The first that takes long starts threads for all that do."""
    scripts = scripts_of_searches()
    wanted = subprocess.run([PLAIN], input=scripts[-1], capture_output=True).stdout
    by = [[PROGRAM, "run", "--runs", cut, "--workers", workers] for cut, workers in (("65536", "1"), ("65536", "3"), ("20000", "64"))]
    for words in by:
        done = subprocess.run(words, input=scripts[-1], capture_output=True)
        check(f"many documents: {' '.join(words)}", (done.returncode, done.stdout) == (0, wanted), done.stdout[-400:])
    if not faults.compiler():
        skip("threads of searches", "there is no C compiler")
        return
    with faults.shim() as shim:
        # A commit starts threads too, so the script without its searches is looked at as well.
        alone, (before, cheap, dear) = ([started(shim, words, script) for script in scripts] for words in by[:2])
    check("threads of searches", alone == [0, 0, 0] and before == cheap and dear - cheap in (1, 2), (alone, before, cheap, dear))


def without_threads() -> None:
    """Lets this process start no thread. No limit holds for root, who becomes another user first."""
    if os.geteuid() == 0:
        user = pwd.getpwnam("nobody")
        os.setgroups([])
        os.setgid(user.pw_gid)
        os.setuid(user.pw_uid)
    resource.setrlimit(resource.RLIMIT_NPROC, (0, 0))


def refused_threads() -> None:
    """Searches that are worth threads, where none is started, or not all that are wanted: the replies are those of one worker."""
    none, _, script = scripts_of_searches()
    alone, by_four = ([PROGRAM, "run", "--runs", "20000", "--workers", workers] for workers in ("1", "4"))
    wanted = subprocess.run(alone, input=script, capture_output=True).stdout
    if not faults.compiler():
        skip("refused threads", "there is no C compiler", 4)
        return
    with faults.shim() as shim:
        # A commit starts threads too.
        before = started(shim, by_four, none)
        for first in (1, before + 1, before + 2):
            status, out, told = faults.run(shim, by_four, script, THREADS=1, FAIL_THREAD=first)
            check(f"refused from the thread {first} on", (status, out, int(told)) == (0, wanted, first - 1), (status, out[-400:], told))
        try:
            status, out, told = faults.run(shim, by_four, script, without_threads, THREADS=1)
        except (OSError, subprocess.SubprocessError) as error:
            skip("threads beyond a limit", f"no other user may run the program ({error})")
            return
        check("threads beyond a limit", (status, out, int(told)) == (0, wanted, 0), (status, out[-400:], told))


def main() -> int:
    for test in (said_of_faults, refused_arguments, unwritable, of_no_byte, limits, searches_by_threads, refused_threads):
        test()
    return counts.end()


if __name__ == "__main__":
    sys.exit(main())
