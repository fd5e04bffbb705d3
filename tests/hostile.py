#!/usr/bin/env python3
"""Times scripts that were made to be slow, each beside a plain one of the same size.

    python3 tests/hostile.py [PART ..]

Build the program first (README.md). Prints for each pair the processor seconds of `fts run`, the least of three runs each, and how many
times as long the first took; the parts are terms, strikes, queries, phrases, lines, commits, fields and answers, all without a word.
Two pairs have a bound, which `tests/sweeps.py` looks at too; the last line says how many kept theirs.
"""
from __future__ import annotations

import itertools
import json
import os
import subprocess
import sys
import tempfile
import typing
from collections.abc import Iterable, Iterator, Sequence

from built import PROGRAM

COMMIT: dict[str, typing.Any] = {"commit": True}
TRIES = 3

# The hash of the kit's maps, whose seed is known: a word is multiplied into the state, and the halves of the product are joined.
MASK = 2**64 - 1
MULTIPLIER = 0x9E37_79B9_7F4A_7C15
BEGIN = 0x243F_6A88_85A3_08D3


# A line as text, or as JSON.
Line = typing.Union[str, dict[str, typing.Any]]
Script = list[Line]


class Pair(typing.NamedTuple):
    """A script that was made to be slow, and the plain one beside it: lists of lines, each as text or as JSON."""
    name: str
    slow: Script
    plain: Script
    bound: float | None = None
    options: tuple[str, ...] = ()
    plain_options: tuple[str, ...] = ()


def folded(a: int, b: int) -> int:
    product = a * b
    return product & MASK ^ product >> 64


def colliding(count: int, length: int = 32) -> list[str]:
    """Keys of one hash: any 16 bytes, the 8 bytes of the state after them, and any 8 bytes."""
    second = int.from_bytes(b"-colli--", "little") ^ MULTIPLIER
    fours = [int.from_bytes(b"%04d" % number, "little") for number in range(10_000)]
    keys = []
    for front, back in itertools.product(fours, fours):
        first = front | back << 32
        state = folded(first ^ BEGIN + length, second)
        # Each byte has to be ASCII.
        if not state & 0x8080_8080_8080_8080:
            keys.append(b"%b-colli--%b-any-8--" % (first.to_bytes(8, "little"), state.to_bytes(8, "little")))
            if len(keys) == count:
                return [key.decode() for key in keys]
    raise ValueError(f"there are only {len(keys)} keys of one hash")


def under(kind: str, *lines: Line) -> Script:
    """Lines under the schema of a field `f` of this kind, and a number."""
    fields = [{"name": "f", "kind": kind, "default": True}, {"name": "n", "kind": "u64"}]
    return [{"schema": fields}, *lines]


def adds(values: Iterable[object], field: str = "f") -> Script:
    return [{"add": {field: value}} for value in values]


def deletes(terms: Iterable[str]) -> Script:
    return [{"delete": {"f": term}} for term in terms]


def searches(query: str, times: int, **more: object) -> Script:
    return [{"search": {"query": query, **more}}] * times


def filled(piece: str, joint: str = " ", size: int = 4096) -> str:
    """A piece again and again, in at most `size` bytes."""
    return joint.join([piece] * ((size + len(joint)) // (len(piece) + len(joint))))


def chosen_words() -> Pair:
    count = 30_000
    others = [f"{number:08}-others--........any-8..." for number in range(count)]
    return Pair(
        "30,000 keywords of one hash, and others",
        under("keyword", *adds(colliding(count)), COMMIT), under("keyword", *adds(others), COMMIT), bound=3,
    )


def deletes_of_one_term() -> Pair:
    count = 60_000
    whole = under("keyword", *adds(["a"] * count))
    return Pair(
        "60,000 deletes of one term of 60,000 documents, and one",
        [*whole, *deletes(["a"] * count), COMMIT], [*whole, *deletes(["a"]), COMMIT], bound=5,
    )


def terms() -> Iterator[Pair]:
    yield chosen_words()
    rising = [f"k{number:06}" for number in range(60_000)]
    yield Pair(
        "60,000 keywords in falling order, and in rising",
        under("keyword", *adds(rising[::-1]), COMMIT), under("keyword", *adds(rising), COMMIT),
    )


def strikes() -> Iterator[Pair]:
    yield deletes_of_one_term()
    count = 60_000
    for words in (2, 300):
        each = [f"t{number}" for number in range(words)]
        whole = under("text", *adds([" ".join(each)] * (600_000 // words)))
        yield Pair(
            f"60,000 deletes of {words} terms in turn, and one of each",
            [*whole, *deletes(each * (count // words)), COMMIT], [*whole, *deletes(each), COMMIT],
        )
    different = [f"k{number:06}" for number in range(count)]
    whole = under("keyword", *adds(different))
    yield Pair(
        "10,000 deletes of different terms, and of terms that aren't there",
        [*whole, *deletes(different[::6]), COMMIT], [*whole, *deletes(f"x{n}" for n in range(count // 6)), COMMIT],
    )
    few = [*under("keyword", *adds(different[:3_000])), COMMIT, *deletes(different[:3_000]), COMMIT]
    yield Pair("3,000 deletes of different terms over 3,000 segments (`--runs 1`), and over one", few, few, options=("--runs", "1"))


def queries() -> Iterator[Pair]:
    def asked(query: str) -> Script:
        return under("text", *adds(["a b c d"] * 10_000), COMMIT, *searches(query, 10))

    for form, query in {
        "`a a ..`": filled("a"), "`+a +a ..`": filled("+a"), "`a AND a ..`": filled("a", " AND "),
        "`+a -b -b ..`": "+a " + filled("-b", size=4093), "`\"a a ..\"`": f'"{filled("a", size=4094)}"',
        "`\"a b\" \"a b\" ..`": filled('"a b"'), "`* * ..`": filled("*"), "`n:>=0 n:>=0 ..`": filled("n:>=0"),
        "`n:[0 TO *] n:[0 TO *] ..`": filled("n:[0 TO *]"),
        "`x1 x2 ..`": " ".join(f"x{number}" for number in range(720)),
        "`((..a..)) ((..a..)) ..`, 32 deep": filled("(" * 32 + "a" + ")" * 32),
        "`(a (a (a ..` again and again, 32 deep": filled("(a " * 32 + ")" * 32),
    }.items():
        yield Pair(f"queries of 4,096 bytes, {form}, and `a`", asked(query), asked("a"))


def phrases() -> Iterator[Pair]:
    def asked(text: str, query: str) -> Script:
        return under("text", *adds([text]), COMMIT, *searches(query, 2))

    whole = "a " * 500_000
    for words in (2, 10, 2_000):
        phrase = f'"{filled("a", size=2 * words - 1)}"'
        name = f"2 searches of {words:,} words `a` in quotes over a text of 500,000, and of `a`"
        yield Pair(name, asked(whole, phrase), asked(whole, "a"))
    for count in (10_000, 20_000):
        apart = "b " * count + "a " * count
        name = f"2 searches of `\"a b\"` over a text of {count:,} `b` and then as many `a`, and of `a b`"
        yield Pair(name, asked(apart, '"a b"'), asked(apart, "a b"))
    for words in (10, 100):
        phrase = f'"{filled("a", size=2 * words - 1)}"'
        parted = ("a " * (words - 1) + "b ") * (5_000 // words)
        name = f"2 searches of {words:,} words `a` in quotes over a text of 5,000, whose every {words:,}th is a `b`, and of `a`"
        yield Pair(name, asked(parted, phrase), asked(parted, "a"))


def lines() -> Iterator[Pair]:
    size = 4_000_000
    plain = under("text", *['{"add":{"f":"' + "word " * 200_000 + '"}}'] * 4)
    for form, line in {
        "`x`": "x" * size, "`[`": "[" * size, "`[0,0,..]`": "[" + "0," * (size // 2) + "0]",
        "a text of `\\u0041`": '{"add":{"f":"' + "\\u0041" * (1_000_000 // 6) + '"}}',
        "a list of empty texts": '{"add":{"f":[' + '"",' * (size // 4) + '""]}}',
        "different members": '{"add":{' + ",".join(f'"m{number}":0' for number in range(340_000)) + "}}",
        "one member again and again": '{"add":{' + '"f":"a",' * (size // 8) + '"n":1}}',
        "a number of digits": '{"add":{"n":' + "1" * size + "}}",
        "white space": " " * size,
    }.items():
        yield Pair(f"lines of up to 4 MB, {form}, and texts of 1 MB", under("text", *[line] * 4), plain)


def commits() -> Iterator[Pair]:
    count = 10_000
    one = under("keyword", *(it for value in range(count) for it in ({"add": {"n": value}}, COMMIT)))
    at_once = under("keyword", *adds(range(count), "n"), *[COMMIT] * count)
    for options in ((), ("--merge", "policy")):
        way = f" with `{' '.join(options)}`" if options else ""
        yield Pair(f"10,000 commits of one add{way}, and of none after 10,000 adds", one, at_once, options=options)
    adds_and_one = under("keyword", *adds(range(count), "n"), COMMIT)
    for options in (("--runs", "1"), ("--runs", "1", "--merge", "policy")):
        name = f"a commit of 10,000 adds with `{' '.join(options)}`, and without"
        yield Pair(name, adds_and_one, adds_and_one, options=options)


def fields() -> Iterator[Pair]:
    def schema(count: int) -> Line:
        return {"schema": [{"name": f"f{number}", "kind": "text", "default": True} for number in range(count)]}

    words = " ".join(f"x{number}" for number in range(720))
    wide = {"add": {f"f{number}": "a b c" for number in range(32)}}
    narrow = {"add": {"f0": "a b c"}}
    yield Pair("2,000 documents of 32 fields, and 64,000 of one", [schema(32), *[wide] * 2_000, COMMIT],
               [schema(1), *[narrow] * 64_000, COMMIT])
    yield Pair(
        "10 searches of 720 words in 32 fields of 2,000 documents, and in one",
        [schema(32), *[wide] * 2_000, COMMIT, *searches(words, 10)], [schema(32), *[wide] * 2_000, COMMIT, *searches("f0:a", 10)],
    )
    texts = [["a"] * 1_024] * 500
    yield Pair("500 lists of 1,024 texts `a`, and texts of as many", under("text", *adds(texts), COMMIT),
               under("text", *adds(" ".join(it) for it in texts), COMMIT))
    yield Pair(
        "10 searches of `\"a a\"` over 500 lists of 1,024 texts `a`, and of `a`",
        under("text", *adds(texts), COMMIT, *searches('"a a"', 10)), under("text", *adds(texts), COMMIT, *searches("a", 10)),
    )


def answers() -> Iterator[Pair]:
    different = under("keyword", *({"add": {"f": f"k{value:06}", "n": value}} for value in range(60_000)), COMMIT)
    plain = [*different, *searches("*", 10)]
    asked: dict[str, dict[str, object]] = {
        "groups by 60,000 keywords": {"groups": "f"}, "groups by 60,000 numbers": {"groups": "n"},
        "the first 10,000": {"top": {"by": "n", "k": 10_000, "order": "rising"}},
        "the last 10,000": {"top": {"by": "n", "k": 10_000, "order": "falling"}},
    }
    for form, more in asked.items():
        yield Pair(f"10 searches for {form}, and for a count", [*different, *searches("*", 10, **more)], plain)
    apart, near = (
        under("keyword", *adds([0, most] * 2_000, "n"), COMMIT, *searches("*", 10, groups="n")) for most in (65_535, 1)
    )
    name = "10 searches for groups by 0 and 65,535 in 2,000 segments (`--runs 2`), and by 0 and 1"
    yield Pair(name, apart, near, options=("--runs", "2"), plain_options=("--runs", "2"))


PARTS = {part.__name__: part for part in (terms, strikes, queries, phrases, lines, commits, fields, answers)}


def seconds(program: str, script: Script, options: Sequence[str]) -> float:
    """The processor time of a run, which answers each line that isn't blank."""
    with tempfile.TemporaryFile() as given, tempfile.TemporaryFile() as replies:
        written = [line if isinstance(line, str) else json.dumps(line) for line in script]
        given.write("".join(f"{line}\n" for line in written).encode())
        given.seek(0)
        run = subprocess.Popen([program, "run", *options], stdin=given, stdout=replies)
        _, status, used = os.wait4(run.pid, 0)
        run.returncode = os.waitstatus_to_exitcode(status)
        replies.seek(0)
        wanted = sum(1 for line in written if not line.isspace())
        told = replies.read().count(b"\n")
        assert (run.returncode, told) == (0, wanted), (run.returncode, told, wanted)
    taken: float = used.ru_utime + used.ru_stime
    return taken


def measured(program: str, pair: Pair) -> tuple[float, float]:
    """The least seconds of both scripts, which take turns."""
    each = [(seconds(program, pair.slow, pair.options), seconds(program, pair.plain, pair.plain_options)) for _ in range(TRIES)]
    return min(slow for slow, _ in each), min(plain for _, plain in each)


def bounded(program: str) -> int:
    """Looks at the pairs that have a bound, and returns how many these are."""
    pairs = [chosen_words(), deletes_of_one_term()]
    for pair in pairs:
        slow, plain = measured(program, pair)
        assert pair.bound and slow <= pair.bound * plain, (pair.name, slow, plain)
    return len(pairs)


def main() -> int:
    kept = broken = 0
    print("|made to be slow, and beside it|s|s|times|\n|---|---|---|---|")
    for part in sys.argv[1:] or PARTS:
        for pair in PARTS[part]():
            slow, plain = measured(PROGRAM, pair)
            told = ""
            if pair.bound:
                good = slow <= pair.bound * plain
                kept, broken = kept + good, broken + (not good)
                told = f" (at most {pair.bound})" if good else f" (MORE THAN {pair.bound})"
            print(f"|{pair.name}|{slow:.3f}|{plain:.3f}|{slow / plain:.1f}{told}|", flush=True)
    print(f"\n{kept} bounds kept, {broken} broken.")
    return 1 if broken else 0


if __name__ == "__main__":
    sys.exit(main())
