"""Times an index within a C and a Python program, beside the program `fts run --merge policy` and SQLite's FTS5.

    python3 bench/embed.py [DOCUMENTS] [SEARCHES]
    python3 bench/embed.py instructions [DOCUMENTS] [SEARCHES]
    python3 bench/embed.py package [DOCUMENTS]

Build the library (docs/EMBEDDING.md) and the program (README.md) first. The documents are those of bench/corpus.py,
100,000 without an argument, in one commit, and 1,000 searches a kind. Each number is microseconds a line, the least of
three runs; that of the program is its processor time, in which its reads and writes count. With the word `instructions` it counts those a line, by callgrind, of 3,000 documents and 500 searches a
kind, which other work on the machine doesn't change; Python is left out.

With the word `package` it times the calls of the Python package beside SQLite's FTS5 in memory, in microseconds of
processor time, the least of five runs: adds of 20,000 of the documents without their commit, by `add` and by
`add_many`, beside `execute` and `executemany`; and ten hits by a number over 100 documents of 20,000 words, with the
titles alone and with the whole documents. It needs the library and no program.
"""
from __future__ import annotations

import contextlib
import json
import pathlib
import random
import re
import sqlite3
import subprocess
import sys
import tempfile
import time
from collections.abc import Callable, Iterable, Iterator, Mapping
from typing import TYPE_CHECKING, Any

ROOT = pathlib.Path(__file__).resolve().parent.parent
COUNTS, PACKAGE = sys.argv[1:2] == ["instructions"], sys.argv[1:2] == ["package"]
GIVEN = [int(word) for word in sys.argv[1 + (COUNTS or PACKAGE):]]
USUAL = [20_000, 0] if PACKAGE else [3_000, 500] if COUNTS else [100_000, 1_000]
DOCUMENTS, SEARCHES = GIVEN + USUAL[len(GIVEN):]
LONG_DOCUMENTS, LONG_WORDS = 100, 20_000
sys.path[:0] = [str(ROOT / "bindings/python")]

import link  # noqa: E402
import corpus  # noqa: E402
import programs  # noqa: E402

if TYPE_CHECKING:
    import dilforec

PROGRAM = [str(programs.PROGRAM), "run", "--merge", "policy"]

CHANCE = random.Random(1)
# The name of a call, and its microseconds in the package and in FTS5.
Row = tuple[str, float, float]


def commands() -> Iterator[Mapping[str, object]]:
    """The lines of a script that adds the documents, with one commit."""
    yield corpus.SCHEMA
    for document in corpus.documents(DOCUMENTS):
        yield {"add": document._asdict()}
    yield {"commit": True}


def write(path: str, lines: Iterable[object]) -> None:
    with open(path, "w") as file:
        file.writelines(json.dumps(line) + "\n" for line in lines)


def searches(kind: str) -> Iterator[dict[str, object]]:
    for _ in range(SEARCHES):
        a, b = corpus.words(CHANCE, 2)
        n = CHANCE.randrange(corpus.LEAST_TEMP, corpus.LEAST_TEMP + corpus.TEMPS - 10)
        yield {"search": {
            "a term": {"query": a}, "+a +b": {"query": f"+{a} +{b}"},
            "groups": {"query": a, "groups": "temp"}, "a range": {"query": f"temp:[{n} TO {n + 9}]"},
            "top 10": {"query": a, "top": {"by": "price", "k": 10, "order": "falling"}},
        }[kind]}


KINDS = ("a term", "+a +b", "groups", "top 10", "a range")


def instructions(words: list[str], **settings: Any) -> int:
    """How many instructions a run takes."""
    told = subprocess.run(["valgrind", "--tool=callgrind", "--callgrind-out-file=/dev/null", *words], check=True,
                          stdout=subprocess.DEVNULL, stderr=subprocess.PIPE, text=True, **settings)
    collected = re.search(r"Collected : (\d+)", told.stderr)
    assert collected
    return int(collected[1])


def whole(folder: str, name: str) -> str:
    """The path of a file with the documents, and the lines of another one after them."""
    with open(f"{folder}/both", "wb") as both:
        for part in ("documents", name) if name != "documents" else ("documents",):
            both.write(pathlib.Path(folder, part).read_bytes())
    return f"{folder}/both"


def by_program(folder: str, names: list[str]) -> list[float]:
    """Microseconds of processor time a line, of the documents and then of each file, the least of three runs."""
    def once() -> Iterator[float]:
        session = programs.Session(*PROGRAM)
        for name in ("documents", *names):
            lines = pathlib.Path(folder, name).read_text("utf-8").splitlines()
            yield session.ask(lines, len(lines))[1] / len(lines)
        session.end()

    return [min(times) for times in zip(*(list(once()) for _ in range(3)))]


def by_c(program: str, folder: str, names: list[str]) -> list[float]:
    words = [program, *(f"{folder}/{name}" for name in ("documents", *names))]
    runs = [subprocess.run(words, check=True, capture_output=True, text=True).stdout.split() for _ in range(3)]
    return [min(float(run[place]) for run in runs) / 1e3 for place in range(len(names) + 1)]


def by_python(folder: str, names: list[str]) -> list[float]:
    import dilforec

    def once() -> Iterator[float]:
        with dilforec.Index() as index:
            for name in ("documents", *names):
                lines = pathlib.Path(folder, name).read_bytes().splitlines()
                began = time.perf_counter()
                for line in lines:
                    index.execute(line)
                yield (time.perf_counter() - began) / len(lines) * 1e6

    return [min(times) for times in zip(*(list(once()) for _ in range(3)))]


def count(program: str, folder: str) -> None:
    """Prints thousands of instructions a line, by the program and by C."""
    def counted(name: str) -> tuple[int, int]:
        names = [name] if name == "documents" else ["documents", name]
        with open(whole(folder, name)) as lines:
            return instructions(PROGRAM, stdin=lines), instructions([program, *(f"{folder}/{part}" for part in names)])

    alone = counted("documents")
    lines = sum(1 for _ in open(f"{folder}/documents"))
    print(f"{DOCUMENTS:,} documents, {SEARCHES:,} searches a kind; thousands of instructions a line.\n")
    print("|line|`fts run`|C|\n|---|---|---|")
    row("an add", *(total / lines / 1e3 for total in alone))
    for number, kind in enumerate(KINDS):
        both = counted(str(number))
        row(kind, *((more - less) / SEARCHES / 1e3 for more, less in zip(both, alone)))


def row(name: str, *numbers: float) -> None:
    """Prints a row of a table in Markdown."""
    print(f"|{name}|{'|'.join(f'{number:.2f}' for number in numbers)}|", flush=True)


def processor_time(of: Callable[[], object]) -> float:
    """The seconds of this process that a call takes, the least of five."""
    def once() -> float:
        began = time.process_time()
        of()
        return time.process_time() - began

    return min(once() for _ in range(5))


def adds() -> list[Row]:
    """Microseconds of processor time an add takes in this package and in FTS5, one alone and one of many."""
    import dilforec

    documents = [document._asdict() for document in corpus.documents(DOCUMENTS)]
    rows = [tuple(document.values()) for document in documents]
    fields = [dilforec.Field(**field) for field in corpus.SCHEMA["schema"]]

    def into_index(add: Callable[[dilforec.Index], object]) -> float:
        def run() -> None:
            with dilforec.Index(*fields) as index:
                add(index)
        return processor_time(run) / len(documents) * 1e6

    def into_table(add: Callable[[sqlite3.Connection], object]) -> float:
        def run() -> None:
            with contextlib.closing(sqlite3.connect(":memory:", isolation_level=None)) as base:
                base.execute("create virtual table d using fts5(body, tag unindexed, price unindexed, temp unindexed)")
                base.execute("begin")
                add(base)
                base.execute("commit")
        return processor_time(run) / len(documents) * 1e6

    insert = "insert into d values (?, ?, ?, ?)"
    return [
        ("an add", into_index(lambda index: [index.add(document) for document in documents]),
         into_table(lambda base: [base.execute(insert, row) for row in rows])),
        ("an add of many", into_index(lambda index: index.add_many(documents)),
         into_table(lambda base: base.executemany(insert, rows))),
    ]


def titles() -> list[Row]:
    """Microseconds of processor time a top list of ten takes over long documents, with the titles alone and whole."""
    import dilforec

    title = [" ".join(corpus.words(CHANCE, 5)) for _ in range(LONG_DOCUMENTS)]
    text = [" ".join(corpus.words(CHANCE, LONG_WORDS)) for _ in range(10)]
    top = dilforec.Top("n", 10)
    with dilforec.Index(dilforec.text("title", True), dilforec.text("body"), dilforec.u64("n")) as index:
        index.add_many({"title": f"all {title[n]}", "body": text[n % 10], "n": n} for n in range(LONG_DOCUMENTS))
        index.commit()
        with contextlib.closing(sqlite3.connect(":memory:")) as base:
            base.execute("create virtual table d using fts5(title, body, n unindexed)")
            base.executemany("insert into d values (?, ?, ?)",
                             ((f"all {title[n]}", text[n % 10], n) for n in range(LONG_DOCUMENTS)))

            def asked(columns: str) -> Callable[[], object]:
                query = f"select {columns} from d where title match 'all' order by n limit 10"
                return lambda: base.execute(query).fetchall()

            return [
                ("ten titles", processor_time(lambda: index.search("all", top=top, fields=["title"])) * 1e6,
                 processor_time(asked("title")) * 1e6),
                ("ten documents", processor_time(lambda: index.search("all", top=top)) * 1e6,
                 processor_time(asked("title, body")) * 1e6),
            ]


def package() -> None:
    """Prints a row for each call of the package, beside FTS5."""
    print(f"{DOCUMENTS:,} documents; ten hits by a number over {LONG_DOCUMENTS} documents of {LONG_WORDS:,} words. Microseconds of "
          "processor time a call.\n")
    print("|call|dilforec|FTS5|\n|---|---|---|")
    for rows in adds, titles:
        for each in rows():
            row(*each)


def main() -> None:
    link.link()
    if PACKAGE:
        return package()
    with tempfile.TemporaryDirectory() as folder:
        write(f"{folder}/documents", commands())
        for number, kind in enumerate(KINDS):
            write(f"{folder}/{number}", searches(kind))
        program = f"{folder}/embed"
        made_of = [ROOT / "bench/embed.c", link.ARCHIVE]
        subprocess.run(["cc", "-O2", "-I", ROOT / "bindings/c", "-o", program, *made_of], check=True)
        if COUNTS:
            return count(program, folder)
        names = [str(number) for number in range(len(KINDS))]
        columns = by_program(folder, names), by_c(program, folder, names), by_python(folder, names)
        print(f"{DOCUMENTS:,} documents in one commit, {SEARCHES:,} searches a kind; microseconds a line: of `fts run` its processor time, of "
              "`dilforec_execute` and `Index.execute` by the clock.\n")
        print("|line|`fts run --merge policy`|C|Python|\n|---|---|---|---|")
        for kind, *numbers in zip(("an add", *KINDS), *columns):
            row(f"`{kind}`" if kind.startswith("+") else kind, *numbers)


if __name__ == "__main__":
    main()
