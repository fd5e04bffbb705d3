"""The indexes that bench/floor.py compares: `fts run`, loops in C++, CRoaring, FTS5, Lucene, Xapian and Groonga, as far as they are installed.

Each is given the same documents, is asked the same searches, and tells its answers in the same words. bench/peers has the programs.
"""
from __future__ import annotations

import glob
import json
import pathlib
import re
import shutil
import sqlite3
from functools import partial
from typing import Callable, Iterable, NamedTuple, Sequence

import corpus
import fts5
import searches
from programs import PROGRAM, ROOT, Session, run, succeeds
from searches import Search

PEERS = ROOT / "bench/peers"
# Where scratch files are kept in memory, if the system has such a place.
SHARED = "/dev/shm" if pathlib.Path("/dev/shm").is_dir() else None
CPP = ("g++", "-O2", "-march=x86-64-v2", "-std=c++20")
JARS = [*glob.glob("/usr/share/java/lucene-core-*.jar"), *glob.glob("/usr/share/java/lucene-analyzers-common-*.jar")]
# Of several rounds over the same searches the least time counts: there are ROUNDS of them, fewer if they took SECONDS before. Lucene's code is
# compiled as it runs, so it has more.
ROUNDS, MORE_ROUNDS, SECONDS = 2, 10, 0.3

FTS, BEFORE, PLAIN, PACKED, BITMAPS = "fts", "fts before", "plain arrays", "packed lists", "CRoaring"
LUCENE, SHIPPED = "Lucene", "Lucene as shipped"


class Index:
    """An index in a process that is given lines as bench/peers/requests.h says."""
    name = ""
    version = ""
    # Which forms of query, and what that is asked, it has nothing for: most programs read no clauses.
    lacks: frozenset[str] = frozenset({"clauses"})
    # Whether its top lists come with the number of hits.
    counts_top = True
    # What has everything before it answered.
    end_of_batch = [""]

    def __init__(self, documents: Iterable[corpus.Document], *command: str | pathlib.Path) -> None:
        self.session = Session(*command)
        self.session.ask([*("add\t{}\t{}\t{}\t{}".format(*document) for document in documents), ""], 1)

    def delete(self, prices: Sequence[int], numbers: Sequence[int]) -> None:
        """Deletes documents: those of these prices, which have these numbers."""
        self.session.ask([*(f"delete\t{number}" for number in numbers), ""], 1)

    def line(self, search: Search) -> str:
        return searches.line(search)

    def told(self, answer: str) -> str:
        return answer

    def once(self, asked: Sequence[Search]) -> tuple[list[str], float]:
        """The answers, and the microseconds of processor time of the process until they were there."""
        lines = [*map(self.line, asked), *self.end_of_batch]
        replies, micros = self.session.ask(lines, len(lines))
        return [self.told(reply) for reply in replies[:len(asked)]], micros

    def ask(self, asked: Sequence[Search]) -> tuple[list[str], float]:
        """The answers, and the least microseconds of several rounds."""
        times: list[float] = []
        while len(times) < ROUNDS and sum(times) < SECONDS * 1e6:
            answers, micros = self.once(asked)
            times.append(micros)
        return answers, min(times)

    def end(self) -> None:
        self.session.end()


def documents_as_lines(documents: Iterable[corpus.Document]) -> list[str]:
    """A script that adds the documents and commits them."""
    return [json.dumps(corpus.SCHEMA), *map(corpus.add, documents), '{"commit":true}']


class Fts(Index):
    """`fts run`, with the documents in one segment. What it took to get there is in `built`."""
    lacks = frozenset()
    end_of_batch: list[str] = []

    def __init__(self, documents: Iterable[corpus.Document], *guard: str, name: str = FTS, program: pathlib.Path = PROGRAM) -> None:
        self.name = name
        self.session = Session(*guard, program, "run")
        lines = documents_as_lines(documents)
        micros = self.session.ask(lines, len(lines))[1]
        committed = self.session.resident()
        self.session.ask(['{"merge":true}'], 1)
        self.built = {"seconds": micros / 1e6, "committed": committed, "merged": self.session.resident()}

    def delete(self, prices: Sequence[int], numbers: Sequence[int]) -> None:
        lines = [*(f'{{"delete":{{"price":{price}}}}}' for price in prices), '{"commit":true}']
        self.session.ask(lines, len(lines))

    def told(self, answer: str) -> str:
        return searches.told(answer)


def bitmaps_version() -> str:
    """CRoaring's version, by its header."""
    defined = run("g++", "-E", "-dM", "-x", "c++", "-include", "roaring/roaring.h", "/dev/null")
    found = re.search(r"#define ROARING_VERSION\D*([\d.]+)", defined)
    return found[1] if found else ""


class Loops(Index):
    """Loops over plain arrays or over packed lists, or CRoaring's bitmaps."""

    def __init__(self, name: str, program: str, documents: Iterable[corpus.Document], *guard: str) -> None:
        self.name = name
        form = {PLAIN: "plain", PACKED: "packed", BITMAPS: "bitmaps"}[name]
        if name == BITMAPS:
            self.lacks, self.version = self.lacks | {"range", "phrase"}, bitmaps_version()
        super().__init__(documents, *guard, program, form)


class Fts5(Index):
    name = "FTS5"
    version = sqlite3.sqlite_version
    lacks = frozenset()
    counts_top = False

    def __init__(self, documents: Iterable[corpus.Document]) -> None:
        self.table = fts5.Table(documents)

    def delete(self, prices: Sequence[int], numbers: Sequence[int]) -> None:
        self.table.delete(numbers)

    def once(self, asked: Sequence[Search]) -> tuple[list[str], float]:
        return self.table.ask(asked)

    def end(self) -> None:
        self.table.base.close()


class Lucene(Index):
    """Lucene: each search carried out, or as it is shipped, with its query cache and its shortcut for counts."""

    def __init__(self, name: str, documents: Iterable[corpus.Document], folder: str) -> None:
        self.name = name
        self.version = re.findall(r"[\d.]+\d", pathlib.Path(JARS[0]).stem)[-1]
        run("javac", "-cp", ":".join(JARS), "-d", folder, PEERS / "Lucene.java")
        form = "shipped" if name == SHIPPED else "plain"
        super().__init__(documents, "java", "-Xmx6g", "-cp", ":".join([folder, *JARS]), "Lucene", str(MORE_ROUNDS), str(SECONDS), form)

    def line(self, search: Search) -> str:
        return searches.tabbed(search)

    def ask(self, asked: Sequence[Search]) -> tuple[list[str], float]:
        replies = self.session.ask([*map(self.line, asked), ""], len(asked) + 1)[0]
        return replies[:-1], int(replies[-1]) / 1e3


class Xapian(Index):
    name = "Xapian"

    def __init__(self, documents: Iterable[corpus.Document], folder: str) -> None:
        self.version = run("xapian-config", "--version").split()[-1]
        flags = run("xapian-config", "--cxxflags", "--libs").split()
        run(*CPP, PEERS / "xapian.cpp", "-o", f"{folder}/xapian", *flags)
        super().__init__(documents, f"{folder}/xapian", f"{folder}/xapian.base")


class Groonga(Index):
    name = "Groonga"

    def __init__(self, documents: Iterable[corpus.Document], folder: str) -> None:
        self.version = run("pkg-config", "--modversion", "groonga").strip()
        flags = run("pkg-config", "--cflags", "--libs", "groonga").split()
        run(*CPP, PEERS / "groonga.cpp", "-o", f"{folder}/groonga", *flags)
        super().__init__(documents, f"{folder}/groonga", f"{folder}/groonga.base")

    def told(self, answer: str) -> str:
        """Groonga tells the number of hits, names and types of columns, hits; and the same of groups. Its documents begin with 1."""
        found = json.loads(answer)
        (count,), columns, *hits = found[0]
        groups = found[1][2:] if len(found) > 1 else []
        top = [f"{value}@{number - 1}" for value, number in hits] if len(columns) > 1 else []
        return " ".join([str(count), *(f"{value}:{many}" for value, many in groups), *top])


class Wanted(NamedTuple):
    """An index that is asked if it is there, and what to say if it isn't."""
    name: str
    is_there: Callable[[], bool]
    needs: str
    make: Callable[[list[corpus.Document], str], Index]


def has_bitmaps() -> bool:
    return succeeds("g++", "-fsyntax-only", "-x", "c++", "-include", "roaring/roaring.h", "/dev/null")


def has_lucene() -> bool:
    return bool(shutil.which("javac")) and len(JARS) == 2


def loops(folder: str) -> str:
    """The program of the loops, with CRoaring if that is installed."""
    program = f"{folder}/loops"
    if not pathlib.Path(program).exists():
        run(*CPP, PEERS / "loops.cpp", "-o", program, *(("-DBITMAPS", "-lroaring") if has_bitmaps() else ()))
    return program


def looped(name: str) -> Callable[[list[corpus.Document], str], Index]:
    return lambda documents, folder: Loops(name, loops(folder), documents)


WANTED = (
    Wanted(FTS, PROGRAM.exists, "it isn't built (README.md says how)", lambda documents, folder: Fts(documents)),
    Wanted(PLAIN, lambda: bool(shutil.which("g++")), "there is no g++", looped(PLAIN)),
    Wanted(PACKED, lambda: bool(shutil.which("g++")), "there is no g++", looped(PACKED)),
    Wanted(BITMAPS, has_bitmaps, "it isn't installed (Debian: libroaring-dev, and g++)", looped(BITMAPS)),
    Wanted("FTS5", fts5.is_there, "Python's SQLite has none", lambda documents, folder: Fts5(documents)),
    *(Wanted(name, has_lucene, "it isn't installed (Debian: liblucene8-java and a JDK)", partial(Lucene, name)) for name in (LUCENE, SHIPPED)),
    Wanted("Xapian", lambda: succeeds("xapian-config", "--version"), "it isn't installed (Debian: libxapian-dev, and g++)", Xapian),
    Wanted("Groonga", lambda: succeeds("pkg-config", "--exists", "groonga"), "it isn't installed (Debian: libgroonga-dev, pkg-config and g++)", Groonga),
)
NAMES = tuple(wanted.name for wanted in WANTED)


def gathered(documents: list[corpus.Document], folder: str, names: Sequence[str] = NAMES) -> tuple[list[Index], list[str]]:
    """The indexes of these names over the documents, and a sentence for each that isn't there."""
    wanted = [each for each in WANTED if each.name in names]
    missing = [f"{each.name} wasn't asked, since {each.needs}." for each in wanted if not each.is_there()]
    return [each.make(documents, folder) for each in wanted if each.is_there()], missing
