#!/usr/bin/env python3
"""Times updates by a key of an index within a program, beside SQLite's FTS5 in memory and Lucene, and commits of one add without merges.

    python3 bench/updates.py [DOCUMENTS] [UPDATES]
    python3 bench/updates.py policies [DOCUMENTS] [UPDATES]

Build the library (docs/EMBEDDING.md) and the program (README.md) first, or name the program in $FTS. Lucene is asked where it is installed (of
Debian liblucene8-java with a JDK). The documents are those of bench/corpus.py with one keyword more, their key: DOCUMENTS (100,000) are added in one
commit, and UPDATES (20,000) of them follow, each of a key by chance, one a commit and ten a commit. An update deletes the document of the key
and adds another. Each program is a process of its own. Times are microseconds of processor time of the process from the first line of a commit's
updates until it has ended and a search would find them; memory is what is resident, less what was before the index was opened. In one of the
columns commits merge no segment of more than LIMIT documents, and another thread merges the rest, whose time isn't counted.

Then commits of one add each are made by `fts run --merge off` and `--merge policy`: seconds of processor time of the whole run.

With the word `policies` nothing is timed: a model tells what merges by other numbers would move and keep, of commits of ten updates.
"""
from __future__ import annotations

import itertools
import json
import pathlib
import random
import resource
import shutil
import sqlite3
import statistics
import subprocess
import sys
import tempfile
import threading
import time
from typing import Any, Callable, Iterable, Iterator, NamedTuple, Protocol

import corpus
import picture
from floor_table import number, table
from indexes import JARS, PEERS, SHARED
from programs import PROGRAM, ROOT, resident_of, run

EACH = (1, 10)
ADDS = (2_500, 5_000, 10_000, 20_000)
LIMIT = 1_000
# How often memory is looked at while updates are made.
LOOKS = 20
SCHEMA = {"schema": [*corpus.SCHEMA["schema"], {"name": "key", "kind": "keyword"}]}


class Update(NamedTuple):
    key: str
    document: corpus.Document
    # The document with its key, as the package takes it.
    fields: dict[str, Any]


def update_of(number: int, document: corpus.Document) -> Update:
    key = f"k{number}"
    return Update(key, document, {**document._asdict(), "key": key})


class Updated(Protocol):
    """An index that documents are updated in."""

    def add(self, update: Update) -> None: ...

    def update(self, update: Update) -> None: ...

    def commit(self) -> None: ...

    def segments(self) -> int | None: ...


class Embedded:
    """The index within this program, through the Python package."""

    def __init__(self) -> None:
        sys.path[:0] = [str(ROOT / "bindings/python")]
        import dilforec
        self.index: Any = dilforec.Index()
        self.index.execute(json.dumps(SCHEMA))

    def add(self, update: Update) -> None:
        self.index.add(update.fields)

    def update(self, update: Update) -> None:
        self.index.replace("key", update.key, update.fields)

    def commit(self) -> None:
        self.index.commit()

    def segments(self) -> int | None:
        """How many segments there are, if the package tells."""
        tell = getattr(self.index, "stats", None)
        if tell is None:
            return None
        told = tell()
        return int(told["segments"] if isinstance(told, dict) else told.segments)


class Beside(Embedded):
    """The same, with the large merges in another thread."""

    def __init__(self) -> None:
        super().__init__()
        self.index.limit_merges(LIMIT)
        self.running: threading.Thread | None = None

    def commit(self) -> None:
        super().commit()
        if self.running and not self.running.is_alive():
            self.index.end_merge()
            self.running = None
        merge = None if self.running else self.index.begin_merge()
        if merge:
            self.running = threading.Thread(target=merge.run)
            self.running.start()


class Fts5:
    """SQLite's FTS5 with the columns in a table beside it, of which one is the key."""

    def __init__(self) -> None:
        self.base = sqlite3.connect(":memory:", isolation_level=None)
        self.base.execute("create virtual table docs using fts5(body)")
        self.base.execute("create table columns (tag text, price integer, temp integer, key text unique)")
        self.base.execute("begin")

    def add(self, update: Update) -> None:
        body, *columns = update.document
        row = self.base.execute("insert into columns values (?, ?, ?, ?)", (*columns, update.key)).lastrowid
        self.base.execute("insert into docs(rowid, body) values (?, ?)", (row, body))

    def update(self, update: Update) -> None:
        for row in self.base.execute("delete from columns where key = ? returning rowid", (update.key,)).fetchall():
            self.base.execute("delete from docs where rowid = ?", row)
        self.add(update)

    def commit(self) -> None:
        self.base.execute("commit")
        self.base.execute("begin")

    def segments(self) -> int | None:
        return None


BESIDE = "merges beside"
PROGRAMS: dict[str, Callable[[], Updated]] = {"Dilforec": Embedded, BESIDE: Beside, "FTS5": Fts5}


def added(count: int) -> Iterator[Update]:
    return (update_of(place, document) for place, document in enumerate(corpus.documents(count)))


def updates(count: int, of: int) -> Iterator[Update]:
    """So many updates of keys by chance."""
    chance = random.Random(3)
    return (update_of(chance.randrange(of), document) for document in corpus.documents(count, seed=4))


def batches(given: Iterable[Update], each: int) -> Iterator[list[Update]]:
    left = iter(given)
    while some := list(itertools.islice(left, each)):
        yield some


def commit(index: Updated, some: list[Update], clock: Callable[[], int]) -> float:
    """The microseconds of a commit of updates, by a clock of nanoseconds."""
    began = clock()
    for update in some:
        index.update(update)
    index.commit()
    return (clock() - began) / 1e3


def timed(name: str, count: int, given: int, each: int) -> dict[str, Any]:
    """What updates take in this process."""
    before = resident_of("self")
    index = PROGRAMS[name]()
    clock = time.thread_time_ns if name == BESIDE else time.process_time_ns
    for update in added(count):
        index.add(update)
    index.commit()
    memory, segments, times = [resident_of("self") - before], [index.segments()], []
    look = max(1, given // each // LOOKS)
    for place, some in enumerate(batches(updates(given, count), each), 1):
        times.append(commit(index, some, clock))
        if place % look == 0:
            memory.append(resident_of("self") - before)
            segments.append(index.segments())
    return {"times": times, "memory": memory, "segments": segments}


def told(raw: dict[str, Any]) -> dict[str, Any]:
    """What is kept of the times: the mean, the median, those of 99 of 100, and the most."""
    micros = sorted(raw["times"])
    kept = [statistics.mean(micros), statistics.median(micros), micros[len(micros) * 99 // 100], micros[-1]]
    return {"times": kept, "memory": raw["memory"], "segments": raw["segments"]}


def alone(name: str, *numbers: int) -> dict[str, Any]:
    """The same in a process of its own."""
    raw: dict[str, Any] = json.loads(run(sys.executable, __file__, "of", name, *map(str, numbers)))
    return told(raw)


def tabbed(update: Update) -> str:
    return "\t".join(map(str, (update.key, *update.document))) + "\n"


def lucene(folder: str, count: int, given: int, each: int) -> dict[str, Any]:
    """What updates take in Lucene, its threads that merge counted."""
    text = "".join(map(tabbed, itertools.chain(added(count), updates(given, count))))
    command = ["java", "-Xmx4g", "-cp", ":".join([folder, *JARS]), "LuceneUpdates", str(count), str(each), str(LOOKS)]
    said = subprocess.run(command, input=text, stdout=subprocess.PIPE, text=True, check=True).stdout
    lines = [line.split() for line in said.splitlines()]
    return told({
        "times": [int(line[1]) / 1e3 for line in lines if line[0] == "commit"],
        "memory": [int(line[1]) / 1e6 for line in lines if line[0] == "look"],
        "segments": [int(line[2]) for line in lines if line[0] == "look"],
    })


def adds(folder: str, count: int, policy: str) -> float:
    """The seconds of processor time of a run that adds documents, each in a commit of its own."""
    path = pathlib.Path(folder, "adds")
    with path.open("w") as file:
        file.write(json.dumps(corpus.SCHEMA) + "\n")
        file.writelines(f'{corpus.add(document)}\n{{"commit":true}}\n' for document in corpus.documents(count))
    before = resource.getrusage(resource.RUSAGE_CHILDREN)
    with path.open() as file:
        subprocess.run([str(PROGRAM), "run", "--merge", policy], stdin=file, stdout=subprocess.DEVNULL, check=True)
    after = resource.getrusage(resource.RUSAGE_CHILDREN)
    return after.ru_utime - before.ru_utime + after.ru_stime - before.ru_stime


def measure(count: int = 100_000, given: int = 20_000) -> dict[str, Any]:
    """What commits take and what is resident as they go on, by the number of updates a commit and by program; and the seconds of runs of adds."""
    raw: dict[str, Any] = {"documents": count, "updates": given, "each": {str(each): {} for each in EACH}, "adds": {}}
    with tempfile.TemporaryDirectory(dir=SHARED) as folder:
        has_lucene = bool(shutil.which("javac")) and len(JARS) == 2
        if has_lucene:
            run("javac", "-cp", ":".join(JARS), "-d", folder, PEERS / "LuceneUpdates.java")
        for each in EACH:
            rows = raw["each"][str(each)]
            rows.update((name, alone(name, count, given, each)) for name in PROGRAMS)
            if has_lucene:
                rows["Lucene"] = lucene(folder, count, given, each)
        for policy in ("off", "policy"):
            raw["adds"][policy] = {str(some): adds(folder, some, policy) for some in ADDS}
    return raw


def ends(values: list[Any]) -> tuple[Any, Any]:
    """The most and the last of those that are known."""
    known = [value for value in values if value is not None]
    return (max(known), known[-1]) if known else (None, None)


def shown(raw: dict[str, Any]) -> str:
    parts = [f"{raw['documents']:,} documents with a key each, and {raw['updates']:,} updates of keys by chance. Microseconds of processor time of "
             "a commit with its updates; megabytes that are resident, less those before the index was opened, and of Lucene those in use in its "
             f"heap once it was swept. '{BESIDE.capitalize()}': commits merge segments of {LIMIT:,} documents at most, and another thread, whose time "
             "isn't counted, the rest. Lucene's clock, that of its process, has ticks of 10 ms, so its mean says more than its median."]
    for each, programs in raw["each"].items():
        rows = [[f"a commit, {name}", *(number(told["times"][place]) for told in programs.values())]
                for place, name in enumerate(("mean", "median", "99 of 100 at most", "the slowest"))]
        for name in ("memory", "segments"):
            looked = [ends(told[name]) for told in programs.values()]
            rows += [[f"{name}, {word}", *(number(pair[place]) for pair in looked)] for place, word in enumerate(("the most", "at the end"))]
        rows.append(["memory before the updates", *(number(told["memory"][0]) for told in programs.values())])
        parts.append(f"### {each} update{'s' if int(each) > 1 else ''} a commit\n\n" + table(["", *programs], rows))
    runs = raw["adds"]
    parts.append("### Commits of one add\n\nSeconds of processor time of a whole run of `fts run`.\n\n" + table(
        ["commits", *(f"`--merge {policy}`" for policy in runs)], [[f"{int(count):,}", *(number(runs[policy][count]) for policy in runs)]
                                                                   for count in next(iter(runs.values()))]))
    return "\n\n".join(parts)


def draw(raw: dict[str, Any], path: pathlib.Path) -> None:
    """Draws what is resident as updates go on, of commits of ten."""
    memory = {name: [value for value in told_of["memory"] if value is not None] for name, told_of in raw["each"]["10"].items()}
    picture.lines(path, {name: values for name, values in memory.items() if values}, raw["updates"], "updates", "MB")


class Policy(NamedTuple):
    floor: int
    members: int
    most: int
    dead: int


class Size(NamedTuple):
    docs: int
    live: int


def levels(policy: Policy, sizes: list[Size]) -> list[list[int]]:
    """The places of the segments of each level, as the definitions say."""
    counted = sorted((-max(policy.floor, size.live), place) for place, size in enumerate(sizes) if size.live <= policy.most)
    made: list[list[int]] = []
    first = 0
    for size, place in counted:
        if not made or first ** 4 > 8 * size ** 4:
            made.append([])
            first = size
        made[-1].append(place)
    return made


def plan(policy: Policy, sizes: list[Size]) -> list[list[int]]:
    """What is merged after a commit: each large level, and one segment of too many dead documents by itself."""
    together = [level for level in levels(policy, sizes) if len(level) >= policy.members]
    named = set(itertools.chain(*together))
    dead = [[place] for place, size in enumerate(sizes) if place not in named and policy.dead * size.docs < 100 * (size.docs - size.live)]
    return together + dead[:1]


def modelled(policy: Policy, count: int, given: int, each: int = 10) -> list[float]:
    """Of commits of updates: how many documents a commit's merges move on average, of 999 in 1,000 at most, and at most; how many segments there
    are; and how many documents are kept for 100 live ones. The latter two are means of the second half."""
    chance = random.Random(1)
    sizes = [Size(some, some) for some in (min(65_536, count), count - min(65_536, count)) if some]
    moved: list[int] = []
    kept: list[tuple[int, int]] = []
    for _ in range(given // each):
        for place in chance.choices(range(len(sizes)), [size.live for size in sizes], k=each):
            sizes[place] = sizes[place]._replace(live=max(0, sizes[place].live - 1))
        sizes = [size for size in [*sizes, Size(each, each)] if size.live]
        merges = plan(policy, sizes)
        made = [sum(sizes[place].live for place in candidate) for candidate in merges]
        gone = set(itertools.chain(*merges))
        sizes = [size for place, size in enumerate(sizes) if place not in gone] + [Size(live, live) for live in made]
        moved.append(sum(made))
        kept.append((len(sizes), sum(size.docs for size in sizes)))
    half = kept[len(kept) // 2:]
    rising = sorted(moved)
    return [statistics.mean(moved), rising[len(rising) * 999 // 1000], rising[-1], statistics.mean(segments for segments, _ in half),
            statistics.mean(docs for _, docs in half) * 100 / count]


def policies(count: int = 100_000, given: int = 100_000) -> str:
    numbers = itertools.product((30, 100, 300, 10_000), (4, 7, 10), (20, 33, 50, 100))
    tried = [Policy(floor, members, 1_000_000, dead) for floor, members, dead in numbers]
    rows = [[*map(str, (policy.floor, policy.members, policy.dead)), *map(number, modelled(policy, count, given))] for policy in tried]
    return table(["floor", "members", "dead, %", "moved", "999 of 1,000", "the most", "segments", "kept of 100"], rows)


def main() -> None:
    words = sys.argv[1:]
    if words[:1] == ["of"]:
        json.dump(timed(words[1], *map(int, words[2:])), sys.stdout)
    elif words[:1] == ["policies"]:
        print(policies(*map(int, words[1:])))
    else:
        print(shown(measure(*map(int, words))))


if __name__ == "__main__":
    main()
