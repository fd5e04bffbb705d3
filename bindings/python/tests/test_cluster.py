"""Partitions on four Dask workers beside one index over the same lines; workers are killed, and sources change.

Replies are also compared with what dilforec.joins makes of each partition's own.

It needs `distributed`. tests/cluster.py runs it, and prints what it counted.
"""
from __future__ import annotations

import asyncio
import contextlib
import functools
import gzip
import io
import json
import lzma
import os
import pathlib
import pickle
import random
import signal
import sys
import tempfile
import threading
import time
import unittest
from collections.abc import Callable, Collection, Iterable, Iterator, Sequence
from concurrent.futures import ThreadPoolExecutor
from typing import Any
from unittest import mock

from distributed import Client
from distributed.scheduler import KilledWorker
from distributed.worker_state_machine import FreeKeysEvent

import dilforec
import machines
from dilforec import joins
from dilforec.cluster import (
    Cluster, Documents, JsonLines, PartitionLost, Refusal, Script, Search, Source, SourceChanged, SourceRefused,
    SourceUnreadable, _connections, _gathering, _partials, _plan, _requests, _responder, _rounds, _sources,
)
from dilforec.index import channel_of

ROOT = pathlib.Path(__file__).resolve().parents[3]
sys.path[:0] = [str(ROOT / "tests")]

import random_scripts  # noqa: E402

Document = dict[str, Any]
Call = Callable[[], object]

# What setUpModule makes; the client is Dask's.
KEEP: tempfile.TemporaryDirectory[str]
FOLDER: pathlib.Path
MACHINES: machines.Machines
CLIENT: Any

SCHEMA = (
    dilforec.text("title", default=True), dilforec.keyword("tag", default=True), dilforec.u64("price"),
    dilforec.i64("temp"),
)
CUTTINGS = int(os.environ.get("DILFOREC_CUTTINGS", 120))
DOCUMENTS = int(os.environ.get("DILFOREC_DOCUMENTS", 400_000))
# Of the kinds of sources of random documents, the one that has commits of its own, after so many of them.
SCRIPT, COMMIT = 2, 5
WORDS = [f"w{number}" for number in range(300)]
# Texts that might be taken for a part of a reply.
AWKWARD = [
    'a},"stamp":1,"value":2}', '{"doc":{', ',"top":[', '"\\', "é\u2028\U0001f600", "\x00\x1f\x7f\t", "plain", "}]}", 'a",1],["b', '],["', '[["',
    "a],[", '",', "%d", "a\nb",
]


def setUpModule() -> None:
    global KEEP, FOLDER, MACHINES, CLIENT
    KEEP = tempfile.TemporaryDirectory()
    FOLDER = pathlib.Path(KEEP.name)
    MACHINES = machines.Machines(FOLDER)
    CLIENT = MACHINES.client


def tearDownModule() -> None:
    MACHINES.close()
    KEEP.cleanup()


def cluster(sources: Iterable[str | os.PathLike[str] | Source], **settings: Any) -> Cluster:
    return Cluster(CLIENT, SCHEMA, sources, progress=False, **settings)


def written(name: str, lines: Iterable[bytes]) -> str:
    """A file of these lines."""
    path = FOLDER / name
    path.write_bytes(b"".join(line + b"\n" for line in lines))
    return str(path)


def line(command: object) -> bytes:
    return json.dumps(command).encode()


@contextlib.contextmanager
def killing(count: int, states: str) -> Iterator[None]:
    """Kills workers in the middle of what is done meanwhile, and then starts others."""
    over = threading.Event()
    with ThreadPoolExecutor(1) as thread:
        killed = thread.submit(MACHINES.kill_soon, count, states, over.is_set)
        try:
            yield
        finally:
            over.set()
    MACHINES.four()
    assert killed.result() == count, "it was over before"


def listed(documents: list[Document]) -> Callable[[], list[Document]]:
    """A function that gives these documents."""
    given: functools.partial[list[Document]] = functools.partial(list, documents)
    return given


def index_of(documents: Sequence[Document], kind: int = 0) -> dilforec.Index:
    """An index of its own, as the partition of a source of these documents is."""
    index, step = dilforec.Index(*SCHEMA), COMMIT if kind == SCRIPT else len(documents) + 1
    for first in range(0, len(documents) + 1, step):
        index.add_many(documents[first:first + step])
        index.commit()
    return index


def made(first: int, last: int) -> Iterator[Document]:
    """Documents that are the same each time. No two have one price."""
    chance = random.Random(first)
    for number in range(first, last):
        title = " ".join(chance.choices(WORDS, k=4))
        yield {"title": title, "tag": f"t{number % 997}", "price": number, "temp": number % 101 - 50}


def made_in_turn(firsts: Iterable[int], step: int) -> Iterator[Document]:
    for first in firsts:
        yield from made(first, first + step)


def source(first: int, last: int) -> Documents:
    return Documents(f"{first}", functools.partial(made, first, last))


def searches(seed: int) -> list[dict[str, Any]]:
    """Searches of each kind, those of a random script among them."""
    chance = random.Random(seed)
    asked = [random_scripts.search(chance)["search"] for _ in range(6)]
    asked.append({"query": "*", "groups": "tag", "top": {"by": "temp", "k": 5, "order": "falling"}})
    return asked


def without(search: dict[str, Any], *names: str) -> bytes:
    return line({"search": {name: value for name, value in search.items() if name not in names}})


class Exact(unittest.TestCase):
    def setUp(self) -> None:
        MACHINES.four()

    def compare(self, one: dilforec.Index, many: Cluster, asked: list[dict[str, Any]]) -> None:
        """Counts, groups and refusals are one index's to the byte; top lists have its values."""
        lines = [without(search, "top") for search in asked] + [line({"search": search}) for search in asked]
        with one.searcher() as searcher:
            of_one = [searcher.execute(each) for each in lines]
        of_many = many._channel.ask_each(lines, None)
        self.assertEqual(of_many[:len(asked)], of_one[:len(asked)])
        for mine, theirs in zip(map(json.loads, of_many[len(asked):]), map(json.loads, of_one[len(asked):])):
            values = [hit["value"] for hit in theirs.get("top", [])]
            self.assertEqual([hit["value"] for hit in mine.get("top", [])], values)
            if len(set(values)) == len(values) and values:
                # The last may be one of several with its value.
                documents = [[hit["doc"] for hit in reply["top"]][:-1] for reply in (mine, theirs)]
                self.assertEqual(documents[0], documents[1])

    def compare_bytes(
        self, names: list[str], indexes: list[dilforec.Index], many: Cluster, asked: list[dict[str, Any]],
    ) -> None:
        """Replies are the bytes that joins makes of each partition's own. A refused line gets its refusal."""
        search = {"query": "*", "top": {"by": "temp", "k": 1_000, "order": "rising"}}
        commands: list[tuple[dict[str, Any], bytes | None]] = [({"search": search}, None) for search in asked]
        commands += [({"search": search}, b'["title"]'), ({"search": search, "x": 1}, None)]
        with contextlib.ExitStack() as stack:
            searchers = [stack.enter_context(index).searcher() for index in indexes]
            for command, fields in commands:
                own = [channel_of(searcher).ask_each([line(command)], fields)[0] for searcher in searchers]
                expected = own[0]
                if own[0].startswith(b'{"count"'):
                    marks = [{"source": name} for name in names]
                    expected = joins.encoded(joins.answer(command["search"], list(map(json.loads, own)), marks))
                self.assertEqual(many._channel.ask_each([line(command)], fields), [expected])

    def test_bytes(self) -> None:
        """Long top lists, of which partitions are asked for a few hits first: dealt out, by rising values, with ties."""
        for seed, values in enumerate((10**6, 40, 1)):
            chance = random.Random(seed)
            every: list[Document] = [
                {"title": chance.choice(AWKWARD), "tag": chance.choice(AWKWARD), "temp": chance.randrange(values)}
                for _ in range(2_000)]
            for documents in every, sorted(every, key=lambda document: int(document["temp"])):
                parts = [documents[first:first + 250] for first in range(0, 2_000, 250)]
                names = [f'{place} "é"' for place in range(8)]
                with cluster(Documents(*each) for each in zip(names, map(listed, parts))) as many:
                    asked = [{"query": "*", "top": {"by": "temp", "k": k, "order": order}, "groups": "tag"}
                             for k in (1, 100, 700, 10_000) for order in ("rising", "falling")]
                    self.compare_bytes(names, list(map(index_of, parts)), many, asked)

    def test_random_cuttings(self) -> None:
        """The documents of random scripts, cut anyhow into files and functions; every other time, workers ask workers."""
        compared = 0
        fan_out = mock.patch.object(_requests, "FAN_OUT", 1)
        for seed in range(CUTTINGS):
            chance = random.Random(seed)
            commands = [random_scripts.document(chance) for _ in range(chance.randrange(60))]
            parts: list[list[Document]] = [[] for _ in range(chance.randint(1, 5))]
            for document in commands:
                chance.choice(parts).append(document)
            kinds = [chance.randrange(3) for _ in parts]
            sources = [self.source(f"{seed}.{place}", part, kinds[place]) for place, part in enumerate(parts)]
            between: contextlib.AbstractContextManager[Any] = contextlib.nullcontext()
            if seed % 2:
                between = fan_out
            with dilforec.Index(*SCHEMA) as one, cluster(sources) as many, between:
                for document in commands:
                    one.add(document)
                one.commit()
                asked = searches(seed)
                self.compare(one, many, asked)
                self.compare_bytes([each.name for each in sources], list(map(index_of, parts, kinds)), many, asked)
                self.assertEqual(sum(count.documents for count in many.counts().values()), len(commands))
            compared += 1
        print(f"cluster: {compared} random cuttings compared")

    def source(self, name: str, documents: list[Document], kind: int) -> Source:
        if kind == 0:
            return Documents(name, listed(documents))
        if kind == 1:
            return JsonLines(written(name, map(line, documents)))
        lines = [line({"add": document}) for document in documents]
        for place in range(len(lines) // COMMIT * COMMIT, 0, -COMMIT):
            lines.insert(place, b'{"commit":true}')
        return Script(written(name, lines))

    def test_many_documents(self) -> None:
        """Many documents over 8 partitions; workers are killed while they are searched, and then two at once."""
        step = DOCUMENTS // 8
        asked: list[dict[str, Any]] = [
            {"query": "w1"}, {"query": "+w1 +w2", "groups": "tag"}, {"query": "temp:[-3 TO 3] w7", "groups": "temp"},
            {"query": "w5", "top": {"by": "price", "k": 50, "order": "falling"}},
            {"query": "*", "groups": "temp", "top": {"by": "price", "k": 3, "order": "rising"}},
        ]
        began = time.monotonic()
        with cluster(source(first, first + step) for first in range(0, 8 * step, step)) as many:
            built = time.monotonic() - began
            with dilforec.Index(*SCHEMA) as one:
                for first in range(0, 8 * step, step):
                    one.add_many(made(first, first + step))
                    one.commit()
                self.compare(one, many, asked)
                for count in 1, 2:
                    with killing(count, "has_what"):
                        for _ in range(4):
                            self.compare(one, many, asked)
        print(f"cluster: {8 * step:,} documents in 8 partitions, built in {built:.1f} s; right while workers died")

    def test_killed_while_building(self) -> None:
        """Workers that die while they make partitions."""
        step = DOCUMENTS // 50
        firsts = range(0, 8 * step, step)
        with dilforec.Index(*SCHEMA) as one:
            one.add_many(made_in_turn(firsts, step))
            one.commit()
            for count in 1, 2:
                with killing(count, "processing"), cluster(source(first, first + step) for first in firsts) as many:
                    self.compare(one, many, [{"query": "w1", "groups": "tag"}, {"query": "*"}])

    def test_killed_meanwhile(self) -> None:
        """Workers that die before a search, while it waits for them, and after it."""
        with cluster(source(first, first + 100) for first in range(0, 800, 100)) as many:
            expected = many.search("*", groups="tag")
            for count in 1, 3:
                MACHINES.kill(MACHINES.with_partitions("has_what")[:count])
                MACHINES.four()
                self.assertEqual(many.search("*", groups="tag"), expected)
                with slow_answers(1.5), ThreadPoolExecutor(1) as thread:
                    answer = thread.submit(many.search, "*", groups="tag")
                    time.sleep(0.5)
                    MACHINES.kill(MACHINES.with_partitions("has_what")[:count])
                    MACHINES.four()
                    self.assertEqual(answer.result(), expected)
                self.assertEqual(many.search("*", groups="tag"), expected)

    def test_deadly(self) -> None:
        """A source that ends every worker that reads it: Dask gives up, and says so."""
        CLIENT.run_on_scheduler(_allow, 1)
        try:
            self.assertRaises(KilledWorker, cluster, [source(0, 10), Documents("deadly", _die)])
        finally:
            CLIENT.run_on_scheduler(_allow, 10)


@contextlib.contextmanager
def trees_of(fan_out: int) -> Iterator[list[_requests.Node]]:
    """Workers ask so few others, from now on. The workers that the client asked itself, and those below."""
    nodes: list[_requests.Node] = []

    def trees(*given: Any) -> list[_requests.Node]:
        made = _requests.trees(*given)
        nodes.extend(made)
        return made

    with mock.patch.object(_requests, "FAN_OUT", fan_out), mock.patch.object(_gathering, "trees", trees):
        yield nodes


@contextlib.contextmanager
def slow_answers(seconds: float) -> Iterator[None]:
    """The workers of now take their time for each search."""
    CLIENT.run(_slow_down, seconds)
    try:
        yield
    finally:
        CLIENT.run(_slow_down, 0)


def _slow_down(seconds: float) -> None:
    before = getattr(_responder, "search_at_once", _responder.search)

    def slow(*given: Any) -> Any:
        time.sleep(seconds)
        return before(*given)

    vars(_responder).update(search_at_once=before, search=slow)


def _allow(failures: int, dask_scheduler: Any) -> None:
    dask_scheduler.allowed_failures = failures


def _die() -> list[Document]:
    os.kill(os.getpid(), signal.SIGKILL)
    return []


class Sources(unittest.TestCase):
    def setUp(self) -> None:
        MACHINES.four()

    def test_refused_lines(self) -> None:
        """A refused line is skipped, counted and listed with its source and line; a strict cluster raises."""
        lines = [b'{"title":"a"}', b"", b"nonsense", b'{"colour":1}', b'{"price":1},"add":{"price":2}',
                 b'{"title":"\\u0061"}', b'{"price":1}}', b'"' + b"x" * 4_194_305 + b'"', b'{"price":7}']
        path = written("refused.jsonl", lines)
        names = [(3, "BadJson"), (4, "UnknownField"), (5, "BadJson"), (7, "BadJson"), (8, "LineTooLong")]
        with cluster([path]) as many:
            self.assertEqual(many.refused(), [Refusal(path, number, name) for number, name in sorted(names)])
            self.assertEqual(many.counts(), {path: (3, 5)})
            self.assertEqual(many.search("*").count, 3)
        with self.assertRaises(SourceRefused) as raised:
            cluster([path], strict=True)
        self.assertEqual(raised.exception.refusal, Refusal(path, 3, "BadJson"))
        self.assertIn("line 3: BadJson", str(raised.exception))
        with cluster([Documents("given", lambda: [{"colour": 1}, {"title": "\ud800"}, {"title": "b"}])]) as many:
            self.assertEqual(many.refused(), [Refusal("given", 1, "UnknownField"), Refusal("given", 2, "BadJson")])

    def test_many_refused(self) -> None:
        with cluster([written("many.jsonl", [b"{"] * 1_500 + [b"{}"])]) as many:
            self.assertEqual((len(many.refused()), [*many.counts().values()]), (1_000, [(1, 1_500)]))

    def test_scripts(self) -> None:
        """A delete reaches its own source alone; a rollback, and the schema of a script, are its own too."""
        schema = {"schema": [{"name": field.name, "kind": field.kind, "default": field.default} for field in SCHEMA]}
        script = [schema, {"add": {"title": "a", "price": 1}}, {"add": {"title": "b", "price": 2}},
                  {"delete": {"title": "a"}}, {"commit": True}, {"add": {"title": "c"}}, {"rollback": True},
                  {"search": {"query": "*"}}, {"add": {"title": "d"}}]
        other = [{"add": {"title": "a", "price": 3}}, {"schema": schema["schema"][:2]}]
        paths = [written("one.script", map(line, script)), written("two.script", map(line, other))]
        with cluster(map(Script, paths)) as many:
            self.assertEqual([count.documents for count in many.counts().values()], [2, 1])
            self.assertEqual([many.search(word).count for word in "abcd"], [1, 1, 0, 1])
            self.assertEqual(many.refused(), [Refusal(paths[1], 2, "SchemaTwice")])

    def test_hits(self) -> None:
        """Hits have their source; equal values come by source, then stamp; chosen fields, several groups, all hits."""
        found = {name: [{"title": f"x {name}", "price": number // 2} for number in range(4)] for name in "ba"}
        sources = [Documents(name, listed(documents)) for name, documents in found.items()]
        with cluster(sources) as many:
            first = dilforec.Top("price", 3, "falling")
            answer = many.search("x", groups=["price", "tag"], top=first, fields=["price"])
            self.assertEqual((answer.count, answer.groups), (8, {"price": {0: 4, 1: 4}, "tag": {}}))
            self.assertEqual([(hit.source, hit.stamp, hit.document) for hit in answer],
                             [("b", 3, {"price": 1}), ("b", 4, {"price": 1}), ("a", 3, {"price": 1})])
            self.assertEqual(many.search("x", groups="price").groups, {0: 4, 1: 4})
            every = [(hit.value, hit.source, hit.stamp) for hit in many.hits("x", "price", page=5)]
            self.assertEqual(every, [(value, name, 2 * value + n) for value in (0, 1) for name in "ba" for n in (1, 2)])
            self.assertEqual(len(many), 8)
            with many.searcher() as searcher:
                self.assertEqual((many.stats(), searcher.stats()), ((2, 8, 8), (2, 8, 8)))

    def test_compressed(self) -> None:
        """Files that gzip or xz made; one that is cut off is no source."""
        lines = b"".join(line(document) + b"\n" for document in made(0, 50))
        kinds: tuple[tuple[str, Callable[[bytes], bytes]], ...] = (".gz", gzip.compress), (".xz", lzma.compress)
        for suffix, compress in kinds:
            path = FOLDER / f"day.jsonl{suffix}"
            path.write_bytes(compress(lines))
            with cluster([path, Documents("more", list)]) as many:
                self.assertEqual((many.search("*").count, many.refused()), (50, []))
                path.write_bytes(compress(lines)[:-20])
                self.assertRaises(EOFError, many.add_source, path)

    def test_long_lines(self) -> None:
        """A line that is too long is refused, however long; a blank one is passed over, as a shorter one is."""
        long = _sources.PIECE
        path = FOLDER / "long.jsonl"
        path.write_bytes(b"{}\n" + b"x" * (3 * long + 5) + b"\n{}\n" + b" " * (2 * long) + b"\n{}\n[" + b"x" * long)
        names = [(2, "LineTooLong"), (6, "LineTooLong")]
        with cluster([path]) as many:
            self.assertEqual(many.refused(), [Refusal(str(path), number, name) for number, name in names])
            self.assertEqual(many.search("*").count, 3)
        pieces = iter([b"x" * long] * 5 + [b"x\n", b"y\n"])
        (of_long, other) = _sources.whole_lines(pieces)
        self.assertEqual((type(of_long), len(of_long), other), (_sources.LongLine, 16, b"y\n"))
        longest = b"x" * dilforec.index.LONGEST_LINE + b"\r\n"
        self.assertEqual([*_sources.whole_lines(io.BytesIO(longest))], [longest])

    def test_errors(self) -> None:
        """Each refusal of a search is the exception that an index raises."""
        with cluster([Documents("a", list)]) as many:
            calls: list[tuple[type[dilforec.Refused], Call]] = [
                (dilforec.Syntax, lambda: many.search("rust OR")), (dilforec.AllNegative, lambda: many.search("-rust")),
                (dilforec.UnknownField, lambda: many.search("x", groups="colour")),
                (dilforec.BadLimit, lambda: many.search("x", top=dilforec.Top("price", 0))),
                (dilforec.UnknownField, lambda: many.search("x", top=dilforec.Top("price", 1), fields=["colour"])),
            ]
            for refusal, call in calls:
                self.assertRaises(refusal, call)
            self.assertEqual(json.loads(many.execute('{"add":{}}')), {"error": "BadCommand", "line": 1})
            self.assertRaises(FileNotFoundError, many.add_source, FOLDER / "none.jsonl")
            self.assertRaises(KeyError, many.drop_source, "b")
            self.assertEqual(many.search("*").count, 0)
        self.assertRaises(dilforec.Closed, many.search, "*")
        self.assertRaises(dilforec.Closed, many.stats)
        self.assertRaises(dilforec.Closed, many.drop_source, "a")
        self.assertRaises(ValueError, cluster, [Documents("a", list), Documents("a", list)])
        self.assertRaises(ValueError, cluster, [b"/tmp/\xff".decode("utf-8", "surrogateescape")])
        with cluster([]) as none:
            self.assertRaises(ValueError, none.search, "*")
            self.assertRaises(ValueError, none.stats)
        with self.assertRaises(dilforec.BadName):
            Cluster(CLIENT, [dilforec.text("AND")], [Documents("a", list)], progress=False)

    def test_progress(self) -> None:
        """Dask's bar is on a terminal alone."""
        for terminal in True, False:
            with io.StringIO() as out, contextlib.redirect_stdout(out), mock.patch.object(
                out, "isatty", lambda: terminal,  # noqa: B023
            ):
                Cluster(CLIENT, SCHEMA, [source(0, 10)]).close()
                self.assertEqual(bool(out.getvalue()), terminal)

    def test_added_and_dropped(self) -> None:
        """A new source, and one that goes, touch no other partition."""
        with cluster([source(0, 10), source(10, 20)]) as many:
            keys = {name: part.future.key for name, part in many._channel.parts.items()}
            many.add_source(source(20, 25))
            self.assertEqual((many.search("*").count, list(many.counts())), (25, ["0", "10", "20"]))
            many.drop_source("10")
            self.assertEqual((many.search("*").count, list(many.counts())), (15, ["0", "20"]))
            self.assertEqual(many._channel.parts["0"].future.key, keys["0"])
            deadline = time.monotonic() + 10
            while keys["10"] in CLIENT.who_has() and time.monotonic() < deadline:
                time.sleep(0.05)
            self.assertNotIn(keys["10"], CLIENT.who_has())


class Lost(unittest.TestCase):
    def setUp(self) -> None:
        MACHINES.four()

    def kill_all(self) -> None:
        """Kills every worker that has a partition."""
        MACHINES.kill(MACHINES.with_partitions("has_what"))
        MACHINES.four()

    def test_changed_file(self) -> None:
        """A file that isn't what it was: SourceChanged, again and again, until it is added again or dropped."""
        path = written("day.jsonl", [b'{"title":"a"}', b'{"title":"b"}'])
        with cluster([path, source(0, 10)]) as many:
            self.kill_all()
            self.assertEqual(many.search("*").count, 12)
            changed = functools.partial(written, "day.jsonl", [b'{"title":"a"}', b'{"title":"c"}'])
            changes: tuple[tuple[Call, type[SourceChanged] | type[SourceUnreadable]], ...] = (
                (changed, SourceChanged), (functools.partial(os.unlink, path), SourceUnreadable),
            )
            for change, refusal in changes:
                change()
                self.kill_all()
                for _ in range(2):
                    with self.assertRaises(refusal) as raised:
                        many.search("*")
                    assert isinstance(raised.exception, (SourceChanged, SourceUnreadable))
                    self.assertEqual(raised.exception.source, path)
                written("day.jsonl", [b'{"title":"new"}'])
                many.add_source(path)
                self.assertEqual((many.search("*").count, list(many.counts())), (11, [path, "0"]))
            os.unlink(path)
            self.kill_all()
            self.assertRaises(SourceUnreadable, many.search, "*")
            many.drop_source(path)
            self.assertEqual(many.search("*").count, 10)

    def test_compressed(self) -> None:
        """A file in .gz or .xz is read again; cut off by then, it can't be read, and can once it is whole."""
        lines = b"".join(line(document) + b"\n" for document in made(0, 50))
        whole = {str(FOLDER / "lost.gz"): gzip.compress(lines), str(FOLDER / "lost.xz"): lzma.compress(lines)}
        for path, data in whole.items():
            pathlib.Path(path).write_bytes(data)
        with cluster([*whole, source(0, 10)]) as many:
            self.kill_all()
            self.assertEqual(many.search("*").count, 110)
            for path, data in whole.items():
                pathlib.Path(path).write_bytes(data[:-20])
                self.kill_all()
                with self.assertRaises(SourceUnreadable) as raised:
                    many.search("*")
                self.assertEqual((raised.exception.source, type(raised.exception.__cause__)), (path, EOFError))
                pathlib.Path(path).write_bytes(data)
                self.assertEqual(many.search("*").count, 110)

    def test_unfaithful_function(self) -> None:
        """A function that gives other documents the second time."""
        with cluster([Documents("clock", lambda: [{"price": time.monotonic_ns()}])]) as many:
            self.assertEqual(many.search("*").count, 1)
            self.kill_all()
            self.assertRaises(SourceChanged, many.search, "*")

    def test_moved(self) -> None:
        """A partition that Dask copies to other workers goes as its source, and is made there at its first search."""
        with cluster([source(0, 20_000)]) as many:
            (part,) = many._channel.parts.values()
            size = CLIENT.run_on_scheduler(_size_known, part.future.key)
            self.assertGreater(size, 20_000 * 50)
            made_by = MACHINES.with_partitions("has_what")
            CLIENT.replicate([part.future], n=4)
            self.assertEqual(len(CLIENT.who_has([part.future])[part.future.key]), 4)
            lengths = CLIENT.run(_pickled_length, part.future.key)
            self.assertTrue(all(length < 2_000 for length in lengths.values()), lengths)
            places = CLIENT.who_has([part.future])[part.future.key]
            many._places._known[part.future.key] = sorted(places, key=lambda address: address in made_by)
            many._places.changes += 1
            self.assertEqual(many.search("*", groups="tag").count, 20_000)
            with mock.patch.object(_plan.Plan, "wanted", autospec=True, side_effect=_plan.Plan.wanted) as wanted:
                for _ in range(8):
                    self.assertEqual(many.search("*", groups="tag").count, 20_000)
            self.assertEqual(wanted.call_count, 8, "those that have the source alone are asked once")

    def test_source_alone(self) -> None:
        """A partition whose source alone is left is made on the worker that has it, also if that fails at first."""
        with cluster([counted("alone", fail_at=(2,))]) as many:
            (part,) = many._channel.parts.values()
            made_by = MACHINES.with_partitions("has_what")
            CLIENT.replicate([part.future], n=2)
            MACHINES.kill(made_by)
            MACHINES.four()
            self.assertEqual((many.search("*").count, builds("alone")), (10, 3))
            self.assertEqual((many.search("*").count, builds("alone")), (10, 3))

    def test_forgotten(self) -> None:
        """A worker that gives a partition up, or that loses it without knowing."""
        with cluster([source(0, 10), source(10, 20)]) as many:
            for forget in _give_up, _lose:
                key = many._channel.parts["10"].future.key
                CLIENT.run(forget, key)
                self.assertEqual((many.search("*").count, many.search("price:15").count), (20, 1))
                self.assertEqual([*CLIENT.run(_has, key).values()].count(True), 1)

    def test_unreadable(self) -> None:
        """A source that can't be read is tried again, then said to be that, and found as soon as it can be read."""
        with cluster([counted("once", fail_at=(2,)), source(10, 20)]) as many:
            self.kill_all()
            self.assertEqual((many.search("*").count, builds("once")), (20, 3))
        with cluster([counted("long", fail_at=range(2, 100)), source(10, 20)]) as many:
            self.kill_all()
            for _ in range(2):
                with self.assertRaises(SourceUnreadable) as raised:
                    many.search("*")
                self.assertIn("long couldn't be read: [Errno 5] the disk", str(raised.exception))
                self.assertIsInstance(raised.exception.__cause__, OSError)
            (FOLDER / "long.builds").write_text("x" * 100)
            self.assertEqual(many.search("*").count, 20)

    def test_deadly_search(self) -> None:
        """A search that ends each worker that it goes to is given up; others are answered."""
        with cluster([Documents("mined", _mined), source(0, 10)]) as many, mock.patch.object(_gathering, "LOSSES", 3):
            with self.assertRaises(PartitionLost) as raised:
                many.search("deadly")
            told = "the partition of mined was lost 3 times while one search asked for it"
            self.assertEqual((raised.exception.source, str(raised.exception)), ("mined", told))
            MACHINES.four()
            self.assertEqual(many.search("*").count, 20)

    def test_never_reached(self) -> None:
        """A worker that the scheduler has, but that nobody reaches, isn't asked for ever."""
        lost = mock.AsyncMock(side_effect=OSError("no way"))
        with cluster([source(0, 10)]) as many, contextlib.ExitStack() as stack:
            for of, name in (many._connections, "_ask_by_rpc"), (_gathering.Gathering, "_send_through_scheduler"):
                stack.enter_context(mock.patch.object(of, name, lost))
            stack.enter_context(mock.patch.object(_gathering, "SAME_LOSS", 0.5))
            stack.enter_context(mock.patch.object(many._connections, "find", lambda address: None))
            self.assertRaises(PartitionLost, many.search, "*")
            self.assertGreater(lost.call_count, _gathering.LOSSES, "what is met again at once is the same loss")

    def test_own_errors(self) -> None:
        """An OSError of a worker's own isn't that of the way to it: it is raised, and nobody is asked twice."""
        with cluster([source(first, first + 10) for first in range(0, 80, 10)]) as many:
            with_connections(many)
            for fan_out in _requests.FAN_OUT, 1:
                CLIENT.run(_spoil, OSError(5, "the disk"))
                with mock.patch.object(_requests, "FAN_OUT", fan_out), self.assertRaises(OSError) as raised:
                    many.search("*")
                self.assertEqual(raised.exception.errno, 5)
                self.assertLessEqual(max(CLIENT.run(_mend).values()), 1)
                self.assertEqual(many.search("*").count, 80)

    def test_one_fault(self) -> None:
        """What fails for one search is raised for it alone, on each of the ways to an answer."""
        def fails(given: Any, k: int | None = None) -> _partials.Partial:
            if 7 in (k, getattr(given, "_k", None)):
                raise MemoryError
            return _partials.Partial(1)

        asked = [_requests.Asked(b"", k=k) for k in (6, 7, 8)]
        with mock.patch.object(_partials.Joining, "answer", fails), mock.patch.object(_responder, "joined", fails):
            replies = [_requests.Reply([_partials.Partial(1)] * 3, ())] * 2
            joined = _requests.Reply.unpickled(_responder._joined_replies("search", asked, replies)).results
            for answers in _responder.search([], asked), joined:
                self.assertEqual([answer.fault is not None for answer in answers], [False, True, False])
                self.assertIsInstance(pickle.loads(answers[1].fault or b""), MemoryError)

    def test_retried_once(self) -> None:
        """Searches that meet one failure have the partition made again once, and leave alone what another one began."""
        with cluster([counted("retried", fail_at=(2,), slow_at=3)]) as many, ThreadPoolExecutor(3) as threads:
            (part,) = many._channel.parts.values()
            self.kill_all()
            wait_until(lambda: str(part.future.status) == "error")
            error, answers = part.future.exception(), []
            for _ in range(3):
                answers.append(threads.submit(many.search, "*"))
                time.sleep(0.08)
            self.assertEqual([answer.result().count for answer in answers], [10] * 3)
            retrying = asyncio.run_coroutine_threadsafe(
                many._places.retry(part.future, error), CLIENT.loop.asyncio_loop)
            retrying.result()
            self.assertEqual((many.search("*").count, builds("retried")), (10, 3))

    def test_cancelled(self) -> None:
        """What cancels the partitions, as a restart of the cluster does, takes them away for good."""
        with cluster([source(0, 10), source(10, 20)]) as many:
            CLIENT.cancel(many._channel.parts["10"].future)
            self.assertRaises(dilforec.Closed, many.search, "*")
            many.add_source(source(10, 20))
            self.assertEqual(many.search("*").count, 20)

    def test_timeout(self) -> None:
        """A search that isn't answered in time raises; later ones are answered."""
        with cluster([counted("slow", slow_at=2)]) as many:
            self.kill_all()
            calls: tuple[Call, ...] = (
                functools.partial(many.search, "*", timeout=0.3), many.searcher(timeout=0.3).stats,
                functools.partial(many.search_many, ["*", "x"], timeout=0.3),
            )
            for call in calls:
                self.assertRaises(TimeoutError, call)
            self.assertEqual(many.search("*", timeout=300).count, 10)
            self.assertRaises(ValueError, many.search, "*", timeout=0)
            with slow_answers(1):
                self.assertRaises(TimeoutError, many.search, "*", timeout=0.3)
                self.assertRaises(TimeoutError, many.search_many, ["*"] * 3_000, timeout=0.3)
                rounds = many._channel._rounds
                assert rounds
                left, running = [each.future.cancelled() for each in list(rounds._waiting)], rounds._running
                self.assertTrue(left and all(left), "nobody waits for these")
            wait_until(lambda: not running)
            self.assertEqual(many.search("*").count, 10)


class Paths(unittest.TestCase):
    """The ways that searches take."""

    def setUp(self) -> None:
        MACHINES.four()

    def same(self, many: Cluster) -> contextlib.closing[_Same]:
        """That searches give the same on another way, in the block of a `with`."""
        asked = [line({"search": search}) for seed in range(3) for search in searches(seed)]
        before = many._channel.ask_each(asked, None)
        return contextlib.closing(_Same(lambda: self.assertEqual(many._channel.ask_each(asked, None), before)))

    def test_tree(self) -> None:
        """Workers that ask others, also if one of them dies and its own have to be asked again."""
        sources = [source(first, first + 50) for first in range(0, 600, 50)]
        with contextlib.ExitStack() as stack, cluster(sources) as many, self.same(many):
            nodes = stack.enter_context(trees_of(1))
            for _ in range(4):
                self.assertEqual(many.search("*", groups="price").count, 600)
            with killing(1, "has_what"):
                for _ in range(20):
                    self.assertEqual(many.search("*").count, 600)
            # The worker above tells who died, before the client looks by itself.
            stack.enter_context(mock.patch.object(_gathering, "PATIENCE", 60))
            with slow_answers(1.5), ThreadPoolExecutor(1) as thread:
                answer = thread.submit(many.search, "*")
                time.sleep(0.5)
                (relay,) = nodes[-1].below
                MACHINES.kill([relay.address])
                MACHINES.four()
                self.assertEqual(answer.result().count, 600)
            self.assertEqual(far(many), [], "those below the one that died weren't asked")

    def test_trees(self) -> None:
        """Each worker is in a tree once, and none asks more than 16 others."""
        for count in (1, 16, 17, 18, 100, 400):
            wanted = {f"{place}": [_requests.Wanted(place, f"key {place}", None)] for place in range(count)}
            nodes = _requests.trees({address: pickle.dumps(each) for address, each in wanted.items()}, count // 2)
            self.assertEqual(len(nodes), count if count <= 16 else 1)
            held = [each for node in nodes for each in node.holders()]
            self.assertEqual(sorted(held), sorted((each, address) for address, (each,) in wanted.items()))
            while nodes:
                self.assertTrue(all(len(node.below) <= 16 for node in nodes))
                nodes = [each for node in nodes for each in node.below]

    def test_wide_tree(self) -> None:
        """A tree whose first joins what two others join, each with two below."""
        sources = [source(first, first + 10) for first in range(0, 280, 10)]
        asked = [line({"search": search}) for seed in range(5) for search in searches(seed)]
        with Client(processes=False, n_workers=7, threads_per_worker=1, dashboard_address=None, set_as_default=False) as client:
            with Cluster(client, SCHEMA, sources, progress=False) as many:
                expected = many._channel.ask_each(asked, None)
                with trees_of(2) as nodes:
                    self.assertEqual(many._channel.ask_each(asked, None), expected)
                self.assertIn([2, 2], [[len(below.below) for below in node.below] for node in nodes])

    def test_threads(self) -> None:
        """Workers of several threads, with more partitions than threads and with fewer, in one process with the client."""
        with Client(processes=False, n_workers=2, threads_per_worker=3, dashboard_address=None, set_as_default=False) as client:
            for step in 10, 200:
                sources = [source(first, first + step) for first in range(0, 200, step)]
                asked = [line({"search": search}) for seed in range(5) for search in searches(seed)]
                with Cluster(client, SCHEMA, sources, progress=False) as many, cluster(sources) as others:
                    self.assertEqual(many._channel.ask_each(asked, None), others._channel.ask_each(asked, None))

    def test_through_the_scheduler(self) -> None:
        """Workers that the client can't reach by itself."""
        def fails(*_: object) -> asyncio.Future[None]:
            failed = asyncio.get_running_loop().create_future()
            failed.set_exception(OSError("no way"))
            return failed

        with cluster([source(0, 10), source(10, 20), source(20, 30)]) as many, self.same(many):
            for name, stand_in in ("ask", fails), ("find", lambda address: None):
                patch = mock.patch.object(many._connections, name, stand_in)
                patch.start()
                self.addCleanup(patch.stop)

    def test_connections(self) -> None:
        """Once there are connections nothing goes by rpc, until they end with the cluster, or with its client."""
        with contextlib.ExitStack() as stack:
            client = Client(scheduler_file=str(MACHINES.file), set_as_default=False)
            stack.callback(client.close)
            for close in "cluster", "client":
                many = Cluster(client, SCHEMA, [source(first, first + 50) for first in range(0, 400, 50)], progress=False)
                with self.same(many):
                    with_connections(many)
                    with mock.patch.object(client, "rpc", None), mock.patch.object(many._connections, "_rpc", None):
                        self.assertEqual(many.search("*", groups="price").count, 400)
                opened = len(many._connections._connections)
                self.assertEqual(sum(CLIENT.run(_accepted).values()), opened)
                self.assertGreater(opened, 0)
                (many if close == "cluster" else client).close()
                wait_until(lambda: not any(CLIENT.run(_accepted).values()))
            self.assertFalse([each.open for each in client.preloads if each.open])

    def test_broken_connections(self) -> None:
        """Connections that end, or whose workers die, while they are asked: others answer, or rpc does."""
        with cluster(source(first, first + 50) for first in range(0, 400, 50)) as many:
            expected = many.search("*", groups="price")
            breaks: tuple[Call, ...] = (
                lambda: CLIENT.run(_break), lambda: MACHINES.kill(MACHINES.with_partitions("has_what")[:1]),
                lambda: MACHINES.kill(MACHINES.with_partitions("has_what")),
            )
            for breaking in breaks:
                with_connections(many)
                with slow_answers(1.5), ThreadPoolExecutor(_rounds.ROUNDS) as threads:
                    answers = []
                    for _ in range(_rounds.ROUNDS):
                        answers.append(threads.submit(many.search, "*", groups="price"))
                        time.sleep(0.1)
                    breaking()
                    MACHINES.four()
                    self.assertEqual([answer.result() for answer in answers], [expected] * len(answers))
                self.assertEqual(many.search("*", groups="price"), expected)
                self.assertEqual(far(many), [], "one that broke counts once, however many searches it took with it")

    def test_reached_again(self) -> None:
        """A worker that couldn't be reached is asked through the scheduler, and by itself again once it can be."""
        with cluster([source(0, 10)]) as many, self.same(many):
            with_connections(many)
            (address, connection), *_ = many._connections._connections.items()
            CLIENT.run(_break)
            wait_until(lambda: not connection.is_open)
            for _ in range(2):
                many._places.failed(address, 0)
            self.assertEqual(far(many), [])
            many._places.failed(address, time.monotonic())
            self.assertEqual(far(many), [address])
            with_connections(many)
            self.assertEqual(far(many), [])

    def test_shared_rounds(self) -> None:
        """Searches that wait while a round is under way go together in the next."""
        with cluster([source(0, 10), source(10, 20)]) as many, ThreadPoolExecutor(64) as threads:
            rounds, gather = [], _gathering.Gathering.results

            async def gathered(self: _gathering.Gathering, task: Any, searches: Sequence[Any] = ()) -> Any:
                rounds.append(len(searches))
                under_way = many._channel._rounds
                assert under_way
                while len(rounds) == 1 and rounds[0] + len(under_way._waiting) < 64:
                    await asyncio.sleep(0.01)
                return await gather(self, task, searches)

            with mock.patch.object(_gathering.Gathering, "results", gathered), mock.patch.object(_rounds, "ROUNDS", 1):
                counts = list(threads.map(lambda number: many.search(f"price:{number % 20}").count, range(64)))
            self.assertEqual((counts, sum(rounds)), ([1] * 64, 64))
            self.assertEqual(len(rounds), 2)

    def test_search_many(self) -> None:
        """The same answers as from searches by themselves, in their order; a refusal is raised."""
        first = dilforec.Top("price", 30, "falling")
        asked: list[tuple[str, dict[str, Any]]] = [
            ("*", {}), ("w1", {"groups": "tag"}), ("*", {"groups": ["tag", "temp"], "top": first}),
                 ("*", {"top": first, "fields": ["price"]}), ("w2", {"groups": []})]
        with cluster(source(first, first + 100) for first in range(0, 800, 100)) as many:
            alone = [many.search(query, **given) for query, given in asked]
            self.assertEqual(many.search_many([Search(query, **given) for query, given in asked]), alone)
            self.assertEqual(many.search_many(["*", "w1"]), [many.search("*"), many.search("w1")])
            self.assertEqual(many.search_many([]), [])
            self.assertEqual([answer.count for answer in many.search_many(["*"] * 1_000)], [800] * 1_000)
            self.assertRaises(dilforec.Syntax, many.search_many, ["*", "rust OR", "w1"])

    def test_stealing(self) -> None:
        """One worker is busy, the others are idle: it answers meanwhile, and no partition is made a second time."""
        with cluster(counted(f"stolen.{number}") for number in range(8)) as many:
            (busy, *_) = MACHINES.with_partitions("has_what")
            path = FOLDER / "idle"
            blocking = CLIENT.map(_wait_for, [str(path)] * 3, range(3), workers=[busy])
            for _ in range(30):
                self.assertEqual(many.search("*", groups="tag").count, 80)
            many.add_source(counted("stolen.8"))
            time.sleep(1)
            self.assertEqual(many.search("*").count, 90)
            self.assertFalse(any(future.done() for future in blocking), "it answered before it was idle")
            path.touch()
            CLIENT.gather(blocking)
            self.assertEqual([builds(f"stolen.{number}") for number in range(9)], [1] * 9)

    def test_beside_others(self) -> None:
        """A fork, the client's own event loop, a second cluster, a client that is closed."""
        with cluster([source(0, 10)]) as many, cluster([source(0, 20)]) as other:
            self.assertEqual((many.search("*").count, other.search("*").count), (10, 20))
            child = os.fork()
            if not child:
                os._exit(0 if _refusal_of(many) is RuntimeError else 1)
            self.assertEqual(os.waitpid(child, 0)[1], 0)

            async def from_the_loop() -> type[Exception] | None:
                return _refusal_of(many)

            loop = CLIENT.loop.asyncio_loop
            self.assertIs(asyncio.run_coroutine_threadsafe(from_the_loop(), loop).result(), RuntimeError)
        with Client(scheduler_file=str(MACHINES.file), set_as_default=False) as client:
            many = Cluster(client, SCHEMA, [source(0, 10)], progress=False)
            self.assertEqual(many.search("*").count, 10)
        self.assertIs(_refusal_of(many), RuntimeError)

    def test_closed_meanwhile(self) -> None:
        """A cluster that is closed while a source is added stays closed."""
        many = cluster([source(0, 10)])
        with ThreadPoolExecutor(1) as thread:
            adding = thread.submit(many.add_source, counted("late", slow_at=1))
            time.sleep(0.3)
            many.close()
            self.assertIsInstance(adding.exception(), dilforec.Closed)
        self.assertRaises(dilforec.Closed, many.search, "*")
        self.assertRaises(dilforec.Closed, many.add_source, source(0, 10))


def with_connections(many: Cluster) -> None:
    """Has searches go over connections: they are made beside the first, and again some time after they broke."""
    with mock.patch.object(_connections, "BETWEEN", 0):
        many._connections._next_try.clear()

        def are_open() -> bool:
            many.search("*")
            places = many._places._known.values()
            return all(many._connections._connections[address].is_open for (address, *_) in places)

        wait_until(are_open)


def far(many: Cluster) -> list[str]:
    """The workers that are asked through the scheduler alone."""
    return [address for address in CLIENT.scheduler_info()["workers"] if many._places.is_far(address)]


def wait_until(good: Callable[[], bool]) -> None:
    deadline = time.monotonic() + 60
    while not good():
        assert time.monotonic() < deadline
        time.sleep(0.02)


class _Same:
    """What is checked at the end of a block."""

    def __init__(self, close: Callable[[], None]) -> None:
        self.close = close


def _refusal_of(many: Cluster) -> type[Exception] | None:
    try:
        many.search("*")
    except Exception as error:
        return type(error)
    return None


def counted(name: str, fail_at: Collection[int] = (), slow_at: int | None = None) -> Documents:
    """Ten documents, from a function that writes down how often it was called, and may fail or take its time."""
    return Documents(name, functools.partial(_counted, str(FOLDER / f"{name}.builds"), fail_at, slow_at))


def _counted(path: str, fail_at: Collection[int], slow_at: int | None) -> list[Document]:
    with open(path, "a") as file:
        file.write("x")
    calls = os.path.getsize(path)
    if calls in fail_at:
        raise OSError(5, "the disk")
    if calls == slow_at:
        time.sleep(2)
    return [{"title": "x", "tag": "t", "price": number} for number in range(10)]


def builds(name: str) -> int:
    return os.path.getsize(FOLDER / f"{name}.builds")


def _mined() -> list[Document]:
    """Ten documents. The process that has them ends at a search for a word."""
    before = _responder.search

    def search(found: Any, asked: Any) -> Any:
        if any(b"deadly" in each.line for each in asked):
            _die()
        return before(found, asked)

    vars(_responder).update(search=search)
    return [{"title": "x", "price": number} for number in range(100, 110)]


def _spoil(error: OSError, dask_worker: Any) -> None:
    """A worker that can't look up a partition. It counts the requests for which it tries that."""
    responder, fails = _responder_of(dask_worker), mock.Mock(side_effect=error)
    responder._looked_up = fails


def _mend(dask_worker: Any) -> int:
    responder = _responder_of(dask_worker)
    asked: int = vars(responder).pop("_looked_up").call_count
    return asked


def _give_up(key: str, dask_worker: Any) -> None:
    if key in dask_worker.data:
        dask_worker.handle_stimulus(FreeKeysEvent(keys=[key], stimulus_id="test"))


def _lose(key: str, dask_worker: Any) -> None:
    dask_worker.data.pop(key, None)


def _responder_of(dask_worker: Any) -> Any:
    return dask_worker.handlers[_requests.OPERATION].__self__


def _accepted(dask_worker: Any) -> int:
    return len(_responder_of(dask_worker).listener._accepted)


def _break(dask_worker: Any) -> None:
    def close() -> None:
        for each in _responder_of(dask_worker).listener._accepted:
            each.close()

    dask_worker.loop.add_callback(close)


def _has(key: str, dask_worker: Any) -> bool:
    return key in dask_worker.data


def _wait_for(path: str, number: int) -> None:
    while not os.path.exists(path):
        time.sleep(0.01)


def _size_known(key: str, dask_scheduler: Any) -> int:
    size: int = dask_scheduler.tasks[key].nbytes
    return size


def _pickled_length(key: str, dask_worker: Any) -> int:
    return len(pickle.dumps(dask_worker.data[key]))


if __name__ == "__main__":
    unittest.main()
