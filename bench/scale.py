#!/usr/bin/env python3
"""Times builds and searches of one process, of four partitions in one process, and of Dask workers, and a model of them.

    python3 bench/scale.py [DOCUMENTS ..]

It needs `distributed` (tests/cluster.py says how to get it) and the shared object of bindings/python/link.py. Without an argument there are
100,000, 1,000,000 and 10,000,000 documents, which take 16 GB of memory and 2 GB of disk. Each way runs in a process of its own. Those that are
compared are there at the same time and take turns, POINT_TURNS rounds each, of which the quickest counts (SMALL_TURNS of the small clusters, TURNS of
many partitions); the quickest of BUILDS builds counts too. How many times as long a search takes on Dask as by threads is the median of the ratios of
each turn. All ways read the same files of JSON lines, and must give the same counts, groups and values of top lists.

`many` has the documents cut into many small partitions: long top lists beside one index, and searches from many threads. `model` takes its
constants from some of the points, which `FITTED` names, and is judged by the others.
"""
# Dask has no types.
# mypy: allow-untyped-calls
from __future__ import annotations

import contextlib
import gc
import hashlib
import importlib.util
import itertools
import json
import math
import os
import pathlib
import pickle
import random
import statistics
import subprocess
import sys
import tempfile
import time
from collections.abc import Callable, Iterable, Iterator
from concurrent.futures import ProcessPoolExecutor, ThreadPoolExecutor
from typing import Any, NamedTuple

ROOT = pathlib.Path(__file__).resolve().parent.parent
sys.path.insert(0, str(ROOT / "bindings/python"))

import corpus  # noqa: E402

COUNTS = (100_000, 1_000_000, 10_000_000)
WORKERS = 4
# Fewer than other timings have, so that ten million documents fit into a small machine.
WORDS_EACH = 10
TURNS, BUILDS = 4, 2
# Rounds of the three ways: so many that a few of them don't matter, since a shared machine may be slow for seconds.
POINT_TURNS = 20
# Rounds of the small clusters, whose searches are short.
SMALL_TURNS = 12
# A machine on which fewer others run is quiet.
QUIET = 0.5
# How near the model has to come: within a third.
NEAR = 1 / 3
# Documents of the small partitions, so few that their searches take next to nothing.
FEW = 1_000
# Dask's event loops are uvloop's, if that is there (Debian: python3-uvloop), as docs/SCALE.md advises.
EVENT_LOOP = {"DASK_DISTRIBUTED__ADMIN__EVENT_LOOP": "uvloop"} if importlib.util.find_spec("uvloop") else {}
# Workers and partitions of the clusters that tell what a round, a worker and a partition cost, and of those that judge that.
FITTED, JUDGED = ((1, 4), (4, 4), (4, 64)), ((2, 8), (4, 16), (4, 256))
# Partitions of `many`, the threads that search them at once, and how long a top list of them is.
PARTITIONS, THREADS, LONG_TOP = 400, 64, 10_000
SEARCHES = 200


# Searches.

def mixed() -> Iterator[bytes]:
    """In turn: a word, two words that both have to match, a range with groups, and a word with a top list."""
    chance = random.Random(7)
    for number in range(SEARCHES):
        a, b = corpus.words(chance, 2)
        low = chance.randrange(corpus.LEAST_TEMP, corpus.LEAST_TEMP + corpus.TEMPS - 10)
        yield json.dumps({"search": [
            {"query": a}, {"query": f"+{a} +{b}"},
            {"query": f"temp:[{low} TO {low + 9}]", "groups": "tag"},
            {"query": a, "top": {"by": "price", "k": 10, "order": "falling"}},
        ][number % 4]}).encode()


def long_tops() -> Iterator[bytes]:
    """Long top lists over all documents and over those with a frequent word, rising and falling."""
    for query, order in itertools.product(["*", corpus.WORDS[0], corpus.WORDS[1]], ["rising", "falling"]):
        yield json.dumps({"search": {"query": query, "top": {"by": "price", "k": LONG_TOP, "order": order}}}).encode()


SETS: dict[str, Callable[[], Iterable[bytes]]] = {"mixed": mixed, "long": long_tops}


def timed(ask: Callable[[bytes], bytes], lines: Iterable[bytes]) -> dict[str, Any]:
    """Milliseconds of searches, and a digest of what partitions don't change in the replies."""
    digest = hashlib.blake2b(digest_size=8)
    times = []
    for line in lines:
        began = time.perf_counter()
        reply = ask(line)
        times.append((time.perf_counter() - began) * 1e3)
        answer = json.loads(reply)
        answer["top"] = [hit["value"] for hit in answer.get("top", [])]
        digest.update(json.dumps(answer, sort_keys=True).encode())
    ranks = statistics.quantiles(times, n=100)
    return {"mean": statistics.fmean(times), "median": ranks[49], "most": ranks[98], "digest": digest.hexdigest()}


def together(ask: Callable[[bytes], bytes], lines: Iterable[bytes]) -> dict[str, Any]:
    """Searches a second of THREADS threads."""
    every = list(lines) * math.ceil(10 * THREADS / SEARCHES)
    with ThreadPoolExecutor(THREADS) as pool:
        began = time.perf_counter()
        for _ in pool.map(ask, every):
            pass
    return {"second": len(every) / (time.perf_counter() - began)}


# The ways, each in a process of its own: a line of JSON when it is ready, and one for each line that it is given.

def resident() -> int:
    """Bytes that are resident in this process."""
    return int(pathlib.Path("/proc/self/statm").read_text().split()[1]) * os.sysconf("SC_PAGE_SIZE")


def schema() -> tuple[Any, ...]:
    import dilforec

    return tuple(dilforec.Field(field["name"], field["kind"], field.get("default", False)) for field in corpus.SCHEMA["schema"])


def freeze() -> None:
    """Hides what is there from Python's collector of garbage, which would look at it in the middle of builds and searches: each time for 40 ms."""
    gc.collect()
    gc.freeze()


def serve(ask: Callable[[bytes], bytes], **ready: Any) -> None:
    """Says that a way is ready, and has it search as it is asked: `SET` for one thread, `SET together` for many."""
    freeze()
    print(json.dumps(ready), flush=True)
    for asked in sys.stdin:
        name, _, how = asked.strip().partition(" ")
        print(json.dumps((together if how else timed)(ask, SETS[name]())), flush=True)


def one(paths: list[str], workers: int) -> None:
    """One partition of all files, in this process."""
    from dilforec.cluster._partitions import Partition
    from dilforec.cluster._sources import JsonLines

    class Files(JsonLines):
        def lines(self) -> Iterator[bytes]:
            return itertools.chain.from_iterable(JsonLines(path).lines() for path in paths)

    freeze()
    empty, began = resident(), time.perf_counter()
    index = Partition(schema(), Files(paths[0])).built().index
    built = time.perf_counter() - began
    with index.searcher() as searcher:
        serve(searcher.execute, build=built, resident=resident() - empty)


def threads(paths: list[str], workers: int) -> None:
    """A partition for each path, each made and searched by a thread of its own."""
    from dilforec import joins
    from dilforec.cluster._partitions import Partition
    from dilforec.cluster._sources import JsonLines

    freeze()
    empty, began = resident(), time.perf_counter()
    with ThreadPoolExecutor(len(paths)) as pool:
        made = list(pool.map(lambda path: Partition(schema(), JsonLines(path)).built().index, paths))
        built = time.perf_counter() - began
        searchers = [index.searcher() for index in made]

        def ask(line: bytes) -> bytes:
            replies: Iterator[Any] = pool.map(lambda searcher: json.loads(searcher.execute(line)), searchers)
            return joins.encoded(joins.answer(json.loads(line)["search"], list(replies)))

        serve(ask, build=built, resident=resident() - empty)


def dask(paths: list[str], workers: int) -> None:
    """A partition for each path, on Dask workers of one thread."""
    from distributed import Client, LocalCluster

    from dilforec.cluster import Cluster

    with LocalCluster(n_workers=workers, threads_per_worker=1, dashboard_address=None, memory_limit=0) as local, Client(local) as client:
        client.wait_for_workers(workers, timeout=60)
        freeze()
        client.run(freeze)
        empty = sum(client.run(resident).values())
        began = time.perf_counter()
        with Cluster(client, schema(), paths, progress=False) as cluster:
            built = time.perf_counter() - began
            held = sum(client.run(resident).values())
            client.run(freeze)
            serve(cluster.execute, build=built, resident=held - empty, empty=empty / workers)


WAYS = {"one": one, "threads": threads, "dask": dask}


class Way:
    """A way that is ready in a process of its own. At the end of a `with`, it ends."""

    def __init__(self, name: str, paths: list[str], workers: int = WORKERS) -> None:
        self.process = subprocess.Popen(
            [sys.executable, __file__, "--way", name, str(workers), *paths], stdin=subprocess.PIPE, stdout=subprocess.PIPE, text=True,
            env={**os.environ, **EVENT_LOOP})
        assert self.process.stdin and self.process.stdout
        self.input, self.output = self.process.stdin, self.process.stdout
        self.ready = self.read()

    def read(self) -> dict[str, Any]:
        line = self.output.readline()
        if not line:
            raise RuntimeError(f"a way ended with {self.process.wait()}")
        found: dict[str, Any] = json.loads(line)
        return found

    def ask(self, asked: str) -> dict[str, Any]:
        self.input.write(asked + "\n")
        self.input.flush()
        return self.read()

    def __enter__(self) -> Way:
        return self

    def __exit__(self, *_: object) -> None:
        self.input.close()
        self.process.wait()


# What is measured.

def write(path: str, count: int, seed: int) -> None:
    """Writes `count` documents, as lines of JSON."""
    with open(path, "w") as file:
        for document in corpus.documents(count, seed, WORDS_EACH):
            file.write(json.dumps(document._asdict(), separators=(",", ":")) + "\n")


@contextlib.contextmanager
def written(count: int, parts: int) -> Iterator[list[str]]:
    """Files of JSON lines, `count` documents in all."""
    with tempfile.TemporaryDirectory() as folder:
        paths = [f"{folder}/{part}.jsonl" for part in range(parts)]
        with ProcessPoolExecutor(WORKERS) as pool:
            list(pool.map(write, paths, itertools.repeat(count // parts), range(1, parts + 1)))
        yield paths


def built(name: str, paths: list[str]) -> dict[str, Any]:
    """The least of what some builds took, each of which ends before the next begins."""
    runs = []
    for _ in range(BUILDS - 1):
        with Way(name, paths) as way:
            runs.append(way.ready)
    return {key: min(run[key] for run in runs) for key in runs[0]} if runs else {}


def others() -> float:
    """How many others run or wait to run, on average over a second. The machine's load would also be of what ran before."""
    looks = []
    for _ in range(20):
        time.sleep(0.05)
        looks.append(int(pathlib.Path("/proc/loadavg").read_text().split()[3].partition("/")[0]) - 1)
    return statistics.fmean(looks)


def wait_for_quiet(end: float) -> None:
    """Waits until nearly nothing else runs, or that time comes."""
    while time.monotonic() < end and others() >= QUIET:
        pass


def in_turns(ways: dict[str, Way], asked: str, turns: int = TURNS) -> dict[str, list[dict[str, Any]]]:
    """Rounds of searches of each way. They take turns, every other time the other way around, and must agree."""
    rounds: dict[str, list[dict[str, Any]]] = {name: [] for name in ways}
    for turn in range(turns):
        for name in list(ways)[::-1 if turn % 2 else 1]:
            rounds[name].append(ways[name].ask(asked))
    if len({found["digest"] for each in rounds.values() for found in each}) != 1:
        raise AssertionError(f"the ways {', '.join(ways)} differ")
    return rounds


def quickest(rounds: dict[str, list[dict[str, Any]]]) -> dict[str, dict[str, Any]]:
    """The quickest round of each way."""
    return {name: min(each, key=lambda found: float(found["mean"])) for name, each in rounds.items()}


def point(count: int, patient_until: float) -> dict[str, Any]:
    """All three ways over `count` documents, on a quiet machine if there is one by then."""
    wait_for_quiet(patient_until)
    with written(count, WORKERS) as paths:
        found: dict[str, Any] = {"documents": count, "load": os.getloadavg()[0], "json": sum(map(os.path.getsize, paths))}
        before = {name: built(name, paths) for name in WAYS}
        with Way("one", paths) as index, Way("threads", paths) as of_threads, Way("dask", paths) as cluster:
            ways = {"one": index, "threads": of_threads, "dask": cluster}
            wait_for_quiet(patient_until)
            rounds = in_turns(ways, "mixed", POINT_TURNS)
        times = quickest(rounds)
        ratios = [mine["mean"] / theirs["mean"] for mine, theirs in zip(rounds["dask"], rounds["threads"])]
        found |= {"turns": POINT_TURNS, "times": statistics.median(ratios)}
        for name, way in ways.items():
            found[name] = {**times[name], **{key: min(value, before[name].get(key, value)) for key, value in way.ready.items()}}
    return found


def many() -> dict[str, Any]:
    """Many small partitions on four workers, beside one index of all their documents."""
    with written(PARTITIONS * FEW, PARTITIONS) as paths, Way("one", paths) as index, Way("dask", paths) as cluster:
        ways = {"one": index, "dask": cluster}
        top, search = quickest(in_turns(ways, "long")), quickest(in_turns(ways, "mixed"))
        second = max(cluster.ask("mixed together")["second"] for _ in range(TURNS))
        return {"top": {name: found["mean"] for name, found in top.items()}, "search": {name: found["mean"] for name, found in search.items()},
                "second": second, "build": cluster.ready["build"]}


def in_few() -> float:
    """Mean milliseconds of a search in one partition of few documents."""
    with written(FEW, 1) as paths, Way("one", paths) as index:
        return min(float(index.ask("mixed")["mean"]) for _ in range(TURNS))


def small() -> list[dict[str, Any]]:
    """Clusters with partitions of few documents, which take turns: what a search costs besides itself."""
    sizes = (*FITTED, *JUDGED)
    most = max(partitions for _, partitions in sizes)
    means: list[list[float]] = []
    with written(most * FEW, most) as paths, contextlib.ExitStack() as stack:
        clusters = [stack.enter_context(Way("dask", paths[:partitions], workers)) for workers, partitions in sizes]
        for _ in range(SMALL_TURNS):
            means.append([cluster.ask("mixed")["mean"] for cluster in clusters])
    return [{"workers": workers, "partitions": partitions, "mean": min(each), **cluster.ready}
            for (workers, partitions), cluster, each in zip(sizes, clusters, zip(*means))]


def read_alone(path: str) -> float:
    """Seconds of reading a file's lines as a partition does, without an index."""
    from dilforec.cluster._sources import JsonLines, whole_lines

    source, digest = JsonLines(path), hashlib.blake2b(digest_size=16)
    began = time.perf_counter()
    lines = whole_lines(source.lines())
    while block := list(itertools.islice(lines, 256)):
        digest.update(b"".join(block))
        b"".join(source.command(line, ()) + b"\n" for line in block)
    return time.perf_counter() - began


class Join(NamedTuple):
    """Microseconds of a hit or a group: to split it from a partition's reply, to read it, to send it, to join it with others', to print it.

    A group that several partitions of a worker have is read once.
    """
    split: float
    read: float
    sent: float
    joined: float
    printed: float


def joining() -> dict[str, Join]:
    """What the joining of a hit of a top list, and of a group, takes."""
    from dilforec import joins
    from dilforec.cluster import _partials, _requests

    parts, size = 8, 10_000
    hits: dict[str, Any] = {"count": size, "top": [{"doc": {"price": number}, "stamp": number, "value": number} for number in range(size)]}
    groups: dict[str, Any] = {"count": size, "groups": [[f"k{number:07}", 1] for number in range(size)]}
    took = {}
    for name, reply, k in ("hit", hits, parts * size), ("group", groups, None):
        line = joins.encoded(reply)
        times = [time.perf_counter()]
        joinings = []
        for rank in range(parts):
            joinings.append(_partials.Joining(k, False))
            joinings[-1].add(line, rank, b'"source"')
        times.append(time.perf_counter())
        answers = [joining.answer() for joining in joinings]
        times.append(time.perf_counter())
        sent = pickle.loads(_requests.Reply(answers, ()).pickled()).results
        times.append(time.perf_counter())
        answer = _partials.joined(sent, k)
        times.append(time.perf_counter())
        _partials.encoded(answer)
        times.append(time.perf_counter())
        # Of equal groups there is one in the end.
        counts = [parts * size] * 4 + [size if k is None else parts * size]
        took[name] = Join(*((end - begin) / count * 1e6 for begin, end, count in zip(times, times[1:], counts)))
    return took


def measure(counts: tuple[int, ...] = COUNTS, minutes: float = 0) -> dict[str, Any]:
    """All that `shown` shows. Points wait for a quiet machine, until so many minutes have passed since the first began."""
    with written(100_000, 1) as (path,):
        reading = min(read_alone(path) for _ in range(TURNS)) / 100_000 * 1e6
    before = {"few": in_few(), "small": small(), "many": many()}
    patient_until = time.monotonic() + 60 * minutes
    return {
        **before, "points": [point(count, patient_until) for count in counts],
        "reading": reading, "joining": {name: list(took) for name, took in joining().items()},
        "processors": os.cpu_count(), "words each": WORDS_EACH, "event loop": "uvloop" if EVENT_LOOP else "asyncio",
    }


# The model.

class Groups(NamedTuple):
    """How many groups a partition has; how many a worker has, and how many texts of these, with their counts, differ; how many there are in all."""
    partition: float
    worker: float
    texts: float
    whole: float


def groups_of(documents: float, partitions: int, workers: int) -> Groups:
    """The groups of a tenth of the documents by their tags, with so many documents in each partition."""
    share, hits = partitions / workers, documents / 10
    mean = hits / corpus.TAGS
    # Each tag's count is that of a Poisson distribution. Nearly none is over ten deviations above its mean.
    chances = [math.exp(count * math.log(mean) - mean - math.lgamma(count + 1)) for count in range(1, math.ceil(mean + 10 * math.sqrt(mean) + 10))]
    tags = [corpus.TAGS * (1 - math.exp(-mean * many)) for many in (1, share, partitions)]
    return Groups(tags[0], tags[1], corpus.TAGS * sum(1 - (1 - chance) ** share for chance in chances), tags[2])


def searched(constants: dict[str, float], documents: float) -> float:
    """Mean milliseconds of a search in one partition of `documents` documents: two straight lines, which meet at the fewest of `point`."""
    bend, at_bend = constants["bend"], constants["alone"] + constants["million"] * constants["bend"] / 1e6
    if documents >= bend:
        return constants["alone"] + constants["million"] * documents / 1e6
    return constants["few"] + (at_bend - constants["few"]) * max(documents - FEW, 0) / max(bend - FEW, 1)


def asked(constants: dict[str, float], workers: int) -> float:
    """Milliseconds until all workers are asked: those that one asks are asked one after the other."""
    from dilforec.cluster._requests import FAN_OUT

    return constants["worker"] * (workers if workers <= FAN_OUT else 1 + below(workers, FAN_OUT))


def below(workers: int, fan_out: int) -> int:
    """How many workers are asked one after the other, from the top of a tree of some workers to its last."""
    others = workers - 1
    if not others:
        return 0
    count = min(others, fan_out)
    return count + below(math.ceil(others / count), fan_out)


def lists(workers: int) -> int:
    """How many lists are joined one after the other, from the last worker of a tree to the client."""
    from dilforec.cluster._requests import FAN_OUT

    return workers if workers <= FAN_OUT else 1 + below(workers, FAN_OUT)


def groups_joined(constants: dict[str, float], groups: Groups, partitions: int, workers: int) -> float:
    """Milliseconds of joining groups."""
    own = partitions / workers * groups.partition * constants["group split"] + groups.texts * constants["group read"]
    others = lists(workers) * groups.worker * (constants["group sent"] + constants["group joined"])
    return (own + others + groups.whole * constants["group printed"]) / 1e3


def hits_joined(constants: dict[str, float], k: float, partitions: int, workers: int) -> float:
    """Milliseconds of joining a top list of k hits. A worker sends no more than k."""
    from dilforec import joins

    share = joins.share(int(k), partitions)
    own = partitions / workers * share * (constants["hit split"] + constants["hit read"])
    others = min(partitions * share, lists(workers) * k) * (constants["hit sent"] + constants["hit joined"])
    return (own + others + k * constants["hit printed"]) / 1e3


def joined(constants: dict[str, float], documents: float, partitions: int, workers: int) -> float:
    """Mean milliseconds of joining. One search in four has groups, one a top ten."""
    groups = groups_joined(constants, groups_of(documents, partitions, workers), partitions, workers)
    return (groups + hits_joined(constants, 10, partitions, workers)) / 4


def of_cluster(constants: dict[str, float], documents: float, partitions: int, workers: int) -> float:
    """Mean milliseconds of a search in a cluster with so many documents in each partition."""
    share = partitions / workers
    return (constants["round"] + asked(constants, workers) + share * (constants["partition"] + searched(constants, documents))
            + joined(constants, documents, partitions, workers))


def middle(count: int) -> int:
    """The place of the point in the middle of so many."""
    return count // 2


def model(raw: dict[str, Any]) -> dict[str, float]:
    """The constants, in microseconds, bytes and milliseconds.

    Searches and memory are taken from one process over the fewest and the most documents, searches in few documents from a partition of FEW, builds
    from the most, and what Dask adds from the clusters of FITTED. What threads add grows a little with the documents, as longer searches meet more
    often, so it is taken from the number of documents in the middle.
    """
    least, most = raw["points"][0], raw["points"][-1]
    between = raw["points"][middle(len(raw["points"]))]
    documents, more = most["documents"], max(most["documents"] - least["documents"], 1)
    resident = (most["one"]["resident"] - least["one"]["resident"]) / more or least["one"]["resident"] / least["documents"]
    million = max((most["one"]["mean"] - least["one"]["mean"]) / more * 1e6, 0)
    start = min(found["build"] for found in raw["small"])
    constants = {
        "build": most["one"]["build"] / documents * 1e6, "beside": max(most["dask"]["build"] - start, 0) * WORKERS / documents * 1e6,
        "turns": most["threads"]["build"] / documents * 1e6, "reading": raw["reading"], "start": start,
        "resident": resident, "of lines": most["one"]["resident"] / most["json"],
        "held": max(least["one"]["resident"] - resident * least["documents"], 0), "empty": most["dask"]["empty"],
        "few": raw["few"], "bend": least["documents"],
        "alone": max(least["one"]["mean"] - million * least["documents"] / 1e6, 0), "million": million,
        **{f"{name} {part}": value for name, took in raw["joining"].items() for part, value in zip(Join._fields, took)},
        "round": 0.0, "worker": 0.0, "partition": 0.0, "handing": 0.0,
    }
    # What is left of a measured search once all else is taken away.
    by_size = {(found["workers"], found["partitions"]): found["mean"] for found in raw["small"]}
    few, base_of_four, many_of_four = (by_size[size] - of_cluster(constants, FEW, size[1], size[0]) for size in FITTED)
    (_, parts), (workers, share), (_, full) = FITTED
    constants["partition"] = max((many_of_four - base_of_four) / (full / workers - share / workers), 0)
    constants["worker"] = max((base_of_four - few + (parts - share / workers) * constants["partition"]) / (workers - 1), 0)
    constants["round"] = max(base_of_four - workers * constants["worker"] - share / workers * constants["partition"], 0)
    of_threads = predicted("threads", constants, between["documents"])["mean"]
    constants["handing"] = max(between["threads"]["mean"] - of_threads, 0)
    return constants


def predicted(way: str, constants: dict[str, float], documents: float, workers: int = WORKERS) -> dict[str, float]:
    """Seconds of a build, resident bytes of the documents, and the mean milliseconds of a search, with a partition for each worker."""
    share = documents if way == "one" else documents / workers
    search = searched(constants, share)
    built = constants["build" if way == "one" else "beside"] * share / 1e6
    if way == "threads":
        built = constants["turns"] * documents / 1e6
        # Their replies have the same groups and top lists at every point, and aren't joined by the cluster's code.
        search += constants["handing"]
    if way == "dask":
        built, search = built + constants["start"], of_cluster(constants, share, workers, workers)
    held = constants["resident"] * documents + constants["held"] * (1 if way == "one" else workers)
    return {"build": built, "resident": held, "mean": search}


NAMES = {"one": "one process", "threads": f"{WORKERS} threads", "dask": f"{WORKERS} Dask workers"}
COLUMNS = {"build": ("build, s", 1.0), "resident": ("resident, MB", 1e-6), "mean": ("search, mean ms", 1.0)}


class Ratio(NamedTuple):
    """What was measured divided by what the model says, and whether a constant of the model is from it."""
    value: float
    is_fitted: bool

    def __str__(self) -> str:
        return f"({self.value:.2f})" if self.is_fitted else f"{self.value:.2f}"


def is_fitted(way: str, name: str, place: int, count: int) -> bool:
    """Whether a constant of the model is from a number of a point, the `place`th of so many."""
    if name == "build":
        return place == count - 1
    if way == "one":
        return place in (0, count - 1)
    return way == "threads" and name == "mean" and place == middle(count)


def shown(raw: dict[str, Any]) -> str:
    """The tables of docs/MEASURED.md."""
    if "few" not in raw:
        return "These weren't measured since the model tells searches in few documents apart."
    constants = model(raw)
    points, ratios = points_shown(raw, constants)
    clusters, more = clusters_shown(raw, constants)
    judged = [ratio.value for ratio in ratios + more if not ratio.is_fitted]
    near = sum(abs(value - 1) < NEAR for value in judged)
    turns = " to ".join(map(str, sorted({found.get("turns", TURNS) for found in raw["points"]})))
    return "\n\n".join([
        f"Documents of {raw['words each']} words; {SEARCHES} searches in turn of a word, two words (AND), a tenth of the `i64`s with groups by the "
        f"keyword, and a word with a top ten. The quickest of {BUILDS} builds and {turns} rounds counts. Dask's event loops are "
        f"{raw.get('event loop', 'asyncio')}'s. Ratios are to the model, in parentheses where it takes a constant from the number; `bench/scale.py` "
        "prints these.",
        points, clusters, many_shown(raw),
        f"Of the {len(judged)} ratios that no constant is from, {near} are within a third; the furthest are {min(judged):.2f} and {max(judged):.2f}.",
        machines_shown(constants),
    ])


def points_shown(raw: dict[str, Any], constants: dict[str, float]) -> tuple[str, list[Ratio]]:
    heads = [f"{head} | model | ratio" for head, _ in COLUMNS.values()]
    rows = ["| documents | | " + " | ".join(heads) + " | median, ms | 99 %, ms |", "|---|---|" + "---:|" * (3 * len(heads) + 2)]
    ratios = []
    for (place, found), way in itertools.product(enumerate(raw["points"]), WAYS):
        said = predicted(way, constants, found["documents"])
        cells = []
        for name, (_, unit) in COLUMNS.items():
            ratios.append(Ratio(found[way][name] / said[name], is_fitted(way, name, place, len(raw["points"]))))
            cells += [figure(found[way][name] * unit), figure(said[name] * unit), str(ratios[-1])]
        cells += [figure(found[way]["median"]), figure(found[way]["most"])]
        rows.append(f"| {found['documents']:,} | {NAMES[way]} | " + " | ".join(cells) + " |")
    last = raw["points"][-1]
    times, how = last["dask"]["mean"] / last["threads"]["mean"], "It is the ratio of the quickest rounds."
    # What was measured earlier has no ratios of turns.
    if "times" in last:
        times, how = last["times"], f"It is the median of the ratios of {last['turns']} turns, in each of which both had a round."
    told = f"Over {last['documents']:,} documents a search takes {times:.2f} times as long on Dask as by threads. {how}"
    return "\n".join(rows) + f"\n\n{told}", ratios


def clusters_shown(raw: dict[str, Any], constants: dict[str, float]) -> tuple[str, list[Ratio]]:
    rows = [f"| partitions of {FEW:,} documents | Dask workers | search, mean ms | model | ratio |", "|---:|---:|---:|---:|---:|"]
    ratios = []
    for found in raw["small"]:
        said = of_cluster(constants, FEW, found["partitions"], found["workers"])
        ratios.append(Ratio(found["mean"] / said, (found["workers"], found["partitions"]) in FITTED))
        rows.append(f"| {found['partitions']} | {found['workers']} | {figure(found['mean'])} | {figure(said)} | {ratios[-1]} |")
    return "\n".join(rows), ratios


def many_shown(raw: dict[str, Any]) -> str:
    found = raw["many"]
    rows = [
        (f"milliseconds of a top list of {LONG_TOP:,}", found["top"]["dask"]), ("and in one index", found["top"]["one"]),
        ("times as long", found["top"]["dask"] / found["top"]["one"]), ("milliseconds of a search alone", found["search"]["dask"]),
        (f"searches a second, from {THREADS} threads", found["second"]),
    ]
    title = f"{PARTITIONS} partitions of {FEW:,} documents on {WORKERS} Dask workers"
    return "\n".join([f"| {title} | |", "|---|---:|", *(f"| {words} | {figure(value)} |" for words, value in rows)])


def constants_shown(constants: dict[str, float]) -> str:
    found = [
        ("microseconds to build a document, in one process", constants["build"]),
        (f"in each of {WORKERS} beside each other", constants["beside"]),
        (f"by {WORKERS} threads of one process", constants["turns"]),
        ("of these to read its line", constants["reading"]),
        ("resident bytes per document", constants["resident"]),
        ("and per byte of JSON", constants["of lines"]),
        ("resident megabytes per partition beside these", constants["held"] / 1e6),
        ("resident megabytes of a worker without documents", constants["empty"] / 1e6),
        (f"milliseconds of a search in one partition of {FEW:,} documents", constants["few"]),
        (f"of {constants['bend']:,.0f} documents or more, without what grows with them", constants["alone"]),
        ("and per million of its documents", constants["million"]),
        ("milliseconds to hand a search to threads and to join their replies", constants["handing"]),
        ("seconds to make a cluster", constants["start"]),
        ("milliseconds of a round on Dask", constants["round"]),
        ("per worker that one asks", constants["worker"]),
        ("and per partition of a worker", constants["partition"]),
        *((f"microseconds per {name} that is {part}", constants[f"{name} {part}"]) for name in ("hit", "group") for part in Join._fields),
    ]
    return "\n".join(["| constant of the model | |", "|---|---:|", *(f"| {words} | {figure(value)} |" for words, value in found)])


def machines_shown(constants: dict[str, float], machines: int = 100, documents: float = 1e10) -> str:
    """What the model says of many machines of this kind, with a partition for each worker."""
    workers = machines * WORKERS
    said = predicted("dask", constants, documents, workers)
    alone = searched(constants, documents / workers)
    found = [
        ("documents of a partition", documents / workers),
        ("gigabytes of a machine", (said["resident"] / machines + constants["empty"] * WORKERS) / 1e9),
        ("minutes to build", said["build"] / 60), ("milliseconds of a search alone", said["mean"]),
        ("of these in the partitions, side by side", alone), ("and to ask all workers", asked(constants, workers)),
        ("searches a second, many at a time", 1e3 / (alone + constants["partition"])),
        (f"seconds of joining a top list of {LONG_TOP:,}", hits_joined(constants, LONG_TOP, workers, workers) / 1e3),
        ("seconds of joining a million groups from each partition", groups_joined(constants, Groups(1e6, 1e6, 1e6, 1e6), workers, workers) / 1e3),
        ("minutes until a lost machine's partitions are made again", constants["beside"] * documents / workers / 1e6 / 60),
    ]
    title = f"the model: {machines} machines of {WORKERS} workers, {documents:,.0f} documents"
    return "\n".join([f"| {title} | |", "|---|---:|", *(f"| {words} | {figure(value)} |" for words, value in found)])


def figure(value: float) -> str:
    """Three digits."""
    return f"{value:,.0f}" if value >= 100 else f"{value:.3g}"


def main() -> None:
    if sys.argv[1:2] == ["--way"]:
        WAYS[sys.argv[2]](sys.argv[4:], int(sys.argv[3]))
    else:
        raw = measure(tuple(map(int, sys.argv[1:])) or COUNTS)
        read = json.loads(json.dumps(raw))
        print(f"{shown(read)}\n\n{constants_shown(model(read))}")


if __name__ == "__main__":
    main()
