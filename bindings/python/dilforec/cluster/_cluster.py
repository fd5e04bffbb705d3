"""The partitions of a cluster."""
# Dask has no types.
# mypy: allow-untyped-calls
from __future__ import annotations

import importlib
import itertools
import os
import sys
import threading
import time
import uuid
import weakref
from collections.abc import Iterable, Sequence
from dataclasses import dataclass
from typing import Any, NamedTuple, Optional, Union, overload

import distributed

from dilforec.cluster._connections import Connections
from dilforec.cluster._partitions import Refusal, make
from dilforec.cluster._places import Part, Places
from dilforec.cluster._responder import ResponderPlugin
from dilforec.cluster._rounds import Rounds
from dilforec.cluster._searches import Joined
from dilforec.cluster._sources import JsonLines, Source
from dilforec.index import GroupsBy, Searcher, Searching, SearchLines
from dilforec.library import Closed
from dilforec.values import Answer, Field, GroupCounts, Groups, Top

# Seconds between the tries to have all workers answer searches.
PAUSES = (0.1, 0.5, 2.0)


class Counts(NamedTuple):
    """How many documents a partition has, and how many lines of its source it refused."""

    documents: int
    refused: int


@dataclass(frozen=True)
class Search:
    """One of the searches of `Cluster.search_many`, with what `Cluster.search` takes."""

    query: str
    groups: Union[GroupsBy, Sequence[GroupsBy], None] = None
    top: Optional[Top] = None
    fields: Optional[Sequence[str]] = None

    def lines(self) -> SearchLines:
        asked = SearchLines(self.query, self.groups, self.top, self.fields)
        asked.expect_all_groups()
        return asked


class Cluster(Searching):
    """An index whose partitions are on the workers of a Dask cluster.

    Each source becomes a partition: a path is a file of documents as JSON lines, `Script` a file of script lines and
    `Documents` a function. A delete in a script reaches the documents of its own source alone. Partitions are made in
    parallel, and then they don't change; new documents are a new source.

    A line that is refused is skipped, and `refused` lists it; with `strict` it raises SourceRefused instead, from here
    and from `add_source`, as does all else that keeps a source from being read. `progress` shows Dask's bar on a
    terminal or in a notebook.

    `search`, `hits` and `execute` are those of an index. A hit's stamp is of its `source`: of hits with equal values
    those of the source that was added first come first, and then those of the smaller stamp.

    Searches go to the workers themselves, those of several threads together, and are joined on the way. With a
    `timeout`, in seconds, a search raises TimeoutError if it isn't answered in time; the cluster stays as it is.

    A partition that is lost with its worker is made again from its source; searches wait for it. If the source has
    other lines by then, they raise SourceChanged until it is added again or dropped. If an exception keeps it from
    being read, that is tried again, and then SourceUnreadable is raised; the next search tries again. A search that
    loses a partition again and again raises PartitionLost. No search leaves a partition out: it answers over all of
    them, or raises, also what Dask raises when the cluster can't go on.

    It may be used from several threads. `close`, or the end of a `with`, drops the partitions; the client stays open.
    """

    _channel: Joined

    def __init__(
        self, client: distributed.Client, schema: Sequence[Field],
        sources: Iterable[Union[str, os.PathLike[str], Source]], *, strict: bool = False, progress: bool = True,
    ) -> None:
        if client.asynchronous:
            raise ValueError("the client is asynchronous, and searches wait: make one that isn't")
        self._client, self._schema = client, tuple(schema)
        self._strict, self._progress = strict, progress
        self._places = Places(client)
        self._connections = Connections(client.rpc, client.loop.asyncio_loop, self._places.reached)
        endings = _endings_of(client)
        endings.open.add(self._connections)
        self._end_connections = weakref.finalize(self, endings.end, self._connections)
        self._end_connections.atexit = False
        # It is held by what puts another channel in the place of this one, or closes it.
        self._lock = threading.Lock()
        _register(client)
        self._channel = self._joined(self._made([_source(source) for source in sources]))

    def add_source(self, source: Union[str, os.PathLike[str], Source]) -> None:
        """Makes a partition of one more source. A source of the same name is replaced by it.

        Searches find its documents once this returns; the other partitions stay as they are. Closed if the cluster is
        closed, also meanwhile.
        """
        self._check_open()
        made = self._made([_source(source)])
        with self._lock:
            self._take({**self._channel.parts, **made})

    def drop_source(self, name: Union[str, os.PathLike[str]]) -> None:
        """Drops the partition of a source; the others stay as they are. KeyError if there is none of this name."""
        with self._lock:
            self._check_open()
            parts = self._channel.parts
            del parts[os.fspath(name)]
            self._take(parts)

    def close(self) -> None:
        with self._lock:
            self._channel.close()
        self._end_connections()

    def _check_open(self) -> None:
        if not self._channel.is_open:
            raise Closed("closed")

    def _take(self, parts: dict[str, Part]) -> None:
        """Has searches go over these partitions from now on."""
        self._check_open()
        before, self._channel = self._channel.parts, self._joined(parts)
        here = {part.future.key for part in parts.values()}
        gone = [part.future.key for part in before.values() if part.future.key not in here]
        self._client.loop.add_callback(self._places.forget, gone)

    def _joined(self, parts: dict[str, Part]) -> Joined:
        return Joined(self._rounds(list(parts.values())))

    def _rounds(self, parts: Sequence[Part]) -> Rounds:
        return Rounds(self._client, self._connections, self._places, parts)

    def counts(self) -> dict[str, Counts]:
        """Documents and refused lines of each partition, by the name of its source, in the order of the sources."""
        summaries = {name: part.summary for name, part in self._channel.parts.items()}
        return {name: Counts(each.documents, each.refused) for name, each in summaries.items() if each}

    def refused(self) -> list[Refusal]:
        """The lines that were refused, the first 1,000 of each source; `counts` has their number."""
        summaries = [part.summary for part in self._channel.parts.values()]
        return [refusal for each in summaries if each for refusal in each.refusals]

    @overload
    def search(self, query: str, *, groups: Union[str, Groups, None] = None, top: Optional[Top] = None,
               fields: Optional[Sequence[str]] = None, timeout: Optional[float] = None) -> Answer[GroupCounts]: ...

    @overload
    def search(
        self, query: str, *, groups: Union[list[str], list[Groups], list[GroupsBy], tuple[GroupsBy, ...]],
        top: Optional[Top] = None, fields: Optional[Sequence[str]] = None, timeout: Optional[float] = None,
    ) -> Answer[dict[str, GroupCounts]]: ...

    def search(self, query: str, *, groups: Union[GroupsBy, Sequence[GroupsBy], None] = None,
               top: Optional[Top] = None, fields: Optional[Sequence[str]] = None,
               timeout: Optional[float] = None) -> Answer[Any]:
        """As an index's `search`, with all groups of a field: TypeError for `Groups` with a limit.

        TimeoutError if it isn't answered within `timeout` seconds.
        """
        return self.search_many([Search(query, groups, top, fields)], timeout=timeout)[0]

    def search_many(
        self, searches: Iterable[Union[str, Search]], *, timeout: Optional[float] = None,
    ) -> list[Answer[Any]]:
        """The answers to several searches, which go to the workers together. A str is a query without anything else.

        If one is refused, that is raised, and the others' answers are lost. TimeoutError if not all are answered within
        `timeout` seconds.
        """
        asked = [(Search(each) if isinstance(each, str) else each).lines() for each in searches]
        lines = [(line, each.names if place == 0 else None) for each in asked for place, line in enumerate(each.lines)]
        replies = iter(self._channel.within(_checked(timeout)).ask_all(lines))
        return [self._answered(each, list(itertools.islice(replies, len(each.lines)))) for each in asked]

    def searcher(self, *, timeout: Optional[float] = None) -> Searcher:
        """A searcher of the partitions as they are now. Its searches raise TimeoutError after `timeout` seconds."""
        return Searcher(self._channel.within(_checked(timeout)), self._schema)

    def _made(self, sources: Sequence[Source]) -> dict[str, Part]:
        """New partitions, by the names of their sources."""
        names = [source.name for source in sources]
        if len(set(names)) < len(names):
            raise ValueError(f"two sources are named {max(names, key=names.count)!r}")
        # Each has a key of its own, so what is added again is read again.
        futures = [
            self._client.submit(make, self._schema, source, self._strict, key=f"dilforec-partition-{uuid.uuid4().hex}")
            for source in sources
        ]
        if self._progress and futures:
            _show_progress(futures)
        # The client needn't be Dask's default.
        with self._client.as_current():
            distributed.wait(futures)
        for future in futures:
            if future.status == "error":
                future.result()
        parts = list(map(Part, names, futures))
        summaries = self._rounds(parts).summaries()
        return {part.source: part._replace(summary=summary) for part, summary in zip(parts, summaries)}


class _Endings:
    """Ends the connections of a client as it closes: Dask tears it down then, as one of the client's preloads."""

    def __init__(self) -> None:
        self.open: set[Connections] = set()

    def end(self, connections: Connections) -> None:
        self.open.discard(connections)
        connections.end()

    async def start(self) -> None:
        """Does nothing: a client that starts has no connections."""

    async def teardown(self) -> None:
        for connections in list(self.open):
            self.end(connections)


def _endings_of(client: distributed.Client) -> _Endings:
    """What ends the connections of a client."""
    for each in client.preloads:
        if isinstance(each, _Endings):
            return each
    endings = _Endings()
    # Later versions of Dask have no list of them. There the connections end with their Cluster.
    if isinstance(client.preloads, list):
        client.preloads.append(endings)
    return endings


def _checked(timeout: Optional[float]) -> Optional[float]:
    """A timeout, if it is one."""
    if timeout is not None and not timeout > 0:
        raise ValueError(f"a timeout is a number of seconds above 0, or None, not {timeout!r}")
    return timeout


def _register(client: distributed.Client) -> None:
    """Has the workers answer searches, those that are there and those that come."""
    # Since version 2023.9.2, Dask has one function for all kinds of plugins.
    register = getattr(client, "register_plugin", None) or client.register_worker_plugin
    for pause in PAUSES:
        try:
            register(ResponderPlugin(), name=ResponderPlugin.name)
            return
        except OSError:
            # A worker died, and the scheduler didn't know.
            time.sleep(pause)
    register(ResponderPlugin(), name=ResponderPlugin.name)


def _show_progress(futures: list[Any]) -> None:
    """Dask's bar. On a terminal it waits for the futures; in a notebook it is a widget."""
    notebook = distributed.utils.is_kernel()
    if notebook or sys.stdout.isatty():
        bar = distributed.progress(futures, notebook=notebook)
        if bar is not None:
            importlib.import_module("IPython.display").display(bar)


def _source(source: Union[str, os.PathLike[str], Source]) -> Source:
    """A source, of whose name hits can be printed."""
    source = source if isinstance(source, Source) else JsonLines(source)
    try:
        source.name.encode()
    except UnicodeEncodeError:
        raise ValueError(f"the name of the source {source.name!r} isn't Unicode") from None
    return source
