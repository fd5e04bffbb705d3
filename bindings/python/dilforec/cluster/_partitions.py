"""A partition: the index of one source, as the result of a task on a Dask worker."""
# Dask has no types.
# mypy: allow-untyped-calls
from __future__ import annotations

import contextlib
import hashlib
import itertools
import json
import threading
from collections.abc import Iterator
from dataclasses import dataclass, field
from typing import Any, NamedTuple, Optional

from dask.sizeof import sizeof

from dilforec.cluster._sources import LongLine, Source, whole_lines
from dilforec.index import LONGEST_LINE, Index, Searcher, channel_of
from dilforec.library import MEMORY, fault
from dilforec.values import Field

# Documents of a commit: as many as one segment takes. A source's file of script lines has its own commits.
COMMIT = 65_536
# Lines that are handed to the index at once.
BLOCK = 256
# Refused lines that a partition lists; it counts all of them.
LISTED = 1_000
# About how many bytes are resident for each byte of lines that the index took; bench/scale.py measures it.
HELD = 3


class Refusal(NamedTuple):
    """A line of a source that its partition refused and skipped. `line` counts from 1; of a function, its documents."""

    source: str
    line: int
    name: str


class SourceRefused(ValueError):
    """A line of a source was refused, and the cluster is strict."""

    def __init__(self, refusal: Refusal) -> None:
        super().__init__(refusal)
        self.refusal = refusal

    def __str__(self) -> str:
        return f"{self.refusal.source}, line {self.refusal.line}: {self.refusal.name}"


class SourceChanged(Exception):
    """A lost partition can't be made again as it was: its source gives other lines now, or none.

    Add the source again, as it is now, or drop it.
    """

    def __init__(self, source: str) -> None:
        super().__init__(source)
        self.source = source

    def __str__(self) -> str:
        return f"{self.source} has changed since it was added: add it again or drop it"


class SourceUnreadable(Exception):
    """A lost partition can't be made again now: an exception, which is the cause, keeps its source from being read.

    It was tried several times. The next search tries again.
    """

    def __init__(self, source: str) -> None:
        super().__init__(source)
        self.source = source

    def __str__(self) -> str:
        why = f": {self.__cause__}" if self.__cause__ else ""
        return f"{self.source} couldn't be read{why}"


class PartitionLost(Exception):
    """A partition was lost several times while one search asked for it.

    That search may be what ends the workers, as by their limit of memory.
    """

    def __init__(self, source: str, times: int) -> None:
        super().__init__(source, times)
        self.source, self.times = source, times

    def __str__(self) -> str:
        return f"the partition of {self.source} was lost {self.times} times while one search asked for it"


class Summary(NamedTuple):
    """How many documents a partition has, what it refused, and the digest of the lines that it was made of."""

    digest: bytes
    documents: int
    refused: int
    refusals: list[Refusal]


@dataclass(frozen=True)
class Built:
    """What a partition has once it is made. `source` is the name of its source as JSON, `size` about how many bytes are
    resident."""

    index: Index
    summary: Summary
    source: bytes
    size: int
    # A searcher that nobody is at: to open one takes as long as a search of few documents.
    _idle: list[Searcher] = field(default_factory=list)

    @contextlib.contextmanager
    def searcher(self) -> Iterator[Searcher]:
        """A searcher that no other thread has until the end of the `with`."""
        try:
            searcher = self._idle.pop()
        except IndexError:
            searcher = self.index.searcher()
        yield searcher
        if self._idle:
            searcher.close()
        else:
            self._idle.append(searcher)


class Partition:
    """The index of a source. It never leaves its process: pickled, it is its source, to be read again if it is asked.

    Dask unpickles in the thread that talks to the scheduler, so nothing is read there.
    """

    def __init__(self, schema: tuple[Field, ...], source: Source, size: int = 0) -> None:
        self.schema, self.source, self._size = schema, source, size
        self._built: Optional[Built] = None
        self._lock = threading.Lock()

    def __reduce__(self) -> tuple[Any, ...]:
        return Partition, (self.schema, self.source, self.size())

    def built(self, strict: bool = False) -> Built:
        """The index, made now if it isn't there. Threads that need it wait for the first."""
        with self._lock:
            if self._built is None:
                self._built = _Building(self.schema, self.source, strict).built()
            return self._built

    def built_before(self) -> Optional[Built]:
        """The index, if it is there."""
        return self._built

    def size(self) -> int:
        """About how many bytes are resident, or will be."""
        return self._built.size if self._built else self._size


sizeof.register(Partition, Partition.size)


class _Building:
    """A partition that is being made: lines go to the index a block at a time, and refusals are listed."""

    def __init__(self, schema: tuple[Field, ...], source: Source, strict: bool) -> None:
        self.schema, self.source, self.strict = schema, source, strict
        self.index = Index(*schema)
        self.digest, self.lines, self.size = hashlib.blake2b(digest_size=16), 0, 0
        self.refused = 0
        self.refusals: list[Refusal] = []
        # Lines that the index has counted: the schema, those of the source, commits.
        self.counted = 1

    def built(self) -> Built:
        lines = whole_lines(self.source.lines())
        while block := list(itertools.islice(lines, BLOCK)):
            self._take(block)
            if self.lines % COMMIT == 0 and not self.source.commits:
                self._commit()
        self._commit()
        documents = self.index.search("*").count
        summary = Summary(self.digest.digest(), documents, self.refused, self.refusals)
        name = json.dumps(self.source.name, ensure_ascii=False).encode()
        return Built(self.index, summary, name, HELD * self.size)

    def _take(self, block: list[bytes]) -> None:
        self.digest.update(b"".join(block))
        commands = [self.source.command(line, self.schema) for line in block]
        long = [place for place, line in enumerate(block)
                if len(commands[place]) > LONGEST_LINE or isinstance(line, LongLine)]
        for place in long:
            commands[place] = b""
        refused = [(place + 1, "LineTooLong") for place in long] + self._done(commands)
        for number, name in sorted(refused):
            self._refuse(self.lines + number, name)
        self.lines += len(block)
        self.size += sum(map(len, commands))

    def _done(self, commands: list[bytes]) -> list[tuple[int, str]]:
        """Has the index do lines, none of which is a search; the places, from 1, and names of what it refused."""
        taken: list[bytes] = []
        code, done = channel_of(self.index).ask_block(commands, lambda replies: taken.append(bytes(replies)))
        if code or not taken:
            raise fault(code or MEMORY)
        before, self.counted = self.counted, self.counted + done
        if b'{"error"' not in taken[0]:
            return []
        refusals = [json.loads(reply) for reply in taken[0].splitlines() if reply.startswith(b'{"error"')]
        return [(refusal["line"] - before, refusal["error"]) for refusal in refusals]

    def _refuse(self, number: int, name: str) -> None:
        refusal = Refusal(self.source.name, number, name)
        if self.strict:
            raise SourceRefused(refusal)
        self.refused += 1
        if self.refused <= LISTED:
            self.refusals.append(refusal)

    def _commit(self) -> None:
        self.index.commit()
        self.counted += 1


def make(schema: tuple[Field, ...], source: Source, strict: bool) -> Partition:
    """The task that makes a partition."""
    partition = Partition(schema, source)
    partition.built(strict)
    return partition
