"""The start: an index made again from its journal."""
from __future__ import annotations

from collections.abc import Callable
from dataclasses import dataclass
from typing import NamedTuple, Optional

from dilforec.index import Index
from dilforec.service import _files as files
from dilforec.service._errors import BadJournal
from dilforec.service._index import execute_lines
from dilforec.service._journal import Journal
from dilforec.service._lines import ADD, ADDS, COMMIT, MARK, OTHERS

# It is called with how many bytes of how many were replayed, and how many documents there are so far.
Progress = Callable[[int, int, int], None]


@dataclass
class Numbers:
    """The highest number that was ever given to a document, that of the last commit, and, after a mark, of the next."""

    last_id: int = 0
    commit: int = 0
    marked: Optional[int] = None


class Source(NamedTuple):
    """Whole transactions, from a place of a file to another. Before them is the schema alone."""

    fd: int
    start: int
    end: int


def replay(journal: Journal, opened: "Callable[[], Index]", progress: Progress) -> "tuple[Index, Numbers]":
    """An index made of a journal's lines, up to its last whole transaction. BadJournal is raised for a refused line.

    A write that a loss of power interrupted can leave bytes 0 before bytes that were written. No line has such a byte,
    so a last transaction that has one is torn: the journal's end is put before it.
    """
    try:
        return replay_source(_source(journal), opened(), progress)
    except BadJournal as error:
        before = journal.before_last()
        if error.at is None or error.at < before or not journal.has_zeros(before):
            raise
        journal.end = before
    return replay_source(_source(journal), opened(), progress)


def _source(journal: Journal) -> Source:
    return Source(journal.fd, len(journal.schema), journal.end)


def replay_source(source: Source, index: Index, progress: Progress) -> "tuple[Index, Numbers]":
    """An index, which has the schema, with a journal's lines done. If that fails, it is closed."""
    numbers = Numbers()
    try:
        for at, block in files.blocks(*source):
            _look(numbers, source, at, block)
            _execute(source, index, at, block)
            progress(at + len(block), source.end, index.stats().live)
    except BaseException:
        index.close()
        raise
    return index, numbers


def _execute(source: Source, index: Index, at: int, block: bytes) -> None:
    executed = execute_lines(index, block)
    if executed.refusals:
        first = executed.refusals[0]
        why = first.why(index)
        before = sum(len(line) + 1 for line in block.split(b"\n")[: first.place])
        raise _refused_at(source, at + before, f"{why.name}: {why}")
    if executed.out_of_memory:
        raise MemoryError("there is no memory for the index")


def _look(numbers: Numbers, source: Source, at: int, block: bytes) -> None:
    """Reads the numbers of a block's lines. A line that a store doesn't write is refused."""
    # Most lines are adds, and go by one search of the block.
    adds = ADDS.findall(b"\n" + block)
    numbers.last_id = max(numbers.last_id, max(map(int, adds), default=0))
    if len(adds) < block.count(b"\n"):
        for line in block.split(b"\n")[:-1]:
            if not ADD.match(line):
                _look_at(numbers, source, at, block, line)


def _look_at(numbers: Numbers, source: Source, at: int, block: bytes, line: bytes) -> None:
    if line == COMMIT[:-1]:
        numbers.commit = numbers.commit + 1 if numbers.marked is None else numbers.marked
        numbers.marked = None
    elif not line.startswith(OTHERS):
        found = MARK.match(line)
        if not found:
            before = (b"\n" + block).index(b"\n" + line + b"\n")
            raise _refused_at(source, at + before, "a store writes no such line")
        numbers.last_id, numbers.marked = max(numbers.last_id, int(found[1])), int(found[2])


def _refused_at(source: Source, at: int, why: str) -> BadJournal:
    before = sum(block.count(b"\n") for _, block in files.blocks(source.fd, 0, at))
    return BadJournal(why, before + 1, at)
