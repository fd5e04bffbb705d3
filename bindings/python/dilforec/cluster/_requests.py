"""What the client and the workers send each other, pickled."""
from __future__ import annotations

import functools
import io
import pickle
from collections.abc import Iterator, Mapping, Sequence
from typing import Any, NamedTuple, Optional

from dilforec.cluster._frames import Data

# The names of the handlers that each worker has: one answers, one tells where else it may be asked.
OPERATION, LISTENER = "dilforec_answer", "dilforec_listener"
# How many workers one asks: up to that many the client asks itself, more than that are asked by a tree of workers.
FAN_OUT = 16
# Lists of Wanteds that a process keeps as it read them: workers are asked for the same again and again.
KEPT = 32

# Why a reply lacks a partition. The worker hasn't it; has its source alone; made it of other lines; failed to make it;
# didn't answer; or was to be asked by one that didn't.
ABSENT, UNMADE, CHANGED, FAILED, LOST, UNASKED = "absent", "unmade", "changed", "failed", "lost", "unasked"


class Wanted(NamedTuple):
    """A partition that is asked. `rank` is its place among all, `digest` that of the lines that it has to be made of.

    With `make`, the worker makes it if it has its source alone.
    """

    rank: int
    key: str
    digest: Optional[bytes]
    make: bool = False


class Asked(NamedTuple):
    """A search: its line, which fields its hits have, the first how many hits are wanted, and in which order.

    `only` has the ranks of the partitions that it goes to; without it, it goes to all.
    """

    line: bytes
    names: Optional[bytes] = None
    k: Optional[int] = None
    is_falling: bool = False
    only: Optional[frozenset[int]] = None


class Missing(NamedTuple):
    """A partition that a reply lacks: one of the reasons above, and the pickled exception of FAILED."""

    rank: int
    why: str
    error: bytes = b""


class Reply(NamedTuple):
    """What a worker replies: the results of the partitions that it asked, and the partitions that are missing.

    `fault` is the pickled exception that kept it from answering.
    """

    results: Sequence[Any]
    missing: Sequence[Missing]
    fault: Optional[bytes] = None

    def pickled(self) -> bytes:
        # Nothing in it is there twice, and without looking for that it takes a quarter of the time.
        file = io.BytesIO()
        pickler = pickle.Pickler(file, protocol=5)
        pickler.fast = True
        pickler.dump(self)
        return file.getvalue()

    @classmethod
    def unpickled(cls, data: Data) -> Reply:
        """A worker's reply. What kept it from answering is raised."""
        reply: Reply = pickle.loads(data)
        if reply.fault is not None:
            raise pickle.loads(reply.fault)
        return reply


class Node(NamedTuple):
    """A worker with the partitions that it is asked for, a pickled list of Wanteds, and the workers that it asks."""

    address: str
    wanted: bytes
    below: Sequence[Node] = ()

    def holders(self) -> Iterator[tuple[Wanted, str]]:
        """All partitions of this worker and those below, each with the address of its worker."""
        for each in read_wanted(self.wanted):
            yield each, self.address
        for node in self.below:
            yield from node.holders()

    def unanswered(self) -> list[Missing]:
        """What is missing if this worker didn't answer. It says nothing of the workers below."""
        own = [Missing(wanted.rank, LOST) for wanted in read_wanted(self.wanted)]
        return own + [Missing(wanted.rank, UNASKED) for node in self.below for wanted, _ in node.holders()]


class Request(NamedTuple):
    """What a worker is asked: `search`, `measure` or `tell`, of which partitions, and for which searches.

    The searches, a list of Asked, are pickled once for all workers.
    """

    task: str
    node: Node
    searches: bytes

    def pickled(self) -> bytes:
        # Plain tuples are pickled in a fraction of the time of named ones.
        return pickle.dumps((self.task, tuple(self.node), self.searches), protocol=5)

    @classmethod
    def unpickled(cls, data: Data) -> Request:
        task, node, searches = pickle.loads(data)
        return cls(task, Node._make(node), searches)


@functools.lru_cache(KEPT)
def read_wanted(wanted: bytes) -> Sequence[Wanted]:
    """The Wanteds of a Node."""
    read: Sequence[Wanted] = pickle.loads(wanted)
    return read


def trees(wanted: Mapping[str, bytes], turn: int) -> list[Node]:
    """The workers that the client asks, by what each is asked for: all of them, or one that asks the others.

    `turn` counts the requests, so that the workers take turns at the top.
    """
    nodes = [Node(address, each) for address, each in wanted.items()]
    if len(nodes) <= FAN_OUT:
        return nodes
    first = turn % len(nodes)
    return [_tree(nodes[first:] + nodes[:first])]


def _tree(nodes: Sequence[Node]) -> Node:
    """The first of some workers, with up to FAN_OUT of the others right below it, and the rest below these."""
    first, others = nodes[0], nodes[1:]
    count = min(len(others), FAN_OUT)
    return first._replace(below=[_tree(others[place::count]) for place in range(count)])
