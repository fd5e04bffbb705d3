"""Searches over all partitions."""
# Dask has no types.
# mypy: allow-untyped-calls
from __future__ import annotations

import json
import time
from collections.abc import Sequence
from typing import Any, Optional

from distributed.protocol.pickle import loads

from dilforec import joins
from dilforec.cluster._partials import Partial, encoded, joined, replaced
from dilforec.cluster._places import Part
from dilforec.cluster._requests import Asked
from dilforec.cluster._rounds import Rounds
from dilforec.index import LONGEST_LINE
from dilforec.library import LINE_TOO_LONG, Closed, fault
from dilforec.values import Stats

# As docs/SCRIPT.md has it.
LONGEST_TOP = 10_000
# A longer line is sent as it is, so that it doesn't pass a limit by being written anew.
LONGEST_WRITTEN = 65_536


class Joined:
    """Lines of searches in and joined replies out, over the partitions of some rounds.

    It takes the place of a channel to a searcher. Nothing changes in it but that it is closed, so threads need no lock.
    """

    def __init__(self, rounds: Rounds, timeout: Optional[float] = None) -> None:
        self._rounds: Optional[Rounds] = rounds
        self._timeout = timeout

    @property
    def is_open(self) -> bool:
        return self._rounds is not None

    @property
    def parts(self) -> dict[str, Part]:
        """The partitions, by the names of their sources."""
        rounds = self._rounds
        return {part.source: part for part in rounds.parts} if rounds else {}

    def _open(self) -> Rounds:
        rounds = self._rounds
        if rounds is None:
            raise Closed("closed")
        return rounds

    def _open_with_parts(self) -> Rounds:
        rounds = self._open()
        if not rounds.parts:
            raise ValueError("the cluster has no source")
        return rounds

    def searcher(self) -> Joined:
        return self.within(self._timeout)

    def within(self, timeout: Optional[float]) -> Joined:
        """The same partitions, whose answers are waited for that long."""
        return Joined(self._open(), timeout)

    def close(self) -> None:
        """Gives the partitions back, unless another one has them."""
        self._rounds = None

    def ask(self, line: bytes) -> bytes:
        """The joined reply to a search's line, or to another line the refusal of a searcher; none to a blank one."""
        return self.ask_each([line], None)[0]

    def ask_each(self, lines: Sequence[bytes], names: Optional[bytes]) -> list[bytes]:
        """The joined replies to some searches; `names`, a JSON list, says which fields the first one's hits have."""
        return self.ask_all([(line, names if place == 0 else None) for place, line in enumerate(lines)])

    def ask_all(self, lines: Sequence[tuple[bytes, Optional[bytes]]]) -> list[bytes]:
        """The joined replies to some searches, each with the names of the fields that its hits have."""
        rounds, deadline = self._open_with_parts(), None if self._timeout is None else time.monotonic() + self._timeout
        searches = [_Search(line, names, len(rounds.parts)) for line, names in lines]
        answers = _asked(rounds, [(search, search.first()) for search in searches], deadline)
        ranks = [search.to_ask_again(answer) for search, answer in zip(searches, answers)]
        again = [place for place, each in enumerate(ranks) if each]
        if again:
            more = _asked(rounds, [(searches[place], searches[place].again(ranks[place])) for place in again], deadline)
            for place, each in zip(again, more):
                answers[place] = searches[place].replaced(answers[place], ranks[place], each)
        return [encoded(answer) for answer in answers]

    def stats(self) -> Stats:
        """How large the partitions are together."""
        return self._open_with_parts().stats(self._timeout)


def _asked(rounds: Rounds, asked: Sequence[tuple[_Search, Asked]], deadline: Optional[float]) -> list[Partial]:
    """The answers to some searches."""
    timeout = None if deadline is None else deadline - time.monotonic()
    partials = rounds.search([each for _, each in asked], timeout)
    return [search.joined(each) for (search, _), each in zip(asked, partials)]


class _Search:
    """A search that asks each partition for few hits at first, if it has a long top list."""

    def __init__(self, line: bytes, names: Optional[bytes], parts: int) -> None:
        if len(line) > LONGEST_LINE and line.strip(b" \t\r"):
            raise fault(LINE_TOO_LONG)
        self._line, self._names = line, names
        self._search = _search_of(line)
        top = self._search.get("top")
        self._k, self._is_falling = _first_of(top) if isinstance(top, dict) else (None, False)
        self._share = self._k
        if self._k is not None and len(line) <= LONGEST_WRITTEN:
            self._share = joins.share(self._k, parts)

    def first(self) -> Asked:
        """What all partitions are asked."""
        line = self._line if self._share == self._k else self._with_top(self._share, self._search)
        return Asked(line, self._names, self._k, self._is_falling)

    def again(self, ranks: Sequence[int]) -> Asked:
        """What some partitions are asked: for all hits that may be wanted, and nothing else."""
        search = {name: value for name, value in self._search.items() if name != "groups"}
        return Asked(self._with_top(self._k, search), self._names, self._k, self._is_falling, frozenset(ranks))

    def _with_top(self, k: Optional[int], search: dict[str, Any]) -> bytes:
        return json.dumps({"search": {**search, "top": {**search["top"], "k": k}}}).encode()

    def joined(self, partials: Sequence[Partial]) -> Partial:
        """One answer. If a partition's search failed, its exception is raised."""
        answer = joined(partials, self._k)
        if answer.fault is not None:
            raise loads(answer.fault)
        return answer

    def to_ask_again(self, answer: Partial) -> list[int]:
        """The partitions that may have more of the first k hits."""
        if answer.hits is None or self._share is None or self._share == self._k:
            return []
        return joins.parts_to_ask_again((hit[1] for hit in answer.hits), self._share)

    def replaced(self, answer: Partial, ranks: Sequence[int], again: Partial) -> Partial:
        return replaced(answer, ranks, again, self._k)


def _first_of(top: dict[str, Any]) -> tuple[Optional[int], bool]:
    """How many hits a top list has, if it may have that many, and whether their values fall."""
    k = top.get("k")
    return k if type(k) is int and 0 < k <= LONGEST_TOP else None, top.get("order") == "falling"


def _search_of(line: bytes) -> dict[str, Any]:
    """The value of a line's search, which is read for its top list alone; nothing if it has none, or is refused."""
    # Letters may be there by their numbers.
    if b'"top"' not in line and b"\\u" not in line:
        return {}
    try:
        command = json.loads(line.decode())
    except (RecursionError, ValueError):
        return {}
    search = command.get("search") if isinstance(command, dict) and len(command) == 1 else None
    return search if isinstance(search, dict) else {}
