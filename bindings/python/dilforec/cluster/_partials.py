"""The answer to a search over some of the partitions, which can be joined with those over others.

It holds what `dilforec.joins` makes of the partitions' replies, but each hit as the text that it is printed as, so that
nobody reads a document twice.
"""
from __future__ import annotations

import collections
import itertools
import json
import math
from collections.abc import Sequence
from typing import Any, NamedTuple, Optional

from dilforec.index import ENCODE

# What is between the members of a reply, and around the hits of its top list. A document has no object within, and a
# quote within a text is escaped, so nothing else in a reply looks like these.
_TOP, _FIRST, _NEXT, _LAST = b',"top":[', b'{"doc":{', b'},{"doc":{', b'}]}\n'
_COUNT, _STAMP, _VALUE = b'{"count":', b'},"stamp":', b',"value"'
# What is before, between and after the groups of a reply, if their values are keywords and if they are numbers. Since a
# quote within a keyword is escaped, only one that ends with `],[` looks like what is between, and _ODD is in it then.
_GROUPS = b',"groups":'
_KEYWORDS, _NUMBERS = (b'[["', b'],["', b"]]"), (b"[[", b"],[", b"]]")
_ODD = b'],[",'

# A hit of a top list: its value, negated if values fall; the place of its partition among all; its stamp; its text
# without what is around it. Sorted, hits are in the order of the list. Plain tuples are pickled in a fraction of the
# time of named ones.
Hit = tuple[int, int, int, bytes]
# The values of groups in rising order, as lines of JSON, and their counts. If values are few, all partitions have the
# same, which nobody reads then.
Groups = tuple[bytes, Sequence[int]]
_lines = json.JSONEncoder(ensure_ascii=False, check_circular=False, separators=("\n", ":")).encode


class Partial(NamedTuple):
    """The answer to a search over some partitions; without arguments, over none of them.

    `documents` are counted. `other` is a reply that is no answer, as a refusal. `fault` is an exception, pickled.
    """

    documents: int = 0
    groups: Optional[Groups] = None
    hits: Optional[Sequence[Hit]] = None
    other: Optional[bytes] = None
    fault: Optional[bytes] = None


class Joining:
    """An answer to which the replies of partitions are added, one after the other.

    `fault` is the pickled exception of one that didn't reply.
    """

    def __init__(self, k: Optional[int], is_falling: bool) -> None:
        self.fault: Optional[bytes] = None
        self._k, self._is_falling = k, is_falling
        self._documents = 0
        # The groups of the first partition, as in its reply. If there are others, each group as its text, and how many
        # partitions have this text: they are read together at the end.
        self._first: Optional[bytes] = None
        self._groups: Optional[collections.Counter[bytes]] = None
        self._around = _KEYWORDS
        self._hits: Optional[list[Hit]] = None
        # No value after this one is among the first k.
        self._last: float = math.inf
        self._other: Optional[bytes] = None

    def add(self, reply: bytes, rank: int, source: bytes) -> None:
        """Adds a partition's reply. `source` is the name of its source, as JSON."""
        if not reply.startswith(_COUNT):
            self._other = reply
            return
        comma, top = reply.find(b","), reply.find(_TOP)
        self._documents += int(reply[len(_COUNT):comma if comma >= 0 else -2])
        if comma != top:
            self._add_groups(reply[comma + len(_GROUPS):top if top >= 0 else -2])
        if top >= 0:
            self._add_hits(_texts(reply, top + len(_TOP), b',"source":' + source), rank)

    def _add_groups(self, groups: bytes) -> None:
        if self._first is None:
            self._first = groups
            return
        if self._groups is None:
            self._groups = collections.Counter()
            self._count_groups(self._groups, self._first)
        self._count_groups(self._groups, groups)

    def _count_groups(self, counts: collections.Counter[bytes], groups: bytes) -> None:
        if groups != b"[]":
            self._around = before, between, after = _around(groups)
            if _ODD in groups:
                counts.update(ENCODE(pair).encode()[len(before) - 1:-1] for pair in json.loads(groups))
            else:
                counts.update(groups[len(before):-len(after)].split(between))

    def _add_hits(self, texts: Sequence[bytes], rank: int) -> None:
        """Adds those of a partition's hits, which come in order, that may be among the first k of all."""
        if self._hits is None:
            self._hits = []
        sign = -1 if self._is_falling else 1
        for text in texts:
            _, stamp, number = text.rsplit(b":", 2)
            value = sign * int(number)
            if value > self._last:
                break
            self._hits.append((value, rank, int(stamp[:-len(_VALUE)]), text))
        if self._k is not None and len(self._hits) >= 2 * self._k:
            self._hits = sorted(self._hits)[:self._k]
            self._last = self._hits[-1][0]

    def answer(self) -> Partial:
        """The answer over all that was added."""
        groups = None if self._first is None else self._all_groups(self._first)
        hits = None if self._hits is None else sorted(self._hits)[:self._k]
        return Partial(self._documents, groups, hits, self._other, self.fault)

    def _all_groups(self, first: bytes) -> Groups:
        if self._groups is not None:
            return _in_order(self._read_groups(self._groups))
        # One partition has them in order. To read one list takes less than to read pairs.
        before, between, _ = _around(first)
        if first == b"[]" or _ODD in first:
            read = list(itertools.chain.from_iterable(json.loads(first)))
        else:
            read = json.loads(first[1:-1].replace(between, b"," + before[2:]))
        return _as_lines(read[::2]), read[1::2]

    def _read_groups(self, texts: collections.Counter[bytes]) -> dict[Any, int]:
        """The groups of all partitions, each value with its count."""
        if not texts:
            return {}
        before, between, after = self._around
        counts: dict[Any, int] = collections.defaultdict(int)
        for (value, count), times in zip(json.loads(before + between.join(texts) + after), texts.values()):
            counts[value] += count * times
        return counts


def _around(groups: bytes) -> tuple[bytes, bytes, bytes]:
    return _KEYWORDS if groups.startswith(_KEYWORDS[0]) else _NUMBERS


def _in_order(counts: dict[Any, int]) -> Groups:
    values = sorted(counts)
    return _as_lines(values), [counts[value] for value in values]


def _as_lines(values: Sequence[Any]) -> bytes:
    return _lines(values)[1:-1].encode()


def _texts(reply: bytes, begin: int, mark: bytes) -> list[bytes]:
    """The hits of a reply's top list, which begins there, as a Hit has them. The mark is put after each document."""
    if not reply.startswith(_FIRST, begin):
        return []
    return reply[begin + len(_FIRST):-len(_LAST)].replace(_STAMP, b"}" + mark + _STAMP[1:]).split(_NEXT)


def joined(partials: Sequence[Partial], k: Optional[int]) -> Partial:
    """One answer of several, none of which has a partition of another. A top list has the first k hits."""
    for name in "fault", "other":
        for each in partials:
            if getattr(each, name) is not None:
                return Partial(**{name: getattr(each, name)})
    if len(partials) == 1:
        return partials[0]
    lists = [each.hits for each in partials if each.hits is not None]
    hits = sorted(itertools.chain.from_iterable(lists))[:k] if lists else None
    groups = [each.groups for each in partials if each.groups is not None]
    return Partial(sum(each.documents for each in partials), _joined_groups(groups) if groups else None, hits)


def _joined_groups(lists: Sequence[Groups]) -> Groups:
    """The groups of all, value by value, as `joins.groups` has them."""
    (first, _), *others = lists
    if all(values == first for values, _ in others):
        return first, list(map(sum, zip(*(of_values for _, of_values in lists))))
    read = [zip(json.loads(b"[%b]" % values.replace(b"\n", b",")), of_values) for values, of_values in lists]
    counts: dict[Any, int] = collections.defaultdict(int, read[0])
    for pairs in read[1:]:
        for value, count in pairs:
            counts[value] += count
    return _in_order(counts)


def replaced(first: Partial, ranks: Sequence[int], again: Partial, k: Optional[int]) -> Partial:
    """An answer whose hits of some partitions are those of another one."""
    if again.fault is not None or again.other is not None:
        return again
    out = frozenset(ranks)
    left = [hit for hit in first.hits or () if hit[1] not in out]
    return first._replace(hits=sorted([*left, *(again.hits or ())])[:k])


def encoded(answer: Partial) -> bytes:
    """The reply, as `joins.encoded` writes it."""
    if answer.other is not None:
        return answer.other
    parts = [_COUNT, b"%d" % answer.documents]
    if answer.groups is not None:
        parts += [_GROUPS, _printed(*answer.groups)]
    if answer.hits:
        parts += [_TOP, _FIRST, _NEXT.join([hit[3] for hit in answer.hits]), _LAST]
    else:
        parts.append(b"}\n" if answer.hits is None else _TOP + b"]}\n")
    return b"".join(parts)


def _printed(values: bytes, counts: Sequence[int]) -> bytes:
    """Groups as a reply has them. Counts are filled in between the values, which takes less than to print pairs."""
    if not counts:
        return b"[]"
    pairs = b"[[" + values.replace(b"%", b"%%").replace(b"\n", b",%d],[") + b",%d]]"
    return pairs % tuple(counts)
